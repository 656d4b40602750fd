#!/usr/bin/env python3
"""Holds what `lockrun profile` prints to what is counted here in the text that `lockrun step` prints, with the same
options: for each example and for random scripts, byte for byte. It needs Python 3.8 or later.

    tools/try_profiles.py PROGRAM COUNT [FIRST]

PROGRAM is a lockrun, COUNT how many random scripts of bench/shapes there are, and FIRST the seed of the first (else 1).
The counts are those of docs/SCRIPT.md, "A profile", taken from pairs of entries. The last line has the figures; where
any text differs the status is 1, and its script is left to look at.
"""
import importlib.machinery
import importlib.util
import subprocess
import sys
import tempfile
from collections import Counter
from pathlib import Path

from scripts import ScriptFault, read_script
from texts import TextReader

TOP = Path(__file__).resolve().parent.parent


def shapes():
    sys.dont_write_bytecode = True
    loader = importlib.machinery.SourceFileLoader("shapes", str(TOP / "bench" / "shapes"))
    module = importlib.util.module_from_spec(importlib.util.spec_from_loader("shapes", loader))
    loader.exec_module(module)
    return module


def begun(plan, entry):
    """The lock of which a hold begins with the entry, or None."""
    if entry.event in ("locked", "tried"):
        return entry.lock
    return plan.channels[entry.channel].lock if entry.event in ("woke", "halted channel") else None


def ended(plan, entry):
    """The lock of which a hold ends with it, or None."""
    if entry.event == "unlocked":
        return entry.lock
    return plan.channels[entry.channel].lock if entry.event == "sleeps" else None


def holds_in(plan, entries):
    """The holds: thread, lock, and the tickets of begin and end; without an end the number of entries."""
    holds = []
    for begin, entry in enumerate(entries):
        lock = begun(plan, entry)
        if lock is not None:
            ends = (at for at in range(begin + 1, len(entries))
                    if entries[at].thread == entry.thread and ended(plan, entries[at]) == lock)
            holds.append((entry.thread, lock, begin, next(ends, len(entries))))
    return holds


def profile(plan, text):
    entries = text.entries
    holds = holds_in(plan, entries)
    lines = []
    for number, lock in enumerate(plan.locks):
        own = [(begin, end) for _, held, begin, end in holds if held == number]
        lengths = [end - begin for begin, end in own]
        together = [sum(begin <= at < end for begin, end in own) for at in range(len(entries))]
        busy = sum(entry.event == "busy" and entry.lock == number for entry in entries)
        waits = sum(entry.event == "sleeps" and plan.channels[entry.channel].lock == number for entry in entries)
        halted = sum(entry.event == "halted lock" and entry.lock == number for entry in entries)
        lines.append(f"lock {lock.name} class {plan.classes[lock.lock_class]} holds {len(own)} total {sum(lengths)} "
                     f"longest {max(lengths, default=0)} together {max(together, default=0)} busy {busy} "
                     f"waits {waits} halted {halted}")
    pairs = Counter(
        (plan.locks[first].lock_class, plan.locks[second].lock_class)
        for thread, first, begin, end in holds
        for other, second, at, _ in holds
        if thread == other and begin < at < end
    )
    for (first, second), count in sorted(pairs.items()):
        lines.append(f"order {plan.classes[first]} {plan.classes[second]} {count}")
    return "".join(line + "\n" for line in [*lines, text.last]).encode()


def wanted(source, status, printed):
    """The status and the text of the profile, by those of the run."""
    try:
        plan = read_script(source)
    except ScriptFault:
        return status, printed
    return status, profile(plan, TextReader(plan).read(printed))


def sources(count, first):
    for path in sorted((TOP / "examples").glob("*.script")):
        yield path.name, path.read_bytes(), []
    random = shapes().Random
    for seed in range(first, first + count):
        yield f"random {seed}", random(seed).text(), [["--turns", str(seed % 97 + 1)]]


def answer(program, command, options, source):
    ran = subprocess.run([program, command, *options], input=source, capture_output=True, timeout=60, check=False)
    return ran.returncode, ran.stdout


def main():
    if len(sys.argv) not in (3, 4) or not all(word.isdecimal() for word in sys.argv[2:]):
        print("usage: tools/try_profiles.py PROGRAM COUNT [FIRST]", file=sys.stderr)
        return 64
    program, first = str(Path(sys.argv[1]).resolve()), int(sys.argv[3]) if len(sys.argv) == 4 else 1
    tried = differ = 0
    ends = Counter()
    for name, source, cuts in sources(int(sys.argv[2]), first):
        for options in [[], *cuts]:
            status, printed = answer(program, "step", options, source)
            tried += 1
            ends[status] += 1
            if answer(program, "profile", options, source) != wanted(source, status, printed):
                differ += 1
                with tempfile.NamedTemporaryFile(prefix="profile.", suffix=".script", delete=False) as left:
                    left.write(source)
                print(f"{name} {' '.join(options)}: differs, with {left.name}")
    by_status = ", ".join(f"{ends[status]} of status {status}" for status in sorted(ends))
    print(f"profiles {tried} differ {differ}: {by_status}")
    return 1 if differ else 0


if __name__ == "__main__":
    sys.exit(main())
