#!/usr/bin/env python3
"""Holds what lockplan writes to what plan_model.py says, byte for byte: for each example and for random scripts of
mutexes, by each policy. It needs Python 3.8 or later.

    tools/try_plans.py PROGRAM COUNT [SEED]

PROGRAM is a lockplan, COUNT how many random scripts there are, SEED says which (else 0). The last line has the figures;
where any text differs the status is 1, and its script is left to look at.
"""
import subprocess
import sys
import tempfile
from pathlib import Path

from make_scripts import make_script
from plan_model import ByChance, ByPriority, canonical, schedule
from scripts import BYTES_OF_SCRIPT, ScriptFault, read_script

EXAMPLES = Path(__file__).resolve().parent.parent / "examples"
POLICIES = {
    "--by priority": ByPriority,
    "--by priority --without-loans": lambda: ByPriority(False),
    "--by chance 1": lambda: ByChance(1),
    "--by chance 4294967295": lambda: ByChance(4294967295),
}
# turns of threads for which the model is quick enough
MOST_OPERATIONS = 2000


def written(source, policy):
    """The status and the text that the model says."""
    try:
        plan = read_script(source)
    except ScriptFault:
        return 1, b""
    turns = schedule(plan, policy)
    text = b"" if turns is None else canonical(plan, turns)
    return (0, text) if text and len(text) <= BYTES_OF_SCRIPT else (7, b"")


def sources(count, seed):
    for path in sorted(EXAMPLES.glob("*.script")):
        yield path.name, path.read_bytes()
    for number in range(count):
        source = make_script(seed, number)
        if source.count(b"\n") < MOST_OPERATIONS:
            yield f"random {number}", source


def main():
    if len(sys.argv) not in (3, 4) or not sys.argv[2].isdecimal():
        print("usage: tools/try_plans.py PROGRAM COUNT [SEED]", file=sys.stderr)
        return 64
    program, seed = str(Path(sys.argv[1]).resolve()), sys.argv[3] if len(sys.argv) == 4 else "0"
    tried = differ = 0
    for name, source in sources(int(sys.argv[2]), seed):
        for words, policy in POLICIES.items():
            ended = subprocess.run([program, *words.split()], input=source, capture_output=True, timeout=60, check=False)
            tried += 1
            if (ended.returncode, ended.stdout) != written(source, policy()):
                differ += 1
                with tempfile.NamedTemporaryFile(prefix="plan.", suffix=".script", delete=False) as left:
                    left.write(source)
                print(f"{name} {words}: differs, with {left.name}")
    print(f"plans {tried} differ {differ} seed {seed}")
    return 1 if differ else 0


if __name__ == "__main__":
    sys.exit(main())
