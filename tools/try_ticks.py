#!/usr/bin/env python3
"""Makes random scripts of ticks, changes most of them at random, and holds what `lockrun ticks` answers for each, status
and text, to a plain model: lists of sleepers, searched from the front at each line, with no wheel and no queue. The
model was written by docs/SCRIPT.md alone and shares nothing with the program, so that each may find the other's
mistakes. The stored examples are held to it first.

    tools/try_ticks.py PROGRAM COUNT

PROGRAM is a lockrun. SEED says which scripts are made (else the time does), JOBS how many run at a time. The last line
has the figures: how many were tried, how many of them are scripts, how often each code came, how many answers differ
from the model's, and the seed. Where any differs the status is 1, and the files are left to look at.
"""
import os
import random
import subprocess
import sys
import tempfile
import time
from collections import Counter
from concurrent.futures import ThreadPoolExecutor
from dataclasses import dataclass
from pathlib import Path

from scripts import BYTES_OF_LINE, BYTES_OF_SCRIPT, ScriptFault, is_name, number_of

EXAMPLES = Path(__file__).resolve().parent.parent / "examples"
MOST_SLEEPERS, MOST_EVENTS = 64, 20_000
GREATEST_KEY, MOST_SLEEP_TICKS, MOST_TICKS = 63, 1_000_000, 1_000

# How many words stand behind the first one.
WORDS_BEHIND = {
    "sleeper": (2,), "sleep": (2, 3), "sleepsig": (2, 3), "wakeone": (1,), "wakeup": (1,), "signal": (1,),
    "tick": (1,), "done": (0,),
}
EVENTS = ("sleep", "sleepsig", "wakeone", "wakeup", "signal", "tick")

# 1. The model: reading


class TickReader:
    """Judges one line after the other by what the lines before it have made known."""

    def __init__(self):
        # name and priority, in order
        self.sleepers = []
        # the words of each
        self.events = []
        self.is_done = False

    def judge(self, number, raw):
        """The code of the line's fault, or None."""
        if number == 1:
            return None if raw == b"ticks 1" else 1
        if len(raw) > BYTES_OF_LINE:
            return 18
        if any(byte < 32 or byte > 126 for byte in raw):
            return 19
        if raw == b"" or raw[:1] == b"#":
            return None
        words = raw.decode("ascii").split(" ")
        if "" in words or self.is_done or len(words) - 1 not in WORDS_BEHIND.get(words[0], ()):
            return 2
        if words[0] == "sleeper" and self.events:
            return 16
        codes = set(self.codes_of(words))
        if codes:
            return min(codes)
        self.learn(words)
        return None

    def codes_of(self, words):
        first = words[0]
        names = [name for name, _ in self.sleepers]
        if first == "sleeper":
            yield from [] if is_name(words[1]) else [3]
            yield from [4] if words[1] in names else []
            yield from [] if number_of(words[2], 255) is not None else [6]
            yield from [7] if len(names) >= MOST_SLEEPERS else []
        if first in ("sleep", "sleepsig", "signal"):
            if not is_name(words[1]):
                yield 3
            elif words[1] not in names:
                yield 5
        if first in ("sleep", "sleepsig", "wakeone", "wakeup"):
            key = words[2] if first in ("sleep", "sleepsig") else words[1]
            yield from [] if number_of(key, GREATEST_KEY) is not None else [6]
        if first in ("sleep", "sleepsig") and len(words) == 4:
            yield from [] if number_of(words[3], MOST_SLEEP_TICKS) else [6]
        if first == "tick":
            yield from [] if number_of(words[1], MOST_TICKS) else [6]
        if first in EVENTS and len(self.events) >= MOST_EVENTS:
            yield 7

    def learn(self, words):
        if words[0] == "sleeper":
            self.sleepers.append((words[1], int(words[2])))
        elif words[0] == "done":
            self.is_done = True
        else:
            self.events.append(words)


def read_ticks(source):
    """The sleepers and the events of a script; raises the first fault."""
    lines = source.split(b"\n")
    if lines[-1] == b"" and source:
        lines.pop()
    reader = TickReader()
    for number, raw in enumerate(lines, 1):
        code = reader.judge(number, raw)
        if code is not None:
            raise ScriptFault(number, code)
    if not reader.is_done:
        raise ScriptFault(len(lines) + 1, 17)
    return reader.sleepers, reader.events


# 2. The model: running


@dataclass
class Sleeper:
    name: str
    prio: int
    key: int
    due: int
    may_be_interrupted: bool


class TickRun:
    def __init__(self, sleepers):
        self.prios = dict(sleepers)
        # names, by thread number
        self.names = [name for name, _ in sleepers]
        self.now = 0
        # in order of arrival
        self.asleep = []
        self.posted = set()

    def sleeper(self, name):
        return next((s for s in self.asleep if s.name == name), None)

    def by_number(self, gone):
        return [name for name in self.names if name in {s.name for s in gone}]

    def remove(self, gone):
        self.asleep = [s for s in self.asleep if s not in gone]

    def happen(self, words):
        """What the event's lines say behind its number."""
        first = words[0]
        if first in ("sleep", "sleepsig"):
            return [self.sleep(first == "sleepsig", *words[1:])]
        if first == "signal":
            return [self.signal(words[1])]
        if first == "tick":
            return self.tick(int(words[1]))
        lying = [s for s in self.asleep if s.key == int(words[1])]
        if first == "wakeone":
            lying = lying and [min(lying, key=lambda s: s.prio)]
        self.remove(lying)
        return [" ".join([first, words[1]] + (self.by_number(lying) or ["-"]))]

    def sleep(self, may_be_interrupted, name, key, ticks=None):
        if self.sleeper(name) is not None:
            return f"{name} asleep"
        if may_be_interrupted and name in self.posted:
            self.posted.remove(name)
            return f"{name} interrupted"
        due = None if ticks is None else self.now + int(ticks)
        self.asleep.append(Sleeper(name, self.prios[name], int(key), due, may_be_interrupted))
        return f"{name} sleeps {key}"

    def signal(self, name):
        found = self.sleeper(name)
        if found is not None and found.may_be_interrupted:
            self.remove([found])
            return f"{name} interrupted"
        self.posted.add(name)
        return f"signal {name}"

    def tick(self, ticks):
        self.now += ticks
        gone = [s for s in self.asleep if s.due is not None and s.due <= self.now]
        self.remove(gone)
        # a stable sort: those of one tick stay in order of arrival
        gone.sort(key=lambda s: s.due)
        return [f"tick {self.now}"] + [f"{s.name} timedout {s.due}" for s in gone]


def text_of(sleepers, events):
    run = TickRun(sleepers)
    lines = [f"{number} {said}" for number, words in enumerate(events) for said in run.happen(words)]
    for name in run.names:
        found = run.sleeper(name)
        if found is not None:
            lines.append(f"sleeping {name} {found.key}")
    return "\n".join(lines + ["ok"]) + "\n"


def answer_of(source):
    """The status and the text of a source."""
    if len(source) > BYTES_OF_SCRIPT:
        return 8, b""
    try:
        return 0, text_of(*read_ticks(source)).encode("ascii")
    except ScriptFault as fault:
        return 1, f"{fault}\n".encode("ascii")


# 3. Random scripts

NUMBERS = (
    "0 00 01 1 2 7 62 63 64 65 100 254 255 256 257 511 512 513 999 1000 1001 65535 65536 999999 1000000 1000001 "
    "4294967295 4294967296 4294967297 18446744073709551615 18446744073709551616 +1 -1 1.0 0x1 1_0 x"
).split(" ")
NAMES = "a b c s0 s1 s63 s64 A a-b 1a _a abcdefghijklmnop abcdefghijklmnopq tick sleep done".split(" ")
LINES = [
    "", "#", "# a comment", " ", "done", "ticks 1", "sleeper a 1", "sleeper b 255", "sleeper b 256", "sleep a 0",
    "sleepsig a 1 1", "wakeone 0", "wakeup 63", "wakeup 64", "signal a", "tick 1", "tick 0", "tick 1001", "tick",
    "lockrun 1", "mutex m k", "thread a 1", "x" * 200, "x" * 201, "#" + "x" * 199, "#" + "x" * 200,
    "sleep a 0 1 1", "done done", "sleeper a", "signal a b",
]


def script(draw):
    """The lines of a script without a fault."""
    threads = draw.choice([0, 1, 2, 3, 5, 8, 20, 64])
    keys = draw.choice([1, 2, 5, 64])
    far = draw.choice([1, 4, 300, 1000, 3000])
    step = draw.choice([1, 3, 255, 256, 257, 1000])
    lines = [f"sleeper s{t} {draw.choice([0, 1, 7, 7, 255])}" for t in range(threads)]
    for _ in range(draw.choice([0, 1, 5, 30, 120])):
        word = draw.choice(EVENTS + ("sleep", "sleepsig", "tick")) if threads else draw.choice(["wakeone", "tick"])
        name, key = f"s{draw.randrange(max(threads, 1))}", draw.randrange(keys)
        if word in ("sleep", "sleepsig"):
            ticks = draw.choice(["", f" {draw.randint(1, far)}", f" {256 * draw.randint(1, 5)}", f" {far}"])
            lines.append(f"{word} {name} {key}{ticks}")
        elif word == "signal":
            lines.append(f"signal {name}")
        elif word == "tick":
            lines.append(f"tick {draw.choice([1, step, draw.randint(1, step)])}")
        else:
            lines.append(f"{word} {key}")
        if draw.random() < 0.03:
            lines.append(draw.choice(["", "# a comment"]))
    return ["ticks 1", *lines, "done"]


def changed_line(draw, line):
    """A line with one of its words, its spaces or its bytes changed."""
    words = line.split(" ")
    place = draw.randrange(len(words))
    change = draw.randrange(8)
    if change == 0:
        words[place] = draw.choice(NUMBERS)
    elif change == 1:
        words[place] = draw.choice(NAMES)
    elif change == 2:
        words[place] = draw.choice(list(WORDS_BEHIND))
    elif change == 3:
        del words[place]
    elif change == 4:
        words.insert(place, draw.choice(["", "1", "a", *NUMBERS]))
    elif change == 5:
        words[-1] = draw.choice(NUMBERS)
    elif change == 6:
        return line + draw.choice([" ", "\r", "\t", "\x7f", "\x00", "\x1f", "~", "x" * (BYTES_OF_LINE - len(line))])
    else:
        at = draw.randrange(len(line) + 1)
        return line[:at] + chr(draw.randrange(256)) + line[at + draw.randint(0, 1) :]
    return " ".join(words)


def change(draw, lines):
    place = draw.randrange(len(lines))
    kind = draw.randrange(7)
    if kind == 0:
        del lines[place]
    elif kind == 1:
        lines.insert(place + draw.randint(0, 1), draw.choice(LINES))
    elif kind == 2:
        lines.insert(draw.randrange(len(lines) + 1), lines[place])
    elif kind == 3:
        other = draw.randrange(len(lines))
        lines[place], lines[other] = lines[other], lines[place]
    else:
        lines[place] = changed_line(draw, lines[place])
    return lines or [""]


def long_source(draw):
    """A source at a limit, or one over it."""
    over = draw.randint(0, 1)
    kind = draw.randrange(3)
    if kind == 0:
        lines = [f"sleeper s{t} 1" for t in range(MOST_SLEEPERS + over)]
    elif kind == 1:
        lines = ["sleeper a 1"] + ["tick 1", "sleep a 0 2"] * (MOST_EVENTS // 2) + ["wakeup 0"] * over
    else:
        front = b"ticks 1\ndone\n"
        return front + b"\n" * (BYTES_OF_SCRIPT + over - len(front))
    return "\n".join(["ticks 1", *lines, "done", ""]).encode("latin-1")


def source_of(seed, number):
    draw = random.Random(f"{seed} {number}")
    if number % 250 == 249:
        return long_source(draw)
    lines = script(draw)
    for _ in range(draw.choice([0, 1, 1, 1, 2, 3])):
        lines = change(draw, lines)
    source = "\n".join(lines).encode("latin-1") + draw.choice([b"\n", b"\n", b"\n", b"", b"\n\n"])
    return source[: draw.randrange(len(source) + 1)] if draw.random() < 0.02 else source


# 4. Trying


def answer_by(program, words, source):
    ran = subprocess.run([program, *words], input=source, capture_output=True, timeout=60)
    return ran.returncode, ran.stdout


def try_examples(program):
    """Holds each example of ticks to the model, and the program to it."""
    with open(EXAMPLES.parent / "crates" / "example_rows" / "stdin") as rows:
        rows = [line.split() for line in rows if "ticks" in line.split()]
    for name, *words in rows:
        source = (EXAMPLES / (name.split(".")[0] + ".script")).read_bytes()
        wanted = answer_of(source)
        if wanted[1] != (EXAMPLES / (name + ".out")).read_bytes() or answer_by(program, words, source) != wanted:
            sys.exit(f"the example {name} differs")
    return len(rows)


def main(words):
    if len(words) != 2 or not words[1].isdigit():
        print("usage: tools/try_ticks.py PROGRAM COUNT", file=sys.stderr)
        return 64
    program, count = os.path.realpath(words[0]), int(words[1])
    seed = os.environ.get("SEED", str(int(time.time())))
    folder = Path(tempfile.mkdtemp())
    examples = try_examples(program)

    def try_one(number):
        source = source_of(seed, number)
        wanted = answer_of(source)
        found = answer_by(program, ["ticks"], source)
        if found != wanted:
            (folder / f"{number:05}.script").write_bytes(source)
            (folder / f"{number:05}.wanted").write_bytes(wanted[1])
            (folder / f"{number:05}.text").write_bytes(found[1])
            print(f"{folder}/{number:05}.script: status {found[0]}, and the model says {wanted[0]}")
        came = {0: "script", 8: "big"}.get(wanted[0]) or wanted[1].split()[-1].decode()
        return came, found != wanted

    with ThreadPoolExecutor(int(os.environ.get("JOBS", "4"))) as pool:
        tried = list(pool.map(try_one, range(count)))
    came = Counter(came for came, _ in tried)
    differ = sum(differs for _, differs in tried)
    codes = " ".join(f"{code}:{came[code]}" for code in sorted(came.keys() - {"script", "big"}, key=int))
    print(f"examples {examples} tried {count} scripts {came['script']} too big {came['big']} codes {codes} "
          f"differ {differ} seed {seed}")
    if not differ:
        folder.rmdir()
    return 1 if differ else 0


if __name__ == "__main__":
    sys.exit(main(sys.argv[1:]))
