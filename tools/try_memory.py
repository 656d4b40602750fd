#!/usr/bin/env python3
"""Refuses each allocation of a program in turn, alone and with all behind it, and each start of a thread, and judges
what the program then answers; and counts what it takes while threads run. It needs Python 3.9 or later, the system's C
compiler, and Linux with glibc.

    tools/try_memory.py [--jobs N] [--first N] [--seconds N] [--command WORDS] PROGRAM SCRIPT ..

PROGRAM is a lockrun, and each script is given to its `check`, `step` and `run`; or a program that has the words WORDS
instead, as a lockplan has `--by priority`. Without a refusal no allocation is asked for between the start of the first
thread and the last join, save the block that each further start hands to its thread. Where an allocation was refused,
either the status is 4, no text is printed, and what standard error has is about memory; or text and status are those of
a run to which nothing was refused, and standard error has no line that such a run's hasn't. Of `run`, whose texts
differ, another text is held to the law of a history by check_history.py, and the status is that of its last word.
A run that takes more than --seconds (60) hangs. With --first each of the first N allocations of a script and command is
refused, and of those behind them each tenth; else each. For each script and command a line tells how many allocations
and threads are asked for, how often some were refused, and how many of these runs ended with status 4, how many with a
text, and how many wrongly; each wrong one has a line of its own, and the status is 1 then. It also tells how many
allocations were asked for while threads ran, by starts and by others: by others none is right.
"""
import argparse
import os
import subprocess
import sys
import tempfile
from concurrent.futures import ThreadPoolExecutor
from pathlib import Path
from typing import NamedTuple

from check_history import check
from texts import Refusal

STATUSES = {b"ok": 0, b"stuck": 5, b"reversed": 6, b"toolong": 7}
NO_MEMORY = 4


class Ended(NamedTuple):
    """How a run ended, how many allocations and threads it asked for, how many were refused, how many allocations it
    asked for between the first start and the last join, how many of these were handed to starts, and what it took at
    most: allocated bytes, and resident KiB."""

    status: int
    text: bytes
    said: bytes
    allocations: int
    threads: int
    refused: int
    meanwhile: int
    handed: int
    most_bytes: int = 0
    most_resident: int = 0


def run(given, library, command, source, what="", first=1, last=0):
    """None where it hung."""
    told, tell = os.pipe()
    words = dict(os.environ, LD_PRELOAD=library, REFUSED=what, FIRST=str(first), LAST=str(last), TOLD=str(tell))
    with open(told, "rb") as told:
        try:
            ended = subprocess.run([given.program, *command.split()], input=source, capture_output=True, env=words,
                                   pass_fds=[tell], timeout=given.seconds)
        except subprocess.TimeoutExpired:
            return None
        finally:
            os.close(tell)
        counts = told.read().split() or [0] * 7
    return Ended(ended.returncode, ended.stdout, ended.stderr, *map(int, counts))


def fault_of_text(source, command, text, status):
    """What is wrong with a text that isn't that of the run to which nothing was refused, if anything."""
    if command != "run":
        return "another text or status than without a refusal"
    if status != STATUSES.get(text.rstrip(b"\n").rpartition(b"\n")[2]):
        return f"status {status} isn't that of the last word"
    try:
        check(source, text, False)
    except Refusal as refusal:
        return str(refusal)
    return ""


def wrong(source, command, plain, ended):
    """What is wrong with an answer, if anything."""
    if ended is None:
        return "it hung"
    if ended.status < 0:
        return f"it crashed with signal {-ended.status}"
    if ended.status == NO_MEMORY:
        if ended.text:
            return "status 4 with a text"
        lines = ended.said.splitlines()
        return "" if all(b"memory" in line for line in lines) else f"status 4 says {ended.said!r}"
    if (ended.text, ended.status) != (plain.text, plain.status):
        return fault_of_text(source, command, ended.text, ended.status)
    more = set(ended.said.splitlines()) - set(plain.said.splitlines())
    return f"standard error has {min(more)!r}" if more else ""


def tries(plain, first):
    """What is refused in turn: what, from which on and up to which."""
    each = [n for n in range(1, plain.allocations + 1) if first is None or n <= first or n % 10 == 0]
    yield from (("allocation", n, n) for n in each)
    yield from (("allocation", n, 10**9) for n in each)
    yield from (("thread", n, n) for n in range(1, plain.threads + 1))
    yield from (("thread", n, 10**9) for n in range(1, plain.threads + 1))


def try_script(given, library, path, command):
    """Whether all answers are right."""
    source = path.read_bytes()
    plain = run(given, library, command, source)
    if plain is None:
        print(f"{path.name} {command}: hung without a refusal")
        return False
    if plain.meanwhile != plain.handed:
        print(f"{path.name} {command}: {plain.meanwhile} allocations between the first start and the last join, and"
              f" starts have {plain.handed} of them")
    todo = list(tries(plain, given.first))
    with ThreadPoolExecutor(given.jobs) as pool:
        answers = list(pool.map(lambda what: run(given, library, command, source, *what), todo))
    refused = [(what, ended) for what, ended in zip(todo, answers)
               if ended is None or ended.refused or ended.status < 0]
    faults = [(what, wrong(source, command, plain, ended)) for what, ended in refused]
    for (what, first, last), fault in faults:
        if fault:
            print(f"{path.name} {command}: {what} {first}{'' if last == first else ' and all behind it'}: {fault}")
    ends = [ended.status for _, ended in refused if ended is not None]
    bad = sum(bool(fault) for _, fault in faults)
    print(f"{path.name} {command}: allocations {plain.allocations} threads {plain.threads}"
          f" of starts while threads run {plain.handed} of others {plain.meanwhile - plain.handed}"
          f" refused {len(refused)}"
          f" no memory {ends.count(NO_MEMORY)} with a text {len(ends) - ends.count(NO_MEMORY)} wrong {bad}", flush=True)
    return not bad and plain.meanwhile == plain.handed


def main():
    words = argparse.ArgumentParser(description="Refuses each allocation in turn, and judges the answers.")
    words.add_argument("--jobs", type=int, default=2)
    words.add_argument("--first", type=int)
    words.add_argument("--seconds", type=int, default=60)
    words.add_argument("--command", action="append", metavar="WORDS")
    words.add_argument("program", type=os.path.realpath)
    words.add_argument("script", nargs="+", type=Path)
    given = words.parse_args()
    if not os.access(given.program, os.X_OK):
        words.error(f"{given.program} is no program")
    with tempfile.TemporaryDirectory() as room:
        library = f"{room}/watch.so"
        compiler, watch = os.environ.get("CC", "cc"), Path(__file__).with_name("watch_memory.c")
        subprocess.run([compiler, "-O2", "-shared", "-fPIC", "-o", library, watch, "-ldl"], check=True)
        right = [try_script(given, library, path, command)
                 for path in given.script for command in given.command or ("check", "step", "run")]
    return 0 if all(right) else 1


if __name__ == "__main__":
    sys.exit(main())
