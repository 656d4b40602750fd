#!/usr/bin/env python3
"""Makes random scripts, runs each by threads, several at a time and every third on one processor alone, and holds each
text to the law of a history by check_history.py. A run that takes too long hangs; one whose status isn't that of its
last word has crashed. It needs Python 3.9 or later.

    tools/try_runs.py [--step] [--any-order] [--shared] [--waits] [--small] [--middle] [--ends] [--stopped] [--gated]
        [--jobs N] [--seconds N] [--seed SEED] PROGRAM COUNT

PROGRAM is a lockrun. With --step its scheduled runs are tried in place of `run`; with --any-order the scripts' takes
keep to no order, with --shared some of their locks are reader-writer locks, with --waits some are sx locks, and threads
sleep and wake each other. With --small the scripts are small, with --middle neither that nor large; with --ends they
are small, and the end of each run is also held to those that ends_of_run.py finds, where few enough states lead there.
With --stopped single threads of each run are stopped at random for up to two milliseconds, by stop_at_random.c, which
the system's C compiler builds: so one may be stopped that has out what others wait for. With --gated PROGRAM is a
gate_runs, which holds single threads at single operations until others have come further; each run has a seed of its
own. --seed says which scripts are made (else the time does), --jobs how many run at a time (4), --seconds how long one
may take (20).

The last line has the figures: how many were run, how many on one processor, and how many of the others with more
threads than processors; how many texts were refused, how many hung and crashed, how many runs ended reversed and how
many stuck, how many sleeps were halted and how many were woken, how many tries were busy and takes refused, how often a
`show` told a loan, how many ends were held so, and how many histories differ from that of `step`, so that one sees that
threads interleave; by how many voluntary switches threads went to sleep, and in how many runs, one switch for each
thread not counted, which its start or the wait for its end may take; and how often a gate held a thread, and how often
until it gave up. Where any text was refused, or a run hung or crashed, the status is 1 and its files are left to look
at; of one that hung it is told what its threads did, as S where one slept and R where it ran.
"""
import argparse
import os
import re
import subprocess
import sys
import tempfile
import time
from collections import Counter
from concurrent.futures import ProcessPoolExecutor
from contextlib import suppress
from functools import partial
from pathlib import Path
from typing import NamedTuple

from check_history import check
from ends_of_run import ends
from make_scripts import make_script
from scripts import read_script
from texts import Refusal, TextReader

STATUSES = {"ok": 0, "stuck": 5, "reversed": 6, "toolong": 7}
MOST_STATES = 20_000


class Ended(NamedTuple):
    """How a run ended: its status, its text, what it said on standard error, and its voluntary switches."""

    status: int
    text: bytes
    said: bytes
    switches: int


class Hung(Exception):
    """A run took too long."""


def states(pid):
    """What the threads of a process do, a letter each."""
    found = []
    for stat in Path(f"/proc/{pid}/task").glob("*/stat"):
        with suppress(OSError):  # a thread may end meanwhile
            found.append(stat.read_text().rpartition(")")[2].split()[0])
    return "".join(sorted(found))


def run(program, command, source, pinned, seconds):
    pin = partial(os.sched_setaffinity, 0, {0}) if pinned else None
    with tempfile.TemporaryFile() as given, tempfile.TemporaryFile() as printed, tempfile.TemporaryFile() as said:
        given.write(source)
        given.seek(0)
        started = subprocess.Popen([*program, command], stdin=given, stdout=printed, stderr=said, preexec_fn=pin)
        end = time.monotonic() + seconds
        pause = 0.001
        while True:
            pid, status, used = os.wait4(started.pid, os.WNOHANG)
            if pid:
                break
            if time.monotonic() > end:
                found = states(started.pid)
                started.kill()
                started.wait()
                raise Hung(found)
            time.sleep(pause)
            pause = min(2 * pause, 0.05)
        started.returncode = os.waitstatus_to_exitcode(status)
        printed.seek(0)
        said.seek(0)
        return Ended(started.returncode, printed.read(), said.read(), used.ru_nvcsw)


def build_stopper(room):
    """A program that runs another, and stops threads of it."""
    stopper = f"{room}/stop_at_random"
    source = Path(__file__).with_name("stop_at_random.c")
    subprocess.run([os.environ.get("CC", "cc"), "-O2", "-o", stopper, source], check=True)
    return stopper


def entries(text):
    """The lines of a text's history."""
    lines = text.split(b"\n")
    return lines[:next((n for n, line in enumerate(lines) if not line[:1].isdigit()), len(lines))]


def last_word(text):
    return text.rstrip(b"\n").rpartition(b"\n")[2].decode("latin-1")


def comes_of_some_order(source, text):
    """Whether some order of the threads' operations ends as the text does; None where there are too many orders."""
    plan = read_script(source)
    found = ends(plan, MOST_STATES)
    if found is None:
        return None
    read = TextReader(plan).read(text)
    return (read.last, tuple(tuple(cell) for cell in read.cells)) in found


def figures_of(given, pinned, source, ended, scheduled):
    """What came of a run, how often."""
    history = entries(ended.text)
    calls = Counter(line.split()[2] for line in history)
    held = re.search(rb"held (\d+) in vain (\d+)\n$", ended.said) if given.gated else (b"", b"0", b"0")
    threads = source.count(b"\nthread ")
    return Counter({
        last_word(ended.text): 1,
        "crowded": not pinned and threads > os.cpu_count(),
        # a scheduled run that was cut off tells only how its history begins
        "differs": history[:len(scheduled)] != scheduled,
        "halted": calls[b"halted"], "woke": calls[b"woke"], "busy": calls[b"busy"], "takes": calls[b"reversed"],
        "lent": sum(line.split()[2] == b"show" and int(line.split()[4]) < int(line.split()[3]) for line in history),
        "slept": max(ended.switches - threads, 0), "asleep": ended.switches > threads,
        "held": int(held[1]), "vain": int(held[2]),
    })


def try_one(given, stopper, number):
    """The number of a script, its source, the text of its run, how that ended, and what came of it how often."""
    is_small = given.small or given.ends
    source = make_script(given.seed, number, given.any_order, given.shared, given.waits, is_small, given.middle)
    pinned = number % 3 == 0
    program = [given.program, str(number)] if given.gated else [given.program]
    stopped = [stopper, str(number)] if stopper else []
    text = b""
    try:
        ended = run([*stopped, *program], "step" if given.step else "run", source, pinned, given.seconds)
        text = ended.text
        if ended.status != STATUSES.get(last_word(text)):
            return number, source, text, f"crashed with status {ended.status}", Counter()
        check(source, text, given.step)
        is_end = comes_of_some_order(source, text) if given.ends and not given.step else None
        if is_end is False:
            return number, source, text, "refused: no order of the operations ends so", Counter()
        scheduled = entries(run(program, "step", source, False, given.seconds).text)
    except Hung as found:
        return number, source, text, f"hung, its threads {found}", Counter()
    except Refusal as refusal:
        return number, source, text, f"refused: {refusal}", Counter()
    figures = figures_of(given, pinned, source, ended, scheduled)
    figures["explored"] = is_end is True
    return number, source, text, "ran", figures


def main():
    words = argparse.ArgumentParser(description="Runs random scripts by threads, and judges each text.")
    words.add_argument("--step", action="store_true", help="scheduled runs are tried")
    words.add_argument("--any-order", action="store_true", help="takes are of any locks, so some are refused")
    words.add_argument("--shared", action="store_true", help="some locks are reader-writer locks")
    words.add_argument("--waits", action="store_true", help="threads sleep and wake, and some locks are sx locks")
    words.add_argument("--small", action="store_true", help="the scripts are small")
    words.add_argument("--middle", action="store_true", help="the scripts are neither small nor large")
    words.add_argument("--ends", action="store_true", help="ends are held to those that ends_of_run.py finds")
    words.add_argument("--stopped", action="store_true", help="single threads are stopped at random")
    words.add_argument("--gated", action="store_true", help="single threads are held at operations, by a gate_runs")
    words.add_argument("--jobs", type=int, default=4)
    words.add_argument("--seconds", type=int, default=20)
    words.add_argument("--seed", default=str(int(time.time())))
    words.add_argument("program", type=os.path.realpath)
    words.add_argument("count", type=int)
    given = words.parse_args()
    if not os.access(given.program, os.X_OK) or given.count < 1:
        words.error(f"{given.program} is no program, or {given.count} no number of runs")
    figures, folder = Counter(), None
    room = tempfile.TemporaryDirectory()
    stopper = build_stopper(room.name) if given.stopped else None
    with ProcessPoolExecutor(given.jobs) as pool:
        for number, source, text, end, counts in pool.map(partial(try_one, given, stopper), range(given.count),
                                                          chunksize=8):
            figures += counts
            if end != "ran":
                figures[end.split()[0].rstrip(":,")] += 1
                folder = folder or Path(tempfile.mkdtemp())
                (folder / f"{number:04}.script").write_bytes(source)
                (folder / f"{number:04}.text").write_bytes(text)
                print(f"{folder}/{number:04}.script: {end}", flush=True)
    print(f"runs {given.count} on one processor {(given.count + 2) // 3} crowded {figures['crowded']}"
          f" refused {figures['refused']} hung {figures['hung']} crashed {figures['crashed']}"
          f" reversed {figures['reversed']} stuck {figures['stuck']} halted {figures['halted']} woke {figures['woke']}"
          f" busy {figures['busy']} takes refused {figures['takes']} lent {figures['lent']}"
          f" explored {figures['explored']} differ from step {figures['differs']}"
          f" slept {figures['slept']} in {figures['asleep']} runs"
          f" held {figures['held']} in vain {figures['vain']} seed {given.seed}")
    return 0 if folder is None else 1


if __name__ == "__main__":
    sys.exit(main())
