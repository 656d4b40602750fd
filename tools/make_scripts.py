#!/usr/bin/env python3
"""Makes random scripts of mutexes that no run can get stuck in: 2 to 32 threads, 1 to 8 locks, each of a class of its
own. A thread takes a lock by a blocking call only while every lock that it holds, by a take or a try, has a smaller
number; a try may be of any lock that it doesn't hold. So under `run` and under `step` every thread comes to its end,
and no take is refused. With --any-order some takes are of any lock that the thread doesn't hold, and locks may share a
class: then takes are refused, and still no run gets stuck. With --shared some locks are reader-writer locks, and no run
gets stuck either. With --waits some locks are sx locks, and threads sleep on condition variables and channels and wake
each other: then runs get stuck, as they meet. With --small there are 2 or 3 threads with few operations, so that all
orders can be gone through in which these may come (ends_of_run.py), with --middle 2 to 8 with 10 to 200.

    make_scripts.py [--any-order] [--shared] [--waits] [--small] [--middle] [--program PATH] N SEED DIR

writes DIR/0000.script and so on, the same for the same N and SEED. Each is read by scripts.py, and with --program by
`PATH check` too, which must say the same counts. Status 1 where one isn't accepted.
"""
import argparse
import random
import subprocess
import sys
from pathlib import Path
from typing import NamedTuple

from scripts import MODULUS, MOST_BLOCKS, MOST_HELD, MOST_OPERATIONS, ScriptFault, read_script


# What a lock of each sort is taken, tried and released by: in each of its modes, the exclusive one last.
WORDS = {
    "mutex": [("lock", "trylock", "unlock")],
    "rw": [("rlock", "tryrlock", "runlock"), ("wlock", "trywlock", "wunlock")],
    "sx": [("slock", "tryslock", "sunlock"), ("xlock", "tryxlock", "xunlock")],
}

# What sleeps on a condition variable and on a channel, wakes one there, and wakes all.
SLEEPS = {"cond": ("wait", "signal", "broadcast"), "chan": ("msleep", "wakeup_one", "wakeup")}


class Held(NamedTuple):
    """A lock that a thread holds, and the words by which it took or tried it and releases it."""

    lock: int
    by_try: bool
    words: tuple
    exclusive: bool


class Channel(NamedTuple):
    """A condition variable or a channel: its word, its number and its lock's."""

    sort: str
    number: int
    lock: int


class ThreadMaker:
    """Writes the operations of one thread, at most as many as it is given."""

    def __init__(self, draw, sorts, channels, most, style):
        self.draw = draw
        self.sorts = sorts
        self.channels = channels
        self.locks = len(sorts)
        self.left = most
        self.style = style
        self.lines = []
        # what is held, in order
        self.held = []
        self.blocks = 0
        # what the next take may be of
        self.free = []

    def write(self, line):
        self.lines.append(line)
        self.left -= 1

    def make(self):
        while self.make_one(0):
            pass
        self.give_back(0)
        return self.lines

    def owed(self):
        """How many operations it takes to end from here: a release for each lock, an endtry for each block."""
        return len(self.held) + self.blocks

    def make_one(self, kept):
        """One operation, or a whole block, that leaves so many locks at the front of the held list as they are. False
        where no room is left for one."""
        room = self.left - self.owed()
        if room < 1:
            return False
        choices = {self.note: self.style.notes}
        if self.held:
            choices[self.edit] = self.style.edits
        if len(self.held) > kept:
            choices[self.release] = self.style.releases
        # a take needs its release too, and a try its endtry besides
        self.free = self.may_take()
        if room >= 2 and len(self.held) < MOST_HELD and self.free:
            choices[self.take] = self.style.takes
        if room >= 3 and len(self.held) < MOST_HELD and self.blocks < MOST_BLOCKS and self.may_try():
            choices[self.try_one] = self.style.tries
        if self.channels:
            choices[self.wake] = self.style.wakes
            if self.may_sleep():
                choices[self.sleep] = self.style.sleeps
        self.draw.choices(list(choices), list(choices.values()))[0](kept)
        return True

    def may_take(self):
        """The locks that a blocking call may take: those above all that are held, or now and then any others."""
        if self.style.against and self.draw.random() < self.style.against:
            return self.may_try()
        above = 1 + max((hold.lock for hold in self.held), default=-1)
        return [lock for lock in range(above, self.locks) if self.may_be_under(lock)]

    def may_be_under(self, lock):
        """Whether the lock may be acquired with what is held: an sx lock not under a mutex or a reader-writer lock."""
        return self.sorts[lock] != "sx" or all(self.sorts[hold.lock] == "sx" for hold in self.held)

    def may_try(self):
        """The locks that a try may be of: those that aren't held."""
        held = {hold.lock for hold in self.held}
        return [lock for lock in range(self.locks) if lock not in held and self.may_be_under(lock)]

    def may_sleep(self):
        """What the thread may sleep on: with the lock that it took last, by a blocking call, under sx locks alone."""
        if not self.held or self.held[-1].by_try or any(self.sorts[hold.lock] != "sx" for hold in self.held[:-1]):
            return []
        return [channel for channel in self.channels if channel.lock == self.held[-1].lock]

    def sleep(self, kept):
        channel = self.draw.choice(self.may_sleep())
        self.write(f"{SLEEPS[channel.sort][0]} c{channel.number}")

    def wake(self, kept):
        channel = self.draw.choice(self.channels)
        self.write(f"{SLEEPS[channel.sort][1 if self.draw.random() < self.style.one else 2]} c{channel.number}")

    def wake_all_along(self):
        """Nothing but wakes."""
        while self.left > 0:
            self.wake(0)
        return self.lines

    def hold(self, lock, by_try):
        """Takes or tries the lock, in one of its modes."""
        modes = WORDS[self.sorts[lock]]
        words = modes[0] if len(modes) > 1 and self.draw.random() < self.style.reads else modes[-1]
        self.write(f"{words[1 if by_try else 0]} m{lock}")
        self.held.append(Held(lock, by_try, words, words is modes[-1]))

    def take(self, kept):
        # a near lock leaves more for the takes behind
        self.hold(min(self.draw.choices(self.free, k=2)), False)

    def release(self, kept):
        place = self.draw.randrange(kept, len(self.held))
        if self.draw.random() < 0.6:
            place = len(self.held) - 1
        hold = self.held.pop(place)
        self.write(f"{hold.words[2]} m{hold.lock}")

    def give_back(self, kept):
        while len(self.held) > kept:
            self.release(kept)

    def edit(self, kept):
        hold = self.draw.choice(self.held)
        lock = hold.lock
        key = self.draw.choice((0, 1, 1, 2, 3, 7, MODULUS - 1))
        word = self.draw.choices(("add", "set", "get"), (5, 1, 3))[0] if hold.exclusive else "get"
        amount = self.draw.choice((self.draw.randrange(100), self.draw.randrange(MODULUS), MODULUS - 1))
        self.write(f"get m{lock} {key}" if word == "get" else f"{word} m{lock} {key} {amount}")

    def note(self, kept):
        self.write("show" if self.draw.random() < 0.7 else f"prio {self.draw.randrange(256)}")

    def try_one(self, kept):
        """A try and its block, behind which the held list is what it was before it. A lock that the block began with
        isn't given back in it, save at its end; the tried one may be."""
        before = len(self.held)
        self.hold(self.draw.choice(self.may_try()), True)
        self.blocks += 1
        for _ in range(self.draw.randrange(self.style.block)):
            self.make_one(before)
        self.give_back(before)
        self.step_aside()
        self.write("endtry")
        self.blocks -= 1

    def step_aside(self):
        """At the end of a block, the lock taken last before it is sometimes given back and taken again."""
        if not self.held or self.left - self.owed() < 2 or self.draw.random() > 0.3:
            return
        last = self.held[-1]
        if not last.by_try and all(last.lock > hold.lock for hold in self.held[:-1]):
            self.write(f"{last.words[2]} m{last.lock}")
            self.write(f"{last.words[0]} m{last.lock}")


class Style:
    """How often a script's threads do what."""

    def __init__(self, draw, any_order, shared, waits):
        self.takes = draw.choice((2, 4, 8))
        self.tries = draw.choice((0, 1, 2, 4))
        self.notes = draw.choice((0.2, 1))
        self.edits = draw.choice((1, 3, 6))
        self.releases = draw.choice((2, 4, 8))
        self.block = draw.choice((2, 6, 12))
        # of how many takes, as a part of all, the lock is any that isn't held
        self.against = draw.choice((0.003, 0.03, 0.3)) if any_order else 0
        # how many of the locks are reader-writer locks, and how many of the takes and tries of these are reads
        self.shared = draw.choice((0.3, 1)) if shared else 0
        self.reads = draw.choice((0.2, 0.5, 0.9)) if shared or waits else 0
        if waits:
            # how many locks are sx locks, how often a thread sleeps and wakes, and how many of the wakes are of one
            self.sleepable = draw.choice((0.2, 0.5, 1))
            self.sleeps = draw.choice((0.3, 2, 8))
            self.wakes = draw.choice((0.5, 2, 4))
            self.one = draw.choice((0.2, 0.5, 0.9))


def sort_of(draw, style, waits):
    """The sort of a lock."""
    if waits and draw.random() < style.sleepable:
        return "sx"
    return "rw" if style.shared and draw.random() < style.shared else "mutex"


def make_script(seed, number, any_order=False, shared=False, waits=False, small=False, middle=False):
    draw = random.Random(f"{seed} {number}")
    threads = draw.choice((2, 2, 3, 4, 4, 6, 8, 12, 16, 24, 32))
    locks = draw.choice((1, 1, 2, 3, 4, 6, 8))
    # few operations in most scripts, as many as there may be in some
    most = int(min(MOST_OPERATIONS / threads, 4 * 300 ** draw.random() if draw.random() < 0.97 else MOST_OPERATIONS))
    if small:
        threads, locks, most = draw.choice((2, 2, 3)), min(locks, 2), draw.randrange(6, 20)
    elif middle:
        threads, most = min(threads, 8), draw.randrange(20, 201)
    style = Style(draw, any_order, shared, waits)
    sorts = [sort_of(draw, style, waits) for _ in range(locks)]
    channels = [Channel(draw.choice(list(SLEEPS)), n, draw.randrange(locks))
                for n in range((3 if small else draw.choice((1, 1, 2, 4))) if waits else 0)]
    # in some scripts the first thread does nothing but wake, so that more of the others come to their end
    waker = waits and draw.random() < 0.4
    classes = draw.randrange(1, locks + 1) if any_order and draw.random() < 0.2 else locks
    lines = ["lockrun 1"]
    lines += [f"{sort} m{lock} c{lock % classes}" for lock, sort in enumerate(sorts)]
    lines += [f"{channel.sort} c{channel.number} m{channel.lock}" for channel in channels]
    for thread in range(threads):
        lines.append(f"thread t{thread} {draw.randrange(256)}")
        maker = ThreadMaker(draw, sorts, channels, draw.randrange(most // 2, most + 1), style)
        lines += maker.wake_all_along() if waker and thread == 0 else maker.make()
        lines.append("end")
    if draw.random() < 0.5:
        for _ in range(draw.randrange(1, 30)):
            lines.append("schedule " + " ".join(f"t{draw.randrange(threads)}" for _ in range(draw.randrange(1, 11))))
    lines.append("done")
    return "".join(line + "\n" for line in lines).encode()


TAKES, TRIES, RELEASES = ({words[n] for modes in WORDS.values() for words in modes} for n in range(3))


def keeps_to_the_order(plan):
    """Whether each take's lock has a greater number than all that its thread holds there."""
    for thread in plan.threads:
        held = []
        for operation in thread.operations:
            word = operation.word
            if word in TAKES and any(other >= operation.lock for other in held):
                return False
            if word in TAKES or word in TRIES:
                held.append(operation.lock)
            elif word in RELEASES:
                held.remove(operation.lock)
    return True


def judge(source, program, any_order):
    """Why the script isn't what it should be, or None."""
    try:
        plan = read_script(source)
    except ScriptFault as fault:
        return str(fault)
    if not any_order and not keeps_to_the_order(plan):
        return "a take out of order"
    if program is None:
        return None
    answer = subprocess.run([program, "check"], input=source, capture_output=True, timeout=20, check=False)
    counts = (f"ok threads {len(plan.threads)} locks {len(plan.locks)} channels {len(plan.channels)} "
              f"classes {len(plan.classes)} operations {sum(len(thread.operations) for thread in plan.threads)}\n")
    if answer.returncode != 0 or answer.stdout.decode() != counts:
        return f"{program} check: status {answer.returncode}, {answer.stdout.decode().strip()}"
    return None


def main():
    words = argparse.ArgumentParser(description="Makes random scripts of locks.")
    words.add_argument("--any-order", action="store_true", help="takes are of any locks, so some are refused")
    words.add_argument("--shared", action="store_true", help="some locks are reader-writer locks")
    words.add_argument("--waits", action="store_true", help="threads sleep and wake, and some locks are sx locks")
    words.add_argument("--small", action="store_true", help="there are 2 or 3 threads with few operations")
    words.add_argument("--middle", action="store_true", help="there are 2 to 8 with 10 to 200 operations")
    words.add_argument("--program", help="a lockrun, whose check must accept each script")
    words.add_argument("count", type=int)
    words.add_argument("seed")
    words.add_argument("folder", type=Path)
    given = words.parse_args()
    given.folder.mkdir(parents=True, exist_ok=True)
    for number in range(given.count):
        source = make_script(given.seed, number, given.any_order, given.shared, given.waits, given.small,
                             given.middle)
        file = given.folder / f"{number:04}.script"
        file.write_bytes(source)
        reason = judge(source, given.program, given.any_order)
        if reason is not None:
            print(f"{file}: {reason}")
            return 1
    return 0


if __name__ == "__main__":
    sys.exit(main())
