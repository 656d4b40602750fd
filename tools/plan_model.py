#!/usr/bin/env python3
"""A plain model of scheduled runs and of the policies that give turns, by docs/SCRIPT.md alone: what `lockplan` should
write, and what `lockrun step` should print. It shares nothing with the programs, so that each may find the other's
mistakes. It is short and slow.

    plan_model.py --by priority [--without-loans] < SCRIPT
    plan_model.py --by chance SEED < SCRIPT
    plan_model.py --step < SCRIPT            the history alone: what a scheduled run prints in front of its queues

It needs Python 3.8 or later. Statuses are those of lockplan; a source that is no script is said on standard error.
"""
import argparse
import sys

from scripts import (
    BYTES_OF_SCRIPT, EDITS, EXCLUSIVE, MODULUS, MOST_SCHEDULED, RELEASES, SHARED, SLEEPS, TAKES, TRIES, WAKES_ALL,
    WAKES_ONE, ScriptFault, read_script,
)

RUNS, QUEUED, WOKEN = "runs", "queued", "woken"
GOLDEN, FIRST, SECOND = 0x9E3779B97F4A7C15, 0xBF58476D1CE4E5B9, 0x94D049BB133111EB
NAMES_ON_A_LINE = 10
TURNS_OF_A_RUN = 1_000_000


class SplitMix64:
    """The generator of Steele, Lea and Flood, from its paper."""

    def __init__(self, seed):
        self.state = seed

    def draw(self):
        self.state = (self.state + GOLDEN) % MODULUS
        z = self.state
        z = ((z ^ (z >> 30)) * FIRST) % MODULUS
        z = ((z ^ (z >> 27)) * SECOND) % MODULUS
        return z ^ (z >> 31)


class LockState:
    """A lock: who has it, who waits on which side, each as (thread, kept priority), and what is lent to its owner."""

    def __init__(self, lock):
        self.lock = lock
        self.owner = None
        self.sharers = 0
        self.waiters = {EXCLUSIVE: [], SHARED: []}
        self.lent = None

    @property
    def is_free(self):
        return self.owner is None and self.sharers == 0

    @property
    def has_turnstile(self):
        return self.lock.kind != "sx"

    def all_waiters(self):
        return self.waiters[EXCLUSIVE] + self.waiters[SHARED]

    def best(self):
        return min((kept for _, kept in self.all_waiters()), default=None)

    def admits(self, mode):
        if self.is_free:
            return True
        if mode == EXCLUSIVE or self.owner is not None or self.lock.kind == "mutex":
            return False
        return self.lock.kind == "sx" or not self.waiters[EXCLUSIVE]

    def word(self):
        """The lock's word as a busy try notes it."""
        holder = 4 + 8 * self.owner if self.owner is not None else 8 * self.sharers
        return holder + 2 * bool(self.waiters[SHARED]) + bool(self.waiters[EXCLUSIVE])

    def side_woken(self):
        """Which side a release takes off."""
        first = SHARED if self.lock.kind == "sx" and self.owner is not None else EXCLUSIVE
        return first if self.waiters[first] else (SHARED if first == EXCLUSIVE else EXCLUSIVE)


class ThreadState:
    def __init__(self, thread):
        self.base = thread.base
        self.place = 0
        self.wait = RUNS
        # the queue that its record names, until it is woken: ("lock", number) or ("channel", number)
        self.blocked_on = None
        # ("lock", number) or ("thread", number)
        self.walk = None
        self.marked = []
        # in order of gaining, each as [lock, mode]
        self.held = []
        # the lock whose order was checked, until it is gained
        self.wanted = None
        # the channel of its wait, from going to sleep until the wait is over, and the mode to take the lock back in
        self.waits_on = None
        self.mode_left = EXCLUSIVE
        self.was_cut = False


class Run:
    """A scheduled run between two turns."""

    def __init__(self, plan):
        self.plan = plan
        self.locks = [LockState(lock) for lock in plan.locks]
        self.sleepers = [[] for _ in plan.channels]
        self.threads = [ThreadState(thread) for thread in plan.threads]
        self.edges = set()
        self.tables = {}
        self.history = []

    # What is so of a thread

    def effective(self, t):
        lent = [lock.lent for lock in self.locks if lock.owner == t and lock.lent is not None]
        return min([self.threads[t].base, *lent])

    def hold_of(self, t, lock):
        return next((hold for hold in self.threads[t].held if hold[0] == lock), None)

    def owed_release(self, t):
        channel = self.threads[t].waits_on
        if channel is None:
            return None
        hold = self.hold_of(t, self.plan.channels[channel].lock)
        return None if hold is None else hold[0]

    def owes(self, t):
        thread = self.threads[t]
        return thread.walk is not None or bool(thread.marked) or self.owed_release(t) is not None

    def has_ended(self, t):
        thread = self.threads[t]
        is_through = thread.was_cut or thread.place >= len(self.plan.threads[t].operations)
        return is_through and not self.owes(t) and not thread.held

    def is_idle(self, t):
        return not self.owes(t) and self.threads[t].wait == QUEUED

    def ready(self):
        return [t for t in range(len(self.threads)) if not self.has_ended(t) and not self.is_idle(t)]

    # Turns: the first action that fits

    def turn(self, t):
        thread = self.threads[t]
        if self.has_ended(t):
            return
        if thread.walk is not None:
            self.walk_on(t)
        elif thread.marked:
            self.wake(thread.marked.pop(0))
        elif self.owed_release(t) is not None:
            self.give_back(t, self.owed_release(t))
        elif thread.wait == QUEUED:
            return
        elif thread.wait == WOKEN:
            thread.wait = RUNS
        elif thread.was_cut:
            lock = thread.held[-1][0]
            self.note(t, self.release_word(t, lock))
            self.give_back(t, lock)
        else:
            self.operate(t, self.plan.threads[t].operations[thread.place])

    def walk_on(self, t):
        sort, number = self.threads[t].walk
        self.threads[t].walk = None
        if sort == "lock":
            lock = self.locks[number]
            if lock.owner is None or not lock.all_waiters():
                return
            owner, before = lock.owner, self.effective(lock.owner)
            lock.lent = lock.best()
            blocked_on = self.threads[owner].blocked_on
            waits = blocked_on is not None and blocked_on[0] == "lock" and self.locks[blocked_on[1]].has_turnstile
            if self.effective(owner) != before and waits:
                self.threads[t].walk = ("thread", owner)
        else:
            blocked_on = self.threads[number].blocked_on
            if blocked_on is None or blocked_on[0] != "lock":
                return
            lock = self.locks[blocked_on[1]]
            for side in (EXCLUSIVE, SHARED):
                if lock.has_turnstile and any(u == number for u, _ in lock.waiters[side]):
                    lock.waiters[side] = [w for w in lock.waiters[side] if w[0] != number]
                    self.insert(lock, side, number)
                    if lock.owner is not None:
                        self.threads[t].walk = blocked_on

    def insert(self, lock, side, t):
        """On a turnstile behind its equals by its effective priority; on a sleep queue at the tail with its base."""
        if not lock.has_turnstile:
            lock.waiters[side].append((t, self.threads[t].base))
            return
        kept = self.effective(t)
        place = sum(other <= kept for _, other in lock.waiters[side])
        lock.waiters[side].insert(place, (t, kept))

    def wake(self, t):
        self.threads[t].wait = WOKEN
        self.threads[t].blocked_on = None

    def give_back(self, t, number):
        lock, thread = self.locks[number], self.threads[t]
        hold = self.hold_of(t, number)
        thread.held.remove(hold)
        thread.mode_left = hold[1]
        if hold[1] == SHARED and lock.sharers > 1:
            lock.sharers -= 1
            return
        if lock.all_waiters():
            side = lock.side_woken()
            thread.marked = [u for u, _ in lock.waiters[side]]
            lock.waiters[side] = []
        lock.owner, lock.sharers, lock.lent = None, 0, None

    def gain(self, t, number, mode, words):
        lock, thread = self.locks[number], self.threads[t]
        if mode == SHARED:
            lock.sharers += 1
        else:
            lock.owner = t
            if lock.has_turnstile:
                # a claim, where others wait
                lock.lent = lock.best()
        thread.held.append([number, mode])
        thread.wanted = None
        self.note(t, words)
        self.go_on(t, thread.place + 1)

    def take(self, t, number, mode, words):
        lock, thread = self.locks[number], self.threads[t]
        if lock.admits(mode):
            self.gain(t, number, mode, words)
            return
        self.insert(lock, mode, t)
        thread.wait, thread.blocked_on = QUEUED, ("lock", number)
        if lock.has_turnstile and lock.owner is not None:
            thread.walk = ("lock", number)

    def leads(self, before, after):
        """Whether the known orders, one after the other, put a class before another."""
        found, left = {before}, [before]
        while left:
            here = left.pop()
            for one, other in self.edges:
                if one == here and other not in found:
                    found.add(other)
                    left.append(other)
        return after in found

    def operate(self, t, operation):
        thread, word = self.threads[t], operation.word
        if word in TAKES:
            if thread.wanted is None and not self.is_admitted(t, operation.lock):
                return
            thread.wanted = operation.lock
            self.take(t, operation.lock, TAKES[word][1], operation.text)
        elif word in TRIES:
            lock = self.locks[operation.lock]
            if lock.admits(TRIES[word][1]):
                self.gain(t, operation.lock, TRIES[word][1], operation.text)
            else:
                self.note(t, f"busy {lock.lock.name} {lock.word()}")
                self.go_on(t, operation.past)
        elif word in SLEEPS:
            self.sleep(t, operation)
        else:
            if word in RELEASES:
                self.note(t, operation.text)
                self.give_back(t, operation.lock)
            elif word in WAKES_ONE or word in WAKES_ALL:
                self.take_off(t, operation, word in WAKES_ALL)
            elif word in EDITS:
                at = operation.lock, operation.key
                old = self.tables.get(at, 0) if word == "add" else 0
                self.tables[at] = (old + operation.amount) % MODULUS
                self.note(t, operation.text)
            elif word == "get":
                self.note(t, f"{operation.text} {self.tables.get((operation.lock, operation.key), '-')}")
            elif word == "prio":
                thread.base = operation.prio
                self.note(t, operation.text)
            else:
                self.note(t, f"show {thread.base} {self.effective(t)}")
            self.go_on(t, thread.place + 1)

    def is_admitted(self, t, number):
        """The check of a take's order: what it teaches, or its refusal."""
        wanted = self.plan.locks[number].lock_class
        held = [self.plan.locks[lock].lock_class for lock, _ in self.threads[t].held]
        for one in held:
            if self.leads(wanted, one):
                self.threads[t].was_cut = True
                self.note(t, f"reversed {self.plan.locks[number].name} {self.plan.classes[one]}")
                return False
        self.edges.update((one, wanted) for one in held)
        return True

    def sleep(self, t, operation):
        thread, channel = self.threads[t], self.plan.channels[operation.channel]
        if thread.waits_on is None:
            self.note(t, operation.text)
            self.sleepers[operation.channel].append((t, thread.base))
            thread.waits_on = operation.channel
            thread.wait, thread.blocked_on = QUEUED, ("channel", operation.channel)
            return
        self.take(t, channel.lock, thread.mode_left, f"woke {channel.name}")
        if thread.wait == RUNS:
            thread.waits_on = None

    def take_off(self, t, operation, all_of_them):
        asleep = self.sleepers[operation.channel]
        taken = asleep if all_of_them else [min(asleep, key=lambda sleeper: sleeper[1])] if asleep else []
        self.sleepers[operation.channel] = [sleeper for sleeper in asleep if sleeper not in taken]
        self.threads[t].marked = [u for u, _ in taken]
        names = [self.plan.threads[u].name for u in sorted(u for u, _ in taken)]
        self.note(t, " ".join([operation.text, *(names or ["-"])]))

    def go_on(self, t, place):
        operations = self.plan.threads[t].operations
        while place < len(operations) and operations[place].word == "endtry":
            place += 1
        self.threads[t].place = place

    def release_word(self, t, number):
        lock, mode = self.plan.locks[number], self.hold_of(t, number)[1]
        word = next(word for word, meaning in RELEASES.items() if meaning == (lock.kind, mode))
        return f"{word} {lock.name}"

    def note(self, t, words):
        self.history.append(f"{len(self.history)} {self.plan.threads[t].name} {words}")


def step(plan, turns=TURNS_OF_A_RUN):
    """The scheduled run, and its last word."""
    run, numbers = Run(plan), range(len(plan.threads))
    coming, made, is_idle = list(plan.schedule), 0, False
    while not all(map(run.has_ended, numbers)):
        if not coming:
            if is_idle:
                return run, "stuck"
            coming, is_idle = [t for t in numbers if not run.has_ended(t)], True
        if made == turns:
            return run, "toolong"
        t = coming.pop(0)
        is_idle = is_idle and not run.has_ended(t) and run.is_idle(t)
        run.turn(t)
        made += 1
    return run, "reversed" if any(thread.was_cut for thread in run.threads) else "ok"


class ByPriority:
    def __init__(self, heeds_loans=True):
        self.heeds_loans = heeds_loans

    def choose(self, run, last):
        """One that owes something before all others; of these the least priority; of equals the one that ran last."""
        ready = run.ready()
        ready = [t for t in ready if run.owes(t)] or ready
        if not ready:
            return None
        prio = {t: run.effective(t) if self.heeds_loans else run.threads[t].base for t in ready}
        best = [t for t in ready if prio[t] == min(prio.values())]
        return last if last in best else best[0]


class ByChance:
    def __init__(self, seed):
        self.generator = SplitMix64(seed)

    def choose(self, run, last):
        ready = run.ready()
        return ready[self.generator.draw() % len(ready)] if ready else None


def schedule(plan, policy):
    """The schedule that a policy makes: the plan's own, and behind it whom the policy chooses until it chooses nobody.
    None where it has too many entries."""
    run, turns = Run(plan), list(plan.schedule)
    for t in turns:
        run.turn(t)
    while True:
        t = policy.choose(run, turns[-1] if turns else None)
        if t is None:
            return turns
        if len(turns) == MOST_SCHEDULED:
            return None
        run.turn(t)
        turns.append(t)


def canonical(plan, turns):
    """The canonical script of a plan with this schedule."""
    names = [thread.name for thread in plan.threads]
    lines = ["lockrun 1"]
    lines += [f"{lock.kind} {lock.name} {plan.classes[lock.lock_class]}" for lock in plan.locks]
    lines += [f"{'cond' if channel.is_condition else 'chan'} {channel.name} {plan.locks[channel.lock].name}"
              for channel in plan.channels]
    for thread in plan.threads:
        lines += [f"thread {thread.name} {thread.base}", *(operation.text for operation in thread.operations), "end"]
    for start in range(0, len(turns), NAMES_ON_A_LINE):
        lines.append(" ".join(["schedule", *(names[t] for t in turns[start:start + NAMES_ON_A_LINE])]))
    return "".join(line + "\n" for line in [*lines, "done"]).encode()


def policy_of(given):
    """The policy that the words say, or None."""
    if given.by == ["priority"]:
        return ByPriority(not given.without_loans)
    if len(given.by) == 2 and given.by[0] == "chance" and given.by[1].isdecimal() and not given.without_loans:
        return ByChance(int(given.by[1])) if int(given.by[1]) < 1 << 32 else None
    return None


def main():
    words = argparse.ArgumentParser(description="A plain model of scheduled runs and of policies.")
    words.add_argument("--by", nargs="+", metavar="POLICY", default=[])
    words.add_argument("--without-loans", action="store_true")
    words.add_argument("--step", action="store_true")
    given = words.parse_args()
    policy = policy_of(given)
    if given.step == (policy is not None):
        words.error("--step, --by priority [--without-loans], or --by chance SEED")
    try:
        plan = read_script(sys.stdin.buffer.read())
    except ScriptFault as fault:
        print(fault, file=sys.stderr)
        return 1
    if given.step:
        run, last = step(plan)
        print(*run.history, last, sep="\n")
        return 0
    turns = schedule(plan, policy)
    text = b"" if turns is None else canonical(plan, turns)
    if turns is None or len(text) > BYTES_OF_SCRIPT:
        return 7
    sys.stdout.buffer.write(text)
    return 0


if __name__ == "__main__":
    sys.exit(main())
