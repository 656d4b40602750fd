#!/usr/bin/env python3
"""How the runs of a script's threads may end: it goes through all orders in which its threads' operations may come, by
docs/SCRIPT.md, and prints each last word with the tables that are left. It shares nothing with the program. An end that
it doesn't have is none of `lockrun run`; of those that it has some may never come, since where a word could be seen in
more than one way it takes all of them, and a halting may meet any thread that sleeps while it goes on.

    tools/ends_of_run.py [--most STATES] SCRIPT        (- is standard input)

A line for each end, as `ok m 1 5`: the last word, and for each key a lock, the key and its value. Status 1 where there
are more than so many states (100,000).
"""
import argparse
import sys
from typing import NamedTuple

from scripts import (EDITS, EXCLUSIVE, MODULUS, RELEASES, SHARED, SLEEPS, TAKES, TRIES, WAKES_ALL, WAKES_ONE,
                     ScriptFault, read_script)

# Where a thread is in its operation.
READY, ASKED, ASLEEP, WOKEN, HALTED, CUT = "ready", "asked", "asleep", "woken", "halted", "cut"


class Thread(NamedTuple):
    """At which operation it is, how, and the locks that it holds with their modes, the one gained last at the end."""

    next: int
    how: str
    held: tuple


class State(NamedTuple):
    threads: tuple
    tables: tuple
    # the edges between classes that takes have taught
    edges: frozenset
    # those who are to be halted, and whether anybody was, or was refused
    halting: frozenset
    halted: bool
    reversed: bool


class Explorer:
    """Goes from a state of a plan to those that may come next."""

    def __init__(self, plan):
        self.plan = plan

    def operation(self, state, t):
        operations = self.plan.threads[t].operations
        at = state.threads[t].next
        return operations[at] if at < len(operations) else None

    def first(self):
        threads = tuple(Thread(0, READY, ()) for _ in self.plan.threads)
        return State(threads, (), frozenset(), frozenset(), False, False)

    def holders(self, state, lock):
        return [(u, mode) for u, thread in enumerate(state.threads) for held, mode in thread.held if held == lock]

    def admits(self, state, lock, mode):
        holders = self.holders(state, lock)
        return not holders or (mode == SHARED and all(other == SHARED for _, other in holders))

    def may_wait_to_write(self, state, lock, t):
        """Whether another thread may be on its way to write under the lock, which then goes before a reader."""
        if self.plan.locks[lock].kind != "rw":
            return False
        return any(u != t and thread.how == ASKED and TAKES[self.operation(state, u).word][1] == EXCLUSIVE
                   and self.operation(state, u).lock == lock for u, thread in enumerate(state.threads))

    def put(self, state, t, thread, **changes):
        threads = state.threads[:t] + (thread,) + state.threads[t + 1:]
        return state._replace(threads=threads, halting=state.halting - {t}, **changes)

    def forbids(self, edges, wanted, held):
        """Whether a path of edges leads from the one class to the other, or both are one."""
        reached, todo = {wanted}, [wanted]
        while todo:
            at = todo.pop()
            for before, behind in edges:
                if before == at and behind not in reached:
                    reached.add(behind)
                    todo.append(behind)
        return held in reached

    def ask(self, state, t, operation):
        """Its take's order is checked, and taught."""
        thread = state.threads[t]
        wanted = self.plan.locks[operation.lock].lock_class
        held = [self.plan.locks[lock].lock_class for lock, _ in thread.held]
        if any(self.forbids(state.edges, wanted, other) for other in held):
            return self.put(state, t, thread._replace(how=CUT), reversed=True)
        edges = state.edges | {(other, wanted) for other in held}
        return self.put(state, t, thread._replace(how=ASKED), edges=edges)

    def gain(self, state, t, lock, mode):
        thread = state.threads[t]
        return self.put(state, t, Thread(thread.next + 1, READY, thread.held + ((lock, mode),)))

    def go_on(self, state, t, **changes):
        return self.put(state, t, state.threads[t]._replace(next=state.threads[t].next + 1), **changes)

    def sleep(self, state, t, channel):
        """It stands on the queue, and gives its lock up, the one that it gained last."""
        thread = state.threads[t]
        return self.put(state, t, thread._replace(how=ASLEEP, held=thread.held[:-1] + ((None, thread.held[-1][1]),)))

    def take_back(self, state, t):
        """Its lock, in the mode in which it held it, where the word admits that."""
        thread = state.threads[t]
        lock, mode = self.plan.channels[self.operation(state, t).channel].lock, thread.held[-1][1]
        if not self.admits(state, lock, mode):
            return []
        held = thread.held[:-1] + ((lock, mode),)
        if thread.how == WOKEN:
            return [self.put(state, t, Thread(thread.next + 1, READY, held))]
        return [self.put(state, t, Thread(thread.next, CUT, held))]

    def sleepers(self, state, channel):
        return [u for u, thread in enumerate(state.threads)
                if thread.how == ASLEEP and self.operation(state, u).channel == channel]

    def wake(self, state, t, woken):
        state = self.go_on(state, t)
        for u in woken:
            state = self.put(state, u, state.threads[u]._replace(how=WOKEN))
        return state

    def edit(self, state, t, operation):
        tables = dict(state.tables)
        place = operation.lock, operation.key
        before = tables.get(place, 0) if operation.word == "add" else 0
        tables[place] = (before + operation.amount) % MODULUS
        return self.go_on(state, t, tables=tuple(sorted(tables.items())))

    def release(self, state, t):
        """A thread that was cut gives back what it gained last."""
        thread = state.threads[t]
        return self.put(state, t, thread._replace(held=thread.held[:-1]))

    def steps(self, state, t):
        """The states to which a step of the thread leads."""
        thread = state.threads[t]
        if thread.how == CUT:
            return [self.release(state, t)] if thread.held else []
        if thread.how in (WOKEN, HALTED):
            return self.take_back(state, t)
        operation = self.operation(state, t)
        if thread.how == ASLEEP or operation is None:
            return []
        word = operation.word
        if thread.how == ASKED:
            mode = TAKES[word][1]
            return [self.gain(state, t, operation.lock, mode)] if self.admits(state, operation.lock, mode) else []
        if word in TAKES:
            return [self.ask(state, t, operation)]
        if word in TRIES:
            mode, found = TRIES[word][1], []
            if self.admits(state, operation.lock, mode):
                found.append(self.gain(state, t, operation.lock, mode))
            shared = mode == SHARED and self.holders(state, operation.lock)
            if not found or (shared and self.may_wait_to_write(state, operation.lock, t)):
                found.append(self.put(state, t, thread._replace(next=operation.past)))
            return found
        if word in RELEASES:
            held = tuple(hold for hold in thread.held if hold[0] != operation.lock)
            return [self.put(state, t, Thread(thread.next + 1, READY, held))]
        if word in SLEEPS:
            return [self.sleep(state, t, operation.channel)]
        if word in WAKES_ONE:
            # who is the most important, of equals who came first, isn't kept: each of them may be
            return [self.wake(state, t, [u]) for u in self.sleepers(state, operation.channel)] or [self.go_on(state, t)]
        if word in WAKES_ALL:
            return [self.wake(state, t, self.sleepers(state, operation.channel))]
        if word in EDITS:
            return [self.edit(state, t, operation)]
        return [self.go_on(state, t)]

    def asleep(self, state):
        """Who sleeps: on a channel, or on an sx lock that it takes."""
        return [t for t, thread in enumerate(state.threads) if thread.how == ASLEEP or (
            thread.how == ASKED and self.plan.locks[self.operation(state, t).lock].kind == "sx"
            and not self.admits(state, self.operation(state, t).lock, TAKES[self.operation(state, t).word][1]))]

    def halt(self, state, t):
        """Its sleep is ended: of a wait it takes its lock back before it is cut."""
        how = HALTED if state.threads[t].how == ASLEEP else CUT
        return self.put(state, t, state.threads[t]._replace(how=how), halted=True)

    def has_ended(self, state, t):
        thread = state.threads[t]
        return not thread.held if thread.how == CUT else self.operation(state, t) is None

    def next_states(self, state):
        found = [after for t in range(len(state.threads)) for after in self.steps(state, t)]
        asleep = self.asleep(state)
        if state.halting:
            # who was woken in time isn't halted
            state = state._replace(halting=state.halting & set(asleep))
            found += [self.halt(state, t) for t in asleep] if state.halting else []
        elif not found and asleep:
            found = [state._replace(halting=frozenset(asleep))]
        return found

    def end(self, state):
        last = "stuck" if state.halted else "reversed" if state.reversed else "ok"
        return last, tuple((lock, key, value) for (lock, key), value in state.tables)


def ends(plan, most=100_000):
    """Each end of a run, with what stands in its tables; None where there are more than so many states."""
    explorer = Explorer(plan)
    first = explorer.first()
    seen, todo, found = {first}, [first], set()
    while todo:
        state = todo.pop()
        after = explorer.next_states(state)
        if not after:
            if not all(explorer.has_ended(state, t) for t in range(len(state.threads))):
                raise AssertionError("a thread is left that nobody halts")
            found.add(explorer.end(state))
        for other in after:
            if other not in seen:
                if len(seen) >= most:
                    return None
                seen.add(other)
                todo.append(other)
    return found


def main():
    words = argparse.ArgumentParser(description="Prints how the runs of a script's threads may end.")
    words.add_argument("--most", type=int, default=100_000, help="how many states are gone through at most")
    words.add_argument("script")
    given = words.parse_args()
    source = sys.stdin.buffer.read() if given.script == "-" else open(given.script, "rb").read()
    try:
        plan = read_script(source)
    except ScriptFault as fault:
        print(fault)
        return 1
    found = ends(plan, given.most)
    if found is None:
        print(f"there are more than {given.most} states", file=sys.stderr)
        return 1
    for last, tables in sorted(found):
        print(" ".join([last] + [f"{plan.locks[lock].name} {key} {value}" for lock, key, value in tables]))
    return 0


if __name__ == "__main__":
    sys.exit(main())
