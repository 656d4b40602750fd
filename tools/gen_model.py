#!/usr/bin/env python3
"""The generated plan of a number, made once more from its rule, as a script's text and as a summary.

    tools/gen_model.py N ..           the canonical script of each number's plan
    tools/gen_model.py --summary N .. the numbers of its operations and the sum of its tables

The rule: a state begins as N. A draw of one of k makes it x * 6364136223846793005 + 1442695040888963407 modulo 2^64,
and gives its upper 31 bits modulo k. Threads t0 to t7 draw a base priority of 256 and make 100 rounds. A round draws
two of the mutexes m0 to m7, takes them in order of their numbers, once where they are the same, draws for each a key of
16 and an amount of 1000, adds, and releases them, the greater first.
"""
import sys

LOCKS = THREADS = 8
ROUNDS = 100
WORD = 1 << 64


class Draws:
    def __init__(self, number):
        self.state = number

    def one_of(self, k):
        self.state = (self.state * 6364136223846793005 + 1442695040888963407) % WORD
        return (self.state >> 33) % k


def plan(number):
    """The threads: the base priority and the operations of each."""
    draws = Draws(number)
    threads = []
    for _ in range(THREADS):
        base = draws.one_of(256)
        ops = []
        for _ in range(ROUNDS):
            first, second = draws.one_of(LOCKS), draws.one_of(LOCKS)
            taken = sorted({first, second})
            ops += [("lock", lock) for lock in taken]
            for lock in taken:
                key = draws.one_of(16)
                ops.append(("add", lock, key, draws.one_of(1000)))
            ops += [("unlock", lock) for lock in reversed(taken)]
        threads.append((base, ops))
    return threads


def script(number):
    lines = ["lockrun 1"] + [f"mutex m{l} c{l}" for l in range(LOCKS)]
    for t, (base, ops) in enumerate(plan(number)):
        lines.append(f"thread t{t} {base}")
        lines += [" ".join([verb, f"m{lock}", *map(str, rest)]) for verb, lock, *rest in ops]
        lines.append("end")
    return "\n".join(lines + ["done"]) + "\n"


def sums(number):
    """What each lock's table has at each key that an operation adds to."""
    tables = {}
    for _, ops in plan(number):
        for verb, lock, *rest in ops:
            if verb == "add":
                key, amount = rest
                tables[lock, key] = (tables.get((lock, key), 0) + amount) % WORD
    return tables


def summary(number):
    operations = sum(len(ops) for _, ops in plan(number))
    return f"operations {operations} total {sum(sums(number).values()) % WORD}"


def main(words):
    show = summary if words[:1] == ["--summary"] else script
    for word in words[show is summary:]:
        print(show(int(word)), end="\n" if show is summary else "")


if __name__ == "__main__":
    main(sys.argv[1:])
