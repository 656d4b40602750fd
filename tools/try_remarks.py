#!/usr/bin/env python3
"""Holds what `lockrun step` and `lockrun run`, in turn, say of refused takes and of stuck runs to the script and to the
text that they print, on random scripts: that a line is the operation that is named, that an entry is that operation's,
that a lock was held then, and that the orders lead from the wanted lock's class to that of the held one, each asked for
before the refusal, as far as entries tell. And of faulty scripts, made of the examples by random changes, that
something is said of each, in lines that are few and short. It needs Python 3.8 or later.

    tools/try_remarks.py PROGRAM COUNT [SEED]

PROGRAM is a lockrun, and COUNT how many scripts of each sort there are. The last line has the figures; where anything
isn't so the status is 1, and the script is printed.
"""
import random
import re
import subprocess
import sys
from collections import Counter
from pathlib import Path

EXAMPLES = Path(__file__).resolve().parent.parent / "crates" / "example_rows" / "data"

# Takes and releases of each kind of lock.
CALLS = {"mutex": [("lock", "unlock")], "rw": [("rlock", "runlock"), ("wlock", "wunlock")],
         "sx": [("slock", "sunlock"), ("xlock", "xunlock")]}
TAKES = {take for calls in CALLS.values() for take, _ in calls}

WORDS = (b"lock unlock rlock wlock slock xlock trylock endtry wait signal end thread schedule done mutex rw cond chan "
         b"set get add prio show tick sleep sleeper wakeup 0 1 256 -1 m a b t1 Foo").split()


class Wrong(Exception):
    """What is said isn't so."""


def demand(holds, what):
    if not holds:
        raise Wrong(what)


def random_script(draw):
    """Threads that take several locks in any order, and wait and signal now and then."""
    kinds = [draw.choice(["mutex", "mutex", "rw", "sx"]) for _ in range(draw.randint(2, 8))]
    lines = ["lockrun 1"] + [f"{kind} l{i} k{draw.randint(0, len(kinds))}" for i, kind in enumerate(kinds)]
    conditions = [draw.randrange(len(kinds)) for _ in range(draw.randint(0, 3))]
    lines += [f"cond c{i} l{lock}" for i, lock in enumerate(conditions)]
    for thread in range(draw.randint(2, 12)):
        lines.append(f"thread t{thread} {draw.randint(0, 255)}")
        for _ in range(draw.randint(1, 4)):
            locks = draw.sample(range(len(kinds)), draw.randint(1, min(4, len(kinds))))
            locks.sort(key=lambda lock: kinds[lock] != "sx")
            calls = [(draw.choice(CALLS[kinds[lock]]), lock) for lock in locks]
            lines += [f"{take} l{lock}" for (take, _), lock in calls]
            for i, lock in enumerate(conditions):
                if lock == locks[-1] and all(kinds[other] == "sx" for other in locks[:-1]) and draw.random() < 0.3:
                    lines.append(f"wait c{i}")
            if conditions and draw.random() < 0.3:
                lines.append(f"{draw.choice(['signal', 'broadcast'])} c{draw.randrange(len(conditions))}")
            releases = [f"{release} l{lock}" for (_, release), lock in calls]
            draw.shuffle(releases)
            lines += releases
        lines.append("end")
    if draw.random() < 0.5:
        lines.append("schedule " + " ".join(f"t{draw.randrange(2)}" for _ in range(draw.randint(1, 9))))
    return lines + ["done"]


class Run:
    """A script, the text of its run, and what was said below the sentence."""

    def __init__(self, lines, text, said):
        self.lines, self.text, self.said = lines, text, said
        self.entries = {}
        for line in text:
            if re.match(r"\d+ ", line):
                self.entries[int(line.split()[0])] = line.split()
        self.thread_of = {}
        thread = None
        for number, line in enumerate(lines, 1):
            if line.startswith("thread "):
                thread = line.split()[1]
            elif line == "end":
                thread = None
            self.thread_of[number] = thread
        self.class_of = {line.split()[1]: line.split()[2] for line in lines if line.split()[0] in CALLS}
        # the entry by which each thread was halted that was
        self.halted = {words[1]: at for at, words in self.entries.items() if words[2] == "halted"}
        # where each thread waits
        self.queue_of = {}
        for words in (line.split() for line in text if line.startswith("queue ")):
            for waiter in (words[9] + "," + words[11]).split(","):
                if waiter != "-":
                    self.queue_of[waiter.split("@")[0]] = words[1]

    def operation(self, number, thread):
        """The words of a thread's operation in a line."""
        demand(self.thread_of.get(number) == thread, f"line {number} is of {thread}")
        return self.lines[number - 1].split()

    def is_held(self, thread, lock, ticket):
        """Whether the thread's last entry of that lock before the ticket isn't a release."""
        own = [words for at, words in self.entries.items()
               if at < ticket and words[1] == thread and words[3:4] == [lock]]
        return bool(own) and "unlock" not in own[-1][2]

    def judge_halt(self, thread, number):
        """The thread was halted in the operation of that line."""
        words = self.operation(int(number), thread)
        demand(words[0] in TAKES or words[0] == "wait", f"line {number} may sleep")
        demand(self.entries[self.halted.get(thread, 0)][1:] == [thread, "halted", words[1]], f"{thread} was halted")

    def last_before(self, thread, ticket):
        """The ticket of the thread's last entry before that one, or -1."""
        return max((at for at, own in self.entries.items() if own[1] == thread and at < ticket), default=-1)

    def judge_waits(self):
        told = set()
        for line in self.said:
            for thread, number in re.findall(r"(\w+) was halted in line (\d+)", line):
                told.add(thread)
                self.judge_halt(thread, number)
            halted = re.fullmatch(r"    (\w+) waited in line (\d+): (.*), and was halted \(entry (\d+)\)", line)
            if halted:
                thread, number, text, ticket = halted.groups()
                told.add(thread)
                self.judge_halt(thread, number)
                demand(self.operation(int(number), thread) == text.split(), f"line {number}")
                demand(self.halted[thread] == int(ticket), f"entry {ticket} halts {thread}")
            for thread, number in re.findall(r"(\w+) waits in line (\d+)", line):
                told.add(thread)
                words = self.operation(int(number), thread)
                queue = self.queue_of.get(thread)
                if words[0] != "wait":
                    demand(words[0] in TAKES and queue == words[1], f"{thread} waits for {words[1]}")
                elif line.endswith("waits to have its lock back"):
                    demand(f"cond {words[1]} {queue}" in self.lines, f"{thread} waits for {queue}")
                elif ", t" not in line:
                    demand(queue == words[1], f"{thread} sleeps on {words[1]}")
            empty = re.fullmatch(r"    nobody slept on (\w+) when (\w+) came to line (\d+): (.*) \(entry (\d+)\)", line)
            if empty:
                name, thread, number, text, ticket = empty.groups()
                demand(self.entries[int(ticket)][1:] == [thread] + text.split() + ["-"], f"entry {ticket} woke nobody")
                demand(self.operation(int(number), thread) == text.split() and text.endswith(name), f"line {number}")
                slept = [self.last_before(who, at) for who, at in self.halted.items() if self.entries[at][3] == name]
                demand(not slept or int(ticket) < max(slept), f"entry {ticket} is before a sleep on {name}")
            none = re.fullmatch(r"    no line of the script wakes (\w+)", line)
            if none:
                wakes = {f"{word} {none.group(1)}" for word in ("signal", "broadcast")}
                demand(not wakes & set(self.lines), line)
        demand(told == set(self.queue_of) | set(self.halted), "all who wait or were halted are told")

    def judge_refusal(self, at):
        first = re.fullmatch(r"    (\w+) asks for (\w+), of class (\w+), in line (\d+), and holds (\w+), "
                             r"of class (\w+), since line (\d+) \(entry (\d+)\)", self.said[at])
        demand(first, "the first line of a refusal")
        thread, wanted, its_class, asks, held, held_class, since, gained = first.groups()
        ticket, refused = next((at, words) for at, words in self.entries.items() if words[2] == "reversed")
        demand(refused[1:] == [thread, "reversed", wanted, held_class], "it is the first refusal")
        demand(self.class_of[wanted] == its_class and self.class_of[held] == held_class, "the classes")
        demand(self.operation(int(asks), thread)[1] == wanted, f"line {asks} asks for {wanted}")
        demand(self.entries[int(gained)][1:4] == [thread] + self.operation(int(since), thread), f"entry {gained}")
        demand(self.is_held(thread, held, ticket), f"{held} is held")
        if its_class == held_class:
            demand(self.said[at + 1:] == ["    nobody takes a lock under another of its class"], "one class")
            return
        reached = its_class
        for line in self.said[at + 1:]:
            order = re.fullmatch(r"    (\w+) goes before (\w+): (\w+) asked for (\w+) in line (\d+), holding (\w+) "
                                 r"\((?:entry (\d+)|no entry: it waits still)\)", line)
            if not order:
                demand(line.startswith("    and so on, by "), "an order")
                return
            before, behind, thread, wanted, number, held, gained = order.groups()
            demand(before == reached == self.class_of[held] and behind == self.class_of[wanted], "the orders join")
            words = self.operation(int(number), thread)
            demand(words[0] in TAKES and words[1] == wanted, f"line {number} asks for {wanted}")
            if gained:
                entry = self.entries[int(gained)][1:4]
                demand(entry in ([thread] + words, [thread, "halted", wanted]), f"entry {gained}")
            else:
                demand(thread in self.queue_of, f"{thread} waits still")
            until = int(gained) if gained else len(self.entries)
            demand(self.is_held(thread, held, until), f"{held} is held")
            # it asked behind that
            demand(self.last_before(thread, until) < ticket, f"line {number} is reached before entry {ticket}")
            reached = behind
        demand(reached == held_class, "the orders lead to the held class")


def judge_run(program, draw, command):
    lines = random_script(draw)
    done = subprocess.run([program, command], input="\n".join(lines).encode() + b"\n", capture_output=True, check=False)
    run = Run(lines, done.stdout.decode().split("\n"), done.stderr.decode().split("\n")[1:-1])
    asks = [at for at, line in enumerate(run.said) if " asks for " in line]
    try:
        demand(done.returncode in (0, 5, 6), f"status {done.returncode}")
        demand(done.returncode != 6 or asks, "a refusal is told")
        if done.returncode == 5:
            run.judge_waits()
        if asks:
            run.judge_refusal(asks[0])
    except Wrong as wrong:
        print("\n".join(lines + run.said), wrong, sep="\n")
        return "wrong"
    return f"{command} status {done.returncode}"


def changed(draw, sources):
    """An example with a line or two changed."""
    lines = draw.choice(sources).split(b"\n")
    for _ in range(draw.randint(1, 2)):
        at, change = draw.randrange(len(lines)), draw.randrange(8)
        if change == 0:
            lines.insert(at, draw.choice(lines))
        elif change == 1:
            lines[at] = b" ".join(draw.choice(WORDS) for _ in range(draw.randint(1, 4)))
        elif change == 2:
            words = lines[at].split(b" ")
            words[draw.randrange(len(words))] = draw.choice(WORDS)
            lines[at] = b" ".join(words)
        elif change == 3:
            lines[at] += draw.choice([b" ", b"\r", b"\t", b" x", b"\xff", b"x" * 300])
        elif change == 4:
            byte = draw.randrange(len(lines[at]) + 1)
            lines[at] = lines[at][:byte] + bytes([draw.randrange(256)]) + lines[at][byte + 1:]
        elif change == 5:
            lines[at] = draw.choice(WORDS) + b" " + lines[at]
        elif change == 6:
            lines = lines[:at + 1]
        else:
            other = draw.randrange(len(lines))
            lines[at], lines[other] = lines[other], lines[at]
    return b"\n".join(lines)


def judge_fault(program, draw, sources):
    source = changed(draw, sources)
    command = draw.choice(["step", "check", "ticks"])
    done = subprocess.run([program, command, "--turns", "3000"], input=source, capture_output=True, check=False)
    said = done.stderr.split(b"\n")[1:-1]
    is_short = len(said) <= 8 and all(len(line) <= 240 and all(32 <= byte <= 126 for byte in line) for line in said)
    if not is_short or (done.returncode == 1 and not said):
        print(source, command, done.stderr, sep="\n")
        return "wrong"
    return "faults" if done.returncode == 1 else "others"


def main(program, count, seed=1):
    draw = random.Random(int(seed))
    sources = [path.read_bytes() for path in sorted(EXAMPLES.glob("*.script"))]
    sources = [source for source in sources if 0 < len(source) < 3000]
    figures = Counter(judge_run(program, draw, "run" if n % 2 else "step") for n in range(int(count)))
    figures += Counter(judge_fault(program, draw, sources) for _ in range(int(count)))
    print(", ".join(f"{what} {number}" for what, number in sorted(figures.items())))
    return 1 if figures["wrong"] else 0


if __name__ == "__main__":
    if len(sys.argv) not in (3, 4):
        print(__doc__, file=sys.stderr)
        sys.exit(64)
    sys.exit(main(*sys.argv[1:]))
