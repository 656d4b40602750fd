"""The printed texts of runs, read line by line: entries, queues, threads, tables and the last word. Part of
check_history.py. What can't be a line of a text is refused here, at the place `text`."""
from dataclasses import dataclass, field

from scripts import (
    EDITS, MODULUS, MOST_THREADS, RELEASES, SLEEPS, TAKES, TRIES, WAKES_ALL, WAKES_ONE, number_of,
)


@dataclass
class Entry:
    ticket: int
    thread: int
    event: str
    text: str
    lock: int = None
    mode: str = None
    channel: int = None
    key: int = None
    # what was set, added or found; the word that a busy try saw
    value: int = None
    base: int = None
    effective: int = None
    woken: tuple = ()
    lock_class: int = None


@dataclass
class Queue:
    is_channel: bool
    number: int
    slot: int
    head: int
    free: list
    waiters: list


@dataclass
class Text:
    entries: list = field(default_factory=list)
    queues: list = field(default_factory=list)
    # a base and an effective priority for each thread, by number
    finals: list = field(default_factory=list)
    # (lock, key, value) in the printed order
    cells: list = field(default_factory=list)
    last: str = None


class Refusal(Exception):
    def __init__(self, where, ticket, reason):
        self.where = where
        self.ticket = ticket
        at = "no ticket" if ticket is None else f"ticket {ticket}"
        super().__init__(f"{where}, {at}: {reason}")


LAST_WORDS = ("ok", "stuck", "reversed", "toolong")


class TextReader:
    """Reads a printed text line by line: entries, queues, threads, tables and the last word, in this order."""

    def __init__(self, plan):
        self.plan = plan
        self.text = Text()
        self.line = 0

    def refuse(self, reason):
        raise Refusal("text", None, f"line {self.line}: {reason}")

    def read(self, printed):
        if not printed.endswith(b"\n"):
            raise Refusal("text", None, "the last line has no end")
        lines = printed[:-1].split(b"\n")
        stages = ("entries", "queue", "thread", "table", "last")
        stage = 0
        for self.line, raw in enumerate(lines, 1):
            if any(byte < 32 or byte > 126 for byte in raw):
                self.refuse("a byte outside 32 to 126")
            words = raw.decode("ascii").split(" ")
            first = words[0]
            if first[:1].isdigit():
                at = 0
            elif first in stages[1:4]:
                at = stages.index(first)
            elif first in LAST_WORDS and len(words) == 1:
                at = 4
            else:
                self.refuse("no line of a text")
            if at < stage or (stage == 4):
                self.refuse("a line out of order")
            stage = at
            (self.read_entry, self.read_queue, self.read_thread, self.read_cell, self.read_last)[at](words)
        if self.text.last is None:
            raise Refusal("text", None, "the last word is missing")
        if len(self.text.finals) != len(self.plan.threads):
            raise Refusal("text", None, "not one line for each thread")
        return self.text

    def number(self, word, most=MODULUS - 1):
        number = number_of(word, most)
        if number is None:
            self.refuse(f"'{word}' is no number up to {most}")
        return number

    def named(self, word, sort):
        number = self.plan.number(word, sort)
        if number is None:
            self.refuse(f"'{word}' is no {sort} of the script")
        return number

    def read_entry(self, words):
        if len(words) < 3:
            self.refuse("an entry needs a ticket, a thread and an event")
        entry = Entry(self.number(words[0]), self.named(words[1], "thread"), None, " ".join(words[2:]))
        self.read_event(entry, words[2], words[3:])
        self.text.entries.append(entry)

    def count(self, words, least, most=None):
        if len(words) < least or len(words) > (least if most is None else most):
            self.refuse("a wrong number of words")

    def read_event(self, entry, first, rest):
        if first in TAKES or first in TRIES or first in RELEASES:
            self.count(rest, 1)
            entry.lock = self.named(rest[0], "lock")
            entry.event, table = next(
                (event, table)
                for event, table in (("locked", TAKES), ("tried", TRIES), ("unlocked", RELEASES))
                if first in table
            )
            kind, entry.mode = table[first]
            if self.plan.locks[entry.lock].kind != kind:
                self.refuse(f"'{first}' is not for a lock of this kind")
        elif first == "busy":
            self.count(rest, 2)
            entry.event, entry.lock, entry.value = "busy", self.named(rest[0], "lock"), self.number(rest[1])
        elif first in EDITS or first == "get":
            self.count(rest, 3)
            entry.event, entry.lock, entry.key = first, self.named(rest[0], "lock"), self.number(rest[1])
            is_absent = first == "get" and rest[2] == "-"
            entry.value = None if is_absent else self.number(rest[2])
        elif first == "prio":
            self.count(rest, 1)
            entry.event, entry.base = "prio", self.number(rest[0], 255)
        elif first == "show":
            self.count(rest, 2)
            entry.event, entry.base, entry.effective = "show", self.number(rest[0], 255), self.number(rest[1], 255)
        elif first in SLEEPS:
            self.count(rest, 1)
            entry.event, entry.channel = "sleeps", self.channel(first, rest[0], SLEEPS)
        elif first == "woke":
            self.count(rest, 1)
            entry.event, entry.channel = "woke", self.named(rest[0], "channel")
        elif first == "halted":
            self.count(rest, 1)
            entry.channel = self.plan.number(rest[0], "channel")
            entry.event = "halted lock" if entry.channel is None else "halted channel"
            entry.lock = self.named(rest[0], "lock") if entry.channel is None else None
        elif first in WAKES_ONE:
            self.count(rest, 2)
            entry.event, entry.channel = "wakes one", self.channel(first, rest[0], WAKES_ONE)
            entry.woken = self.woken(rest[1:])
        elif first in WAKES_ALL:
            self.count(rest, 2, 1 + MOST_THREADS)
            entry.event, entry.channel = "wakes all", self.channel(first, rest[0], WAKES_ALL)
            entry.woken = self.woken(rest[1:])
        elif first == "reversed":
            self.count(rest, 2)
            entry.event, entry.lock = "reversed", self.named(rest[0], "lock")
            if rest[1] not in self.plan.classes:
                self.refuse(f"'{rest[1]}' is no class of the script")
            entry.lock_class = self.plan.classes.index(rest[1])
        else:
            self.refuse(f"'{first}' is no word of an event")

    def channel(self, first, name, table):
        number = self.named(name, "channel")
        if self.plan.channels[number].is_condition != table[first]:
            self.refuse(f"'{first}' is not for this sort of channel")
        return number

    def woken(self, names):
        if names == ["-"]:
            return ()
        numbers = tuple(self.named(name, "thread") for name in names)
        if any(a >= b for a, b in zip(numbers, numbers[1:])):
            self.refuse("woken threads stand by number, each once")
        return numbers

    def read_queue(self, words):
        labels = {2: "slot", 4: "head", 6: "free", 8: "excl", 10: "shared"}
        if len(words) != 12 or any(words[place] != label for place, label in labels.items()):
            self.refuse("no queue line")
        is_channel = self.plan.number(words[1], "lock") is None
        number = self.named(words[1], "channel" if is_channel else "lock")
        waiters = self.waiters(words[9]) + self.waiters(words[11])
        free = [] if words[7] == "-" else [self.named(name, "thread") for name in words[7].split(",")]
        head = self.named(words[5], "thread")
        self.text.queues.append(Queue(is_channel, number, self.number(words[3], 63), head, free, waiters))

    def waiters(self, word):
        found = []
        for item in [] if word == "-" else word.split(","):
            name, at, prio = item.partition("@")
            if not at:
                self.refuse("a waiter is NAME@PRIO")
            found.append(self.named(name, "thread"))
            self.number(prio, 255)
        return found

    def read_thread(self, words):
        if len(words) != 6 or words[2] != "base" or words[4] != "eff":
            self.refuse("no thread line")
        if self.named(words[1], "thread") != len(self.text.finals):
            self.refuse("threads stand by number, each once")
        self.text.finals.append((self.number(words[3], 255), self.number(words[5], 255)))

    def read_cell(self, words):
        if len(words) != 4:
            self.refuse("no table line")
        self.text.cells.append((self.named(words[1], "lock"), self.number(words[2]), self.number(words[3])))

    def read_last(self, words):
        self.text.last = words[0]
