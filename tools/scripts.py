"""Scripts, read by docs/SCRIPT.md alone: a plan of what a script declares, or its first faulty line with its code.
Part of check_history.py, and like it a reading of its own that shares nothing with the program's."""
import re
from dataclasses import dataclass, field

MODULUS = 1 << 64
EXCLUSIVE, SHARED = "exclusive", "shared"

# The first words that take, try and give back a lock, with its kind and the mode.
TAKES = {
    "lock": ("mutex", EXCLUSIVE),
    "rlock": ("rw", SHARED),
    "wlock": ("rw", EXCLUSIVE),
    "slock": ("sx", SHARED),
    "xlock": ("sx", EXCLUSIVE),
}
TRIES = {"try" + word: meaning for word, meaning in TAKES.items()}
RELEASES = {word.replace("lock", "unlock"): meaning for word, meaning in TAKES.items()}
# The first words that sleep and wake, and whether they are for a condition variable.
SLEEPS = {"wait": True, "msleep": False}
WAKES_ONE = {"signal": True, "wakeup_one": False}
WAKES_ALL = {"broadcast": True, "wakeup": False}
EDITS = ("set", "add")

# How many words stand behind the first one.
WORDS_BEHIND = {
    "mutex": 2, "rw": 2, "sx": 2, "cond": 2, "chan": 2, "thread": 2, "end": 0, "done": 0,
    "set": 3, "add": 3, "get": 2, "prio": 1, "show": 0, "endtry": 0,
    **{word: 1 for table in (TAKES, TRIES, RELEASES, SLEEPS, WAKES_ONE, WAKES_ALL) for word in table},
}
DECLARES_LOCK = ("mutex", "rw", "sx")
DECLARES_CHANNEL = ("cond", "chan")
BETWEEN_THREADS = ("thread", "schedule", "done")
OPERATIONS = set(WORDS_BEHIND) - set(DECLARES_LOCK) - set(DECLARES_CHANNEL) - {"thread", "end", "done"}

BYTES_OF_SCRIPT, BYTES_OF_LINE = 1_048_576, 200
MOST_THREADS, MOST_LOCKS, MOST_CHANNELS, MOST_CLASSES = 32, 64, 64, 64
MOST_OPERATIONS, MOST_HELD, MOST_BLOCKS, MOST_SCHEDULED = 20_000, 8, 8, 100_000

NAME = re.compile(r"[a-z][a-z0-9_]{0,15}", re.ASCII)
NUMBER = re.compile(r"0|[1-9][0-9]*", re.ASCII)


def is_name(word):
    return NAME.fullmatch(word) is not None


def number_of(word, most=MODULUS - 1):
    """The number that a word spells, or None where it spells none up to `most`."""
    if NUMBER.fullmatch(word) is None or len(word) > 20 or int(word) > most:
        return None
    return int(word)


@dataclass(frozen=True)
class Lock:
    name: str
    kind: str
    lock_class: int


@dataclass(frozen=True)
class Channel:
    name: str
    is_condition: bool
    lock: int


@dataclass
class Operation:
    """A line of a thread. `past` is the place behind the block of a try."""

    word: str
    text: str
    lock: int = None
    channel: int = None
    key: int = None
    amount: int = None
    prio: int = None
    past: int = None


@dataclass
class Thread:
    name: str
    base: int
    operations: list = field(default_factory=list)


@dataclass
class Plan:
    locks: list = field(default_factory=list)
    channels: list = field(default_factory=list)
    classes: list = field(default_factory=list)
    threads: list = field(default_factory=list)
    schedule: list = field(default_factory=list)
    # name of a lock, channel or thread, with its sort and number
    names: dict = field(default_factory=dict)

    def number(self, name, sort):
        found = self.names.get(name)
        return found[1] if found is not None and found[0] == sort else None


class ScriptFault(Exception):
    def __init__(self, line, code):
        super().__init__(f"line {line} code {code}")
        self.line, self.code = line, code


class ScriptReader:
    """Judges one line after the other by what the lines before it have made known."""

    def __init__(self):
        self.plan = Plan()
        self.is_in_thread = False
        self.is_done = False
        self.operations_in_all = 0
        # of the open thread: its held locks in order, each as (lock, mode, by a try), and its open blocks, each as the
        # place of its try and what was held before that
        self.held = []
        self.blocks = []
        # the codes of the fifth stage that the line at hand has earned
        self.codes = set()

    def judge(self, number, raw):
        """The code of the line's fault, or None."""
        if number == 1:
            return None if raw == b"lockrun 1" else 1
        if len(raw) > BYTES_OF_LINE:
            return 18
        if any(byte < 32 or byte > 126 for byte in raw):
            return 19
        if raw == b"" or raw[:1] == b"#":
            return None
        words = raw.decode("ascii").split(" ")
        return self.judge_form(words) or self.judge_place(words[0]) or self.judge_words(words)

    def judge_form(self, words):
        first, behind = words[0], len(words) - 1
        if "" in words or self.is_done:
            return 2
        if first == "schedule":
            return None if behind >= 1 else 2
        return None if WORDS_BEHIND.get(first) == behind else 2

    def judge_place(self, first):
        if first in OPERATIONS or first == "end":
            if not self.is_in_thread:
                return 15
            if first == "endtry" and not self.blocks:
                return 15
            if first == "end" and self.blocks:
                return 17
        if first in DECLARES_LOCK or first in DECLARES_CHANNEL:
            return 16 if self.plan.threads else None
        if first in BETWEEN_THREADS and self.is_in_thread:
            return 17
        return None

    def judge_words(self, words):
        self.codes = set()
        first = words[0]
        if first in DECLARES_LOCK:
            act = self.read_lock(*words)
        elif first in DECLARES_CHANNEL:
            act = self.read_channel(*words)
        elif first == "thread":
            act = self.read_thread(*words)
        elif first == "schedule":
            act = self.read_schedule(words[1:])
        elif first == "end":
            act = self.read_end()
        elif first == "done":
            act = self.finish
        else:
            act = self.read_operation(words)
        if self.codes:
            return min(self.codes)
        act()
        return None

    def fault_if(self, code, is_so):
        if is_so:
            self.codes.add(code)

    def new_name(self, word):
        if not is_name(word):
            self.codes.add(3)
        else:
            self.fault_if(4, word in self.plan.names)

    def use(self, word, sort):
        """The number of a name that is declared as that sort, or None."""
        if not is_name(word):
            self.codes.add(3)
            return None
        number = self.plan.number(word, sort)
        self.fault_if(5, number is None)
        return number

    def read_number(self, word, most=MODULUS - 1):
        number = number_of(word, most)
        self.fault_if(6, number is None)
        return number

    # Declarations. Each answers what the line does where it has no fault.

    def read_lock(self, kind, name, lock_class):
        plan = self.plan
        self.new_name(name)
        self.fault_if(3, not is_name(lock_class))
        self.fault_if(7, len(plan.locks) >= MOST_LOCKS)
        self.fault_if(7, lock_class not in plan.classes and len(plan.classes) >= MOST_CLASSES)

        def declare():
            if lock_class not in plan.classes:
                plan.classes.append(lock_class)
            plan.names[name] = ("lock", len(plan.locks))
            plan.locks.append(Lock(name, kind, plan.classes.index(lock_class)))

        return declare

    def read_channel(self, first, name, lock):
        plan = self.plan
        self.new_name(name)
        number = self.use(lock, "lock")
        self.fault_if(7, len(plan.channels) >= MOST_CHANNELS)

        def declare():
            plan.names[name] = ("channel", len(plan.channels))
            plan.channels.append(Channel(name, first == "cond", number))

        return declare

    def read_thread(self, _, name, prio):
        plan = self.plan
        self.new_name(name)
        base = self.read_number(prio, 255)
        self.fault_if(7, len(plan.threads) >= MOST_THREADS)

        def begin():
            plan.names[name] = ("thread", len(plan.threads))
            plan.threads.append(Thread(name, base))
            self.is_in_thread = True

        return begin

    def read_schedule(self, names):
        numbers = [self.use(name, "thread") for name in names]
        self.fault_if(7, len(self.plan.schedule) + len(names) > MOST_SCHEDULED)
        return lambda: self.plan.schedule.extend(numbers)

    def read_end(self):
        self.fault_if(14, bool(self.held))

        def end():
            self.is_in_thread = False

        return end

    def finish(self):
        self.is_done = True

    # Operations

    def read_operation(self, words):
        first = words[0]
        self.fault_if(7, self.operations_in_all >= MOST_OPERATIONS)
        operation = Operation(first, " ".join(words))
        act = lambda: None
        if first in TAKES or first in TRIES:
            act = self.read_take(operation, words[1])
        elif first in RELEASES:
            act = self.read_release(operation, words[1])
        elif first in EDITS or first == "get":
            self.read_edit(operation, words)
        elif first == "prio":
            operation.prio = self.read_number(words[1], 255)
        elif first in SLEEPS:
            self.read_sleep(operation, words[1])
        elif first in WAKES_ONE or first in WAKES_ALL:
            self.use_channel(operation, words[1])
        elif first == "endtry":
            act = self.read_endtry()

        def append():
            act()
            self.operations_in_all += 1
            self.plan.threads[-1].operations.append(operation)

        return append

    def hold_of(self, lock):
        return next((hold for hold in self.held if hold[0] == lock), None)

    def holds_any_but_sx(self, other_than=None):
        return any(hold[0] != other_than and self.plan.locks[hold[0]].kind != "sx" for hold in self.held)

    def read_take(self, operation, name):
        by_try = operation.word in TRIES
        kind, mode = (TRIES if by_try else TAKES)[operation.word]
        lock = operation.lock = self.use(name, "lock")
        if lock is not None:
            self.fault_if(7, len(self.held) >= MOST_HELD)
            self.fault_if(8, self.plan.locks[lock].kind != kind)
            self.fault_if(9, self.hold_of(lock) is not None)
            self.fault_if(12, self.plan.locks[lock].kind == "sx" and self.holds_any_but_sx())
        self.fault_if(7, by_try and len(self.blocks) >= MOST_BLOCKS)

        def take():
            if by_try:
                self.blocks.append((operation, list(self.held)))
            self.held.append((lock, mode, by_try))

        return take

    def read_release(self, operation, name):
        kind, mode = RELEASES[operation.word]
        lock = operation.lock = self.use(name, "lock")
        hold = None
        if lock is not None:
            hold = self.hold_of(lock)
            self.fault_if(8, self.plan.locks[lock].kind != kind)
            self.fault_if(10, hold is not None and hold[1] != mode)
            self.fault_if(11, hold is None)
        return lambda: self.held.remove(hold)

    def read_edit(self, operation, words):
        lock = operation.lock = self.use(words[1], "lock")
        operation.key = self.read_number(words[2])
        if words[0] in EDITS:
            operation.amount = self.read_number(words[3])
        if lock is not None:
            hold = self.hold_of(lock)
            self.fault_if(11, hold is None)
            self.fault_if(20, words[0] in EDITS and hold is not None and hold[1] == SHARED)

    def use_channel(self, operation, name):
        """The channel's lock, or None."""
        number = operation.channel = self.use(name, "channel")
        if number is None:
            return None
        channel = self.plan.channels[number]
        is_condition = {**SLEEPS, **WAKES_ONE, **WAKES_ALL}[operation.word]
        self.fault_if(8, channel.is_condition != is_condition)
        return channel.lock

    def read_sleep(self, operation, name):
        lock = self.use_channel(operation, name)
        if lock is not None:
            hold = self.hold_of(lock)
            self.fault_if(11, hold is None)
            self.fault_if(12, self.holds_any_but_sx(other_than=lock))
            self.fault_if(13, hold is not None and (hold != self.held[-1] or hold[2]))

    def read_endtry(self):
        opened, held_before = self.blocks[-1]
        self.fault_if(14, self.held != held_before)

        def close():
            self.blocks.pop()
            opened.past = len(self.plan.threads[-1].operations) + 1

        return close


def read_script(source):
    """The plan of a script. Raises the fault of the first faulty line."""
    lines = source.split(b"\n")
    if lines[-1] == b"":
        lines.pop()
    reader = ScriptReader()
    for number, raw in enumerate(lines or [b""], 1):
        code = reader.judge(number, raw)
        if code is not None:
            raise ScriptFault(number, code)
    if not reader.is_done:
        raise ScriptFault(len(lines) + 1, 17)
    return reader.plan
