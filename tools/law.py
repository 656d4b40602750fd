"""The law of a history: what is true of the entries of every run of a plan, however its threads came. Part of
check_history.py. Each part is a function of its own, which raises a refusal at the first entry that breaks it. An
entry's place in the list is the ticket that it ought to have."""
from dataclasses import dataclass

from scripts import EDITS, EXCLUSIVE, MODULUS, RELEASES, SHARED, SLEEPS, TAKES, TRIES, WAKES_ONE
from texts import Refusal


@dataclass
class Section:
    lock: int
    thread: int
    mode: str


class OpenSections:
    """The sections that are open behind the entries given to `pass_entry` so far, by thread."""

    def __init__(self, plan):
        self.plan = plan
        self.of = [[] for _ in plan.threads]
        # the mode of the section that a thread's last sleep ended
        self.mode_left = [EXCLUSIVE for _ in plan.threads]

    def pass_entry(self, entry):
        """The section that begins here, or None."""
        begins = ends = None
        if entry.event in ("locked", "tried"):
            begins = Section(entry.lock, entry.thread, entry.mode)
        elif entry.event in ("woke", "halted channel"):
            lock = self.plan.channels[entry.channel].lock
            begins = Section(lock, entry.thread, self.mode_left[entry.thread])
        elif entry.event == "unlocked":
            ends = entry.lock
        elif entry.event == "sleeps":
            ends = self.plan.channels[entry.channel].lock
            mode = next((section.mode for section in self.of[entry.thread] if section.lock == ends), EXCLUSIVE)
            self.mode_left[entry.thread] = mode
        if begins is not None:
            self.of[entry.thread].append(begins)
        if ends is not None:
            self.of[entry.thread] = [section for section in self.of[entry.thread] if section.lock != ends]
        return begins

    def on(self, lock):
        return [section for sections in self.of for section in sections if section.lock == lock]

    def has(self, thread, lock, modes=(EXCLUSIVE, SHARED)):
        return any(section.lock == lock and section.mode in modes for section in self.of[thread])


@dataclass
class Word:
    """A lock word that a busy try saw."""

    is_exclusive: bool
    # the owner's number, or the count of shared holders
    holder: int
    shows_exclusive: bool

    @property
    def is_well_formed(self):
        return self.holder <= (63 if self.is_exclusive else 64)

    @property
    def is_free(self):
        return not self.is_exclusive and self.holder == 0

    def admits(self, kind, mode):
        if self.is_free:
            return True
        if mode == EXCLUSIVE or self.is_exclusive or kind == "mutex":
            return False
        return kind == "sx" or not self.shows_exclusive


def word_of(number):
    return Word(bool(number & 4), number >> 3, bool(number & 1))


class Follower:
    """One thread on its way through its operations."""

    def __init__(self, plan, number):
        self.plan = plan
        self.thread = plan.threads[number]
        self.place = 0
        self.is_asleep = False
        self.is_cut = False
        self.held = []
        self.skip_endtry()

    def skip_endtry(self):
        operations = self.thread.operations
        while self.place < len(operations) and operations[self.place].word == "endtry":
            self.place += 1

    def left(self):
        """What the thread has still to do, or None where its entries are whole."""
        if self.is_cut:
            return f"it has yet to give back {self.name(self.held[-1][0])}" if self.held else None
        if self.is_asleep:
            return f"its wait '{self.thread.operations[self.place].text}' has no end"
        if self.place < len(self.thread.operations):
            return f"'{self.thread.operations[self.place].text}' has no entry"
        return None

    def name(self, lock):
        return self.plan.locks[lock].name

    def follow(self, entry):
        """Why the entry isn't the thread's next, or None."""
        if self.is_cut:
            return self.give_back(entry)
        if self.place >= len(self.thread.operations):
            return "the thread has no operation left"
        operation = self.thread.operations[self.place]
        if self.is_asleep:
            return self.wake(entry, operation)
        reason = self.make(entry, operation)
        if reason is None and not self.is_asleep and not self.is_cut:
            self.skip_endtry()
        return reason

    def give_back(self, entry):
        if not self.held:
            return "the thread was cut short and has given back all"
        if entry.event != "unlocked" or (entry.lock, entry.mode) != self.held[-1]:
            return f"the thread was cut short and gives back {self.name(self.held[-1][0])} next"
        self.held.pop()
        return None

    def wake(self, entry, operation):
        if entry.event not in ("woke", "halted channel") or entry.channel != operation.channel:
            return f"the thread sleeps in '{operation.text}'"
        self.is_asleep = False
        if entry.event == "halted channel":
            self.is_cut = True
        else:
            self.place += 1
            self.skip_endtry()
        return None

    def make(self, entry, operation):
        word = operation.word
        unlike = f"the thread's next operation is '{operation.text}'"
        to = self.place + 1
        if word in TAKES:
            kind, mode = TAKES[word]
            if entry.lock != operation.lock:
                return unlike
            if entry.event == "locked" and entry.mode == mode:
                self.held.append((entry.lock, mode))
            elif entry.event == "reversed" or (entry.event == "halted lock" and kind == "sx"):
                self.is_cut = True
                return None
            else:
                return unlike
        elif word in TRIES:
            kind, mode = TRIES[word]
            if entry.lock != operation.lock:
                return unlike
            if entry.event == "tried" and entry.mode == mode:
                self.held.append((entry.lock, mode))
            elif entry.event == "busy":
                seen = word_of(entry.value)
                if not seen.is_well_formed:
                    return f"{entry.value} is no lock word"
                if seen.is_free:
                    return f"the word {entry.value} is free"
                if seen.admits(kind, mode):
                    return f"the word {entry.value} admits the try"
                to = operation.past
            else:
                return unlike
        elif word in RELEASES:
            mode = RELEASES[word][1]
            if (entry.event, entry.lock, entry.mode) != ("unlocked", operation.lock, mode):
                return unlike
            if (entry.lock, mode) in self.held:
                self.held.remove((entry.lock, mode))
        elif word in EDITS:
            made = (entry.event, entry.lock, entry.key, entry.value)
            if made != (word, operation.lock, operation.key, operation.amount):
                return unlike
        elif word == "get":
            if (entry.event, entry.lock, entry.key) != (word, operation.lock, operation.key):
                return unlike
        elif word == "prio":
            if (entry.event, entry.base) != (word, operation.prio):
                return unlike
        elif word == "show":
            if entry.event != word:
                return unlike
        else:
            event = "sleeps" if word in SLEEPS else "wakes one" if word in WAKES_ONE else "wakes all"
            if (entry.event, entry.channel) != (event, operation.channel):
                return unlike
            if event == "sleeps":
                self.is_asleep = True
                return None
        self.place = to
        return None


def tickets(plan, entries):
    """Part 1: the tickets are 0 to n-1, in order."""
    for place, entry in enumerate(entries):
        if entry.ticket != place:
            raise Refusal("part 1", entry.ticket, f"the ticket should be {place}")


def entries_follow_operations(plan, entries, is_whole=True):
    """Part 2: the entries of each thread follow its operations, to their end where the history is whole."""
    followers = [Follower(plan, number) for number in range(len(plan.threads))]
    for entry in entries:
        reason = followers[entry.thread].follow(entry)
        if reason is not None:
            name = plan.threads[entry.thread].name
            raise Refusal("part 2", entry.ticket, f"{name} '{entry.text}': {reason}")
    if is_whole:
        for follower in followers:
            left = follower.left()
            if left is not None:
                raise Refusal("part 2", None, f"the entries of {follower.thread.name} aren't whole: {left}")


def is_whole(plan, entries):
    try:
        entries_follow_operations(plan, entries)
    except Refusal:
        return False
    return True


def sections_exclude(plan, entries):
    """Part 3: an exclusive section overlaps no other section of its lock."""
    sections = OpenSections(plan)
    for entry in entries:
        begun = sections.pass_entry(entry)
        if begun is None:
            continue
        for other in sections.on(begun.lock):
            if other is not begun and EXCLUSIVE in (begun.mode, other.mode):
                at = plan.locks[begun.lock].name
                raise Refusal(
                    "part 3", entry.ticket,
                    f"{plan.threads[entry.thread].name} begins a section of {at} ({begun.mode}) while "
                    f"{plan.threads[other.thread].name} has one ({other.mode})",
                )


def edits_in_sections(plan, entries):
    """Part 4: edits stand in an exclusive section of their thread, and reads in a section of their thread."""
    sections = OpenSections(plan)
    for entry in entries:
        if entry.event in EDITS and not sections.has(entry.thread, entry.lock, (EXCLUSIVE,)):
            raise Refusal("part 4", entry.ticket, f"'{entry.text}' outside an exclusive section of its thread")
        if entry.event == "get" and not sections.has(entry.thread, entry.lock):
            raise Refusal("part 4", entry.ticket, f"'{entry.text}' outside a section of its thread")
        sections.pass_entry(entry)


def edit(tables, entry):
    """What an entry does to the tables, a map from lock and key to value."""
    if entry.event == "set":
        tables[entry.lock, entry.key] = entry.value
    elif entry.event == "add":
        before = tables.get((entry.lock, entry.key), 0)
        tables[entry.lock, entry.key] = (before + entry.value) % MODULUS


def reads_replay(plan, entries):
    """Part 5: a read shows what the edits before it have left."""
    tables = {}
    for entry in entries:
        if entry.event == "get":
            there = tables.get((entry.lock, entry.key))
            if entry.value != there:
                shown = "-" if there is None else there
                raise Refusal("part 5", entry.ticket, f"'{entry.text}' where the table has {shown}")
        edit(tables, entry)


@dataclass
class Sleeper:
    channel: int
    since: int
    base: int


class Sleepers:
    """Who may be named by a waking behind the entries given to `pass_entry` so far, and who was passed over."""

    def __init__(self, plan):
        self.bases = [thread.base for thread in plan.threads]
        # the threads whose last entry is a sleep, while no waking has named them since
        self.unnamed = {}
        # the threads that a waking has named since their last sleep
        self.named = set()

    def passed_over(self, entry):
        """The threads that a waking may name, and passes over."""
        may = {t: s for t, s in self.unnamed.items() if s.channel == entry.channel}
        others = [t for t in may if t not in entry.woken]
        if entry.event == "wakes all" or (entry.event == "wakes one" and not entry.woken):
            return others
        if entry.event == "wakes one" and entry.woken[0] in may:
            named = may[entry.woken[0]]
            return [
                t for t in others
                if named.base > may[t].base or (named.base == may[t].base and named.since > may[t].since)
            ]
        return []

    def pass_entry(self, place, entry):
        t = entry.thread
        self.unnamed.pop(t, None)
        if entry.event == "sleeps":
            self.unnamed[t] = Sleeper(entry.channel, place, self.bases[t])
            self.named.discard(t)
        elif entry.event == "prio":
            self.bases[t] = entry.base
        elif entry.event in ("wakes one", "wakes all"):
            for woken in entry.woken:
                self.unnamed.pop(woken, None)
                self.named.add(woken)


def wakings_name_sleepers(plan, entries):
    """Part 6: wakings name sleepers, by their rank; who was passed over is halted, or has no later entry."""
    sleepers = Sleepers(plan)
    # by thread, the ticket of the waking that passed it over, till its next entry
    passed = {}
    for place, entry in enumerate(entries):
        t, name = entry.thread, plan.threads[entry.thread].name
        if t in passed and entry.event != "halted channel":
            raise Refusal("part 6", entry.ticket, f"{name} goes on, though ticket {passed[t]} passed it over")
        passed.pop(t, None)
        if entry.event == "woke" and t not in sleepers.named:
            raise Refusal("part 6", entry.ticket, f"{name} woke, but no waking has named it")
        if entry.event == "halted channel" and t in sleepers.named:
            raise Refusal("part 6", entry.ticket, f"{name} is halted, though a waking has named it")
        if entry.event in ("wakes one", "wakes all"):
            for woken in entry.woken:
                sleeper = sleepers.unnamed.get(woken) if woken != t else None
                if sleeper is None or sleeper.channel != entry.channel:
                    other = plan.threads[woken].name
                    raise Refusal("part 6", entry.ticket, f"'{entry.text}' names {other}, which may not be named")
            # the waker's own sleep, if that was its last entry, is over with this one
            passed.update((u, entry.ticket) for u in sleepers.passed_over(entry) if u != t)
        sleepers.pass_entry(place, entry)


HALTS = ("halted lock", "halted channel")


def halts_stand_in_runs(plan, entries, is_run=True):
    """Part 7: halts stand only in histories of threads that ran."""
    for entry in entries:
        if entry.event in HALTS and not is_run:
            raise Refusal("part 7", entry.ticket, f"'{entry.text}' in a scheduled run")


def shown_is_explained(plan, entries):
    """Part 8: who shows priorities shows its base, and is lent only what a waiter could have, under a lock."""
    bases = [thread.base for thread in plan.threads]
    seen = set(bases)
    sections = OpenSections(plan)
    for entry in entries:
        t = entry.thread
        if entry.event == "prio":
            bases[t] = entry.base
            seen.add(entry.base)
        elif entry.event == "show":
            reason = None
            if entry.base != bases[t]:
                reason = f"the base is {bases[t]}"
            elif entry.effective > entry.base:
                reason = "the effective priority is above the base"
            elif entry.effective < entry.base:
                if not any(s.mode == EXCLUSIVE and plan.locks[s.lock].kind != "sx" for s in sections.of[t]):
                    reason = "priority is lent to a thread that holds no mutex or rw lock exclusively"
                elif entry.effective not in seen:
                    reason = f"no thread has had the base {entry.effective}"
            if reason is not None:
                raise Refusal("part 8", entry.ticket, f"{plan.threads[t].name} '{entry.text}': {reason}")
        sections.pass_entry(entry)


class ClassOrders:
    """Edges between classes of locks."""

    def __init__(self):
        self.after = {}

    def add(self, before, after):
        self.after.setdefault(before, set()).add(after)

    def leads(self, start, end):
        """Whether one edge or more lead from start to end."""
        found, left = set(), [start]
        while left:
            for after in self.after.get(left.pop(), ()):
                if after == end:
                    return True
                if after not in found:
                    found.add(after)
                    left.append(after)
        return False


def orders_are_kept(plan, entries):
    """Part 9, of whole histories: takes teach no cycle of classes, and a refusal has its cause."""
    orders, sections = ClassOrders(), OpenSections(plan)
    refused = []
    for entry in entries:
        held = {plan.locks[section.lock].lock_class for section in sections.of[entry.thread]}
        if entry.event in ("locked", "halted lock"):
            wanted = plan.locks[entry.lock].lock_class
            for before in sorted(held):
                if wanted in orders.after.get(before, ()):
                    continue
                if before == wanted or orders.leads(wanted, before):
                    raise Refusal(
                        "part 9", entry.ticket,
                        f"{plan.threads[entry.thread].name} takes {plan.locks[entry.lock].name} under class "
                        f"{plan.classes[before]}, which closes a cycle of classes",
                    )
                orders.add(before, wanted)
        elif entry.event == "reversed":
            refused.append((entry, held))
        sections.pass_entry(entry)
    for entry, held in refused:
        named, wanted = plan.classes[entry.lock_class], plan.locks[entry.lock].lock_class
        if entry.lock_class not in held:
            raise Refusal("part 9", entry.ticket, f"the thread of '{entry.text}' holds no lock of class {named}")
        if entry.lock_class != wanted and not orders.leads(wanted, entry.lock_class):
            raise Refusal("part 9", entry.ticket, f"'{entry.text}': no order puts the wanted class before {named}")


def halts_have_a_moment(plan, entries):
    """Part 10: at or before the first halt and the first passing over there was a moment at which no thread could go
    on: each had made its last entry, slept unnamed, or waited for a lock of which another had a section."""
    sleepers = Sleepers(plan)
    first = None
    for place, entry in enumerate(entries):
        passes = entry.event in ("wakes one", "wakes all") and any(
            u != entry.thread for u in sleepers.passed_over(entry)
        )
        if entry.event in HALTS or passes:
            first = place
            break
        sleepers.pass_entry(place, entry)
    if first is None:
        return
    places = [[] for _ in plan.threads]
    for place, entry in enumerate(entries):
        places[entry.thread].append(place)
    sleepers, sections = Sleepers(plan), OpenSections(plan)
    # by thread, how many of its entries stand before the moment
    made = [0 for _ in plan.threads]

    def is_still(t):
        if made[t] == len(places[t]) or t in sleepers.unnamed:
            return True
        nxt = entries[places[t][made[t]]]
        if nxt.event in ("locked", "halted lock"):
            lock = nxt.lock
        elif nxt.event == "woke":
            lock = plan.channels[nxt.channel].lock
        else:
            return False
        return any(section.thread != t for section in sections.on(lock))

    for place in range(first + 1):
        if all(is_still(t) for t in range(len(plan.threads))):
            return
        entry = entries[place]
        sleepers.pass_entry(place, entry)
        sections.pass_entry(entry)
        made[entry.thread] += 1
    entry = entries[first]
    raise Refusal("part 10", entry.ticket, f"'{entry.text}': at no moment up to here was every thread asleep")


def busy_tries_have_a_holder(plan, entries):
    """Part 11, of whole histories of threads that ran: another thread has a section of the busy lock, in the mode that
    the word of the entry tells."""
    sections = OpenSections(plan)
    begun = set()
    for entry in entries:
        section = sections.pass_entry(entry)
        if section is not None:
            begun.add((section.lock, section.mode, section.thread))
    for entry in entries:
        if entry.event != "busy":
            continue
        word = word_of(entry.value)
        mode = EXCLUSIVE if word.is_exclusive else SHARED
        holders = {t for lock, m, t in begun if (lock, m) == (entry.lock, mode) and t != entry.thread}
        if not holders:
            raise Refusal("part 11", entry.ticket, f"'{entry.text}': no other thread ever has it {mode}")
        if word.is_exclusive and word.holder not in holders:
            raise Refusal("part 11", entry.ticket, f"'{entry.text}': thread {word.holder} isn't one that has it")
