#!/usr/bin/env python3
"""Says whether the text that `lockrun run` or `lockrun step` printed for a script is a legal one: it reads the script
by docs/SCRIPT.md, holds the printed history to the law of a history, part by part, and compares what is printed behind
it with what the history leaves. It shares nothing with the program, so that each may find the other's mistakes.

    check_history.py [--step] SCRIPT TEXT        (- is standard input)
    check_history.py --floor FILE TEXT

With --floor the text is of threads that follow no script: FILE declares the locks, channels and threads as a script
does, without an operation, and all parts are judged but that on operations.

Status 0 and no output where all holds. Status 1 and one line where something doesn't: the part of the law (or the place
in the text), the ticket and the reason. Status 64 for other words, 2 where a file can't be read.
The parts: 1 tickets, 2 entries follow operations, 3 sections, 4 edits in sections, 5 reads, 6 wakings, 7 halts in runs
of threads alone, 8 shown priorities, 9 lock orders, 10 the moment of a halt, 11 busy tries.
"""
import argparse
import sys

import law
from law import HALTS, edit
from scripts import BYTES_OF_SCRIPT, ScriptFault, read_script
from texts import Refusal, TextReader


def tables_are_the_replay(plan, text):
    tables = {}
    for entry in text.entries:
        edit(tables, entry)
    replayed = [(lock, key, tables[lock, key]) for lock, key in sorted(tables)]
    if text.cells == replayed:
        return
    at = next(
        (i for i, (a, b) in enumerate(zip(text.cells, replayed)) if a != b),
        min(len(text.cells), len(replayed)),
    )

    def line(cells):
        return "nothing" if at >= len(cells) else f"'{plan.locks[cells[at][0]].name} {cells[at][1]} {cells[at][2]}'"

    raise Refusal("tables", None, f"{line(text.cells)} stands where the history leaves {line(replayed)}")


def threads_have_their_base(plan, text, is_step):
    bases = [thread.base for thread in plan.threads]
    seen = set(bases)
    for entry in text.entries:
        if entry.event == "prio":
            bases[entry.thread] = entry.base
            seen.add(entry.base)
    # a scheduled run that was cut short may leave loans
    may_be_lent = is_step and text.last in ("stuck", "toolong")
    for thread, base, (printed, effective) in zip(plan.threads, bases, text.finals):
        if printed != base:
            raise Refusal("threads", None, f"{thread.name} has base {printed}, but its last base is {base}")
        if effective != base and not (may_be_lent and effective < base and effective in seen):
            raise Refusal("threads", None, f"{thread.name} has the effective priority {effective}, its base is {base}")


def queues_fit(text, is_step):
    """A run of threads leaves no queue. A scheduled one may where it was cut short; of those only the form is tried."""
    if text.queues and not (is_step and text.last in ("stuck", "toolong")):
        raise Refusal("queues", None, "a queue line, where all threads have ended")
    order = [(queue.is_channel, queue.number) for queue in text.queues]
    if any(a >= b for a, b in zip(order, order[1:])):
        raise Refusal("queues", None, "queues stand by number, locks first, each once")
    waiters = [waiter for queue in text.queues for waiter in queue.waiters]
    if len(set(waiters)) != len(waiters):
        raise Refusal("queues", None, "a thread waits twice")
    if any(len(queue.free) + 1 != len(queue.waiters) for queue in text.queues):
        raise Refusal("queues", None, "a queue has as many objects as waiters, its head with them")
    if not any(all(queue.number % chains == queue.slot for queue in text.queues) for chains in range(1, 65)):
        raise Refusal("queues", None, "no number of chains gives these slots")


def last_word_is_right(plan, text, is_step):
    events = {entry.event for entry in text.entries}
    if is_step:
        if text.last in ("ok", "reversed"):
            right = "reversed" if "reversed" in events else "ok"
            if text.last != right:
                raise Refusal("last word", None, f"'{text.last}' where it is '{right}'")
        elif text.last == "stuck" and law.is_whole(plan, text.entries):
            raise Refusal("last word", None, "'stuck' where every thread has ended")
        return
    right = "ok"
    if events.intersection(HALTS):
        right = "stuck"
    elif "reversed" in events:
        right = "reversed"
    if text.last != right:
        raise Refusal("last word", None, f"'{text.last}' where it is '{right}'")


def check_outcome(plan, text, is_step=False, is_floor=False):
    """Raises a refusal at the first part that doesn't hold."""
    entries = text.entries
    whole = not is_step or text.last in ("ok", "reversed")
    law.tickets(plan, entries)
    if not is_floor:
        law.entries_follow_operations(plan, entries, whole)
    law.sections_exclude(plan, entries)
    law.edits_in_sections(plan, entries)
    law.reads_replay(plan, entries)
    law.wakings_name_sleepers(plan, entries)
    law.halts_stand_in_runs(plan, entries, not is_step)
    law.shown_is_explained(plan, entries)
    if whole:
        law.orders_are_kept(plan, entries)
    law.halts_have_a_moment(plan, entries)
    if not is_step:
        law.busy_tries_have_a_holder(plan, entries)
    queues_fit(text, is_step)
    threads_have_their_base(plan, text, is_step)
    tables_are_the_replay(plan, text)
    last_word_is_right(plan, text, is_step)


def check(source, printed, is_step=False):
    """Raises a refusal where the printed text isn't one of the script."""
    if len(source) > BYTES_OF_SCRIPT:
        if printed:
            raise Refusal("text", None, "a text of a script that is too long")
        return
    try:
        plan = read_script(source)
    except ScriptFault as fault:
        if printed != f"{fault}\n".encode():
            raise Refusal("text", None, f"the script is faulty, and its one line is '{fault}'") from None
        return
    check_outcome(plan, TextReader(plan).read(printed), is_step)


def check_floor(source, printed):
    """Raises a refusal where the printed text isn't one of a floor that is declared so."""
    try:
        plan = read_script(source)
    except ScriptFault as fault:
        raise Refusal("floor", None, f"the file declares none: {fault}") from None
    if any(thread.operations for thread in plan.threads):
        raise Refusal("floor", None, "the file says an operation")
    check_outcome(plan, TextReader(plan).read(printed), is_floor=True)


def read_file(name):
    if name == "-":
        return sys.stdin.buffer.read()
    with open(name, "rb") as file:
        return file.read()


class Words(argparse.ArgumentParser):
    def error(self, message):
        self.print_usage(sys.stderr)
        self.exit(64, f"{self.prog}: {message}\n")


def main():
    words = Words(description="Says whether a printed text is a legal one of a script.")
    sort = words.add_mutually_exclusive_group()
    sort.add_argument("--step", action="store_true", help="the text is of a scheduled run")
    sort.add_argument("--floor", action="store_true", help="the text is of threads that follow no script")
    words.add_argument("script")
    words.add_argument("text")
    given = words.parse_args()
    try:
        source, printed = read_file(given.script), read_file(given.text)
    except OSError as fault:
        print(f"check_history: {fault}", file=sys.stderr)
        return 2
    try:
        if given.floor:
            check_floor(source, printed)
        else:
            check(source, printed, given.step)
    except Refusal as refusal:
        print(refusal)
        return 1
    return 0


if __name__ == "__main__":
    sys.exit(main())
