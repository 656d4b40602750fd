#!/usr/bin/env python3
"""Tries check_history.py: on every example that the repository has, on legal texts of threads that ran, and on texts
with one thing turned, each of which must be refused for that and at the right ticket. It needs nothing but python3."""
import contextlib
import io
import os
import sys
import tempfile
import unittest
from pathlib import Path

import check_history
import law
from check_history import check, check_floor
from scripts import ScriptFault, read_script
from texts import Refusal, TextReader

EXAMPLES = Path(__file__).resolve().parent.parent / "examples"


def lines(text):
    """Items with `; ` between them, as lines."""
    return "".join(item.strip() + "\n" for item in text.split(";")).encode()


# Scripts, each with a legal text of threads that ran it.

FIRST = "lockrun 1; mutex m a; thread t 100; lock m; set m 1 5; unlock m; end; done"
FIRST_RAN = "0 t lock m; 1 t set m 1 5; 2 t unlock m; thread t base 100 eff 100; table m 1 5; ok"

# a floor whose threads follow no script
FLOOR = "lockrun 1; mutex m k; thread t 100; end; thread u 60; end; done"
FLOOR_RAN = """0 t lock m; 1 u busy m 4; 2 t unlock m; 3 u lock m; 4 u unlock m;
    thread t base 100 eff 100; thread u base 60 eff 60; ok"""

# two threads on a mutex, one of which tries it first
BUSY = """lockrun 1; mutex m k; thread t 100; lock m; add m 1 2; get m 1; unlock m; end;
    thread u 60; trylock m; add m 1 10; unlock m; endtry; lock m; add m 1 3; unlock m; end; done"""
BUSY_RAN = """0 t lock m; 1 u busy m 4; 2 t add m 1 2; 3 t get m 1 2; 4 t unlock m; 5 u lock m; 6 u add m 1 3;
    7 u unlock m; thread t base 100 eff 100; thread u base 60 eff 60; table m 1 5; ok"""

# priorities: q waits for m while o holds it, and o changes its own base in between
LOAN = """lockrun 1; mutex m k; thread o 200; lock m; show; prio 30; show; prio 220; show; unlock m; show; end;
    thread q 50; lock m; unlock m; end; done"""
LOAN_RAN = """0 o lock m; 1 o show 200 50; 2 o prio 30; 3 o show 30 30; 4 o prio 220; 5 o show 220 50; 6 o unlock m;
    7 o show 220 220; 8 q lock m; 9 q unlock m; thread o base 220 eff 220; thread q base 50 eff 50; ok"""

# readers beside each other, and a writer; n's try sees two readers with a writer behind them
READERS = """lockrun 1; rw d k; thread r 100; rlock d; get d 7; runlock d; end;
    thread w 90; wlock d; set d 7 1; wunlock d; end; thread n 80; rlock d; runlock d;
    tryrlock d; get d 7; runlock d; endtry; tryrlock d; get d 7; runlock d; endtry; end; done"""
READERS_RAN = """0 r rlock d; 1 n rlock d; 2 r get d 7 -; 3 n runlock d; 4 n busy d 9; 5 r runlock d; 6 w wlock d;
    7 w set d 7 1; 8 w wunlock d; 9 n tryrlock d; 10 n get d 7 1; 11 n runlock d;
    thread r base 100 eff 100; thread w base 90 eff 90; thread n base 80 eff 80; table d 7 1; ok"""

# two sleepers, the later of which is the better one, and one who wakes
WAKES = """lockrun 1; mutex m k; cond c m; thread a 100; lock m; wait c; unlock m; end;
    thread b 50; lock m; wait c; unlock m; end; thread e 50; lock m; wait c; unlock m; end;
    thread s 10; signal c; broadcast c; signal c; end; done"""
WAKES_RAN = """0 a lock m; 1 a wait c; 2 b lock m; 3 b wait c; 4 e lock m; 5 e wait c; 6 s signal c b; 7 b woke c;
    8 s broadcast c a e; 9 s signal c -; 10 b unlock m; 11 e woke c; 12 e unlock m; 13 a woke c; 14 a unlock m;
    thread a base 100 eff 100; thread b base 50 eff 50; thread e base 50 eff 50; thread s base 10 eff 10; ok"""

# a halt: a sleeps under s, for which b waits; t had nobody to wake
HALT = """lockrun 1; mutex m k; sx s j; cond c m; thread a 100; xlock s; lock m; wait c; unlock m; xunlock s; end;
    thread b 50; xlock s; xunlock s; end; thread t 70; lock m; signal c; unlock m; end; done"""
HALT_RAN = """0 t lock m; 1 t signal c -; 2 t unlock m; 3 a xlock s; 4 a lock m; 5 a wait c; 6 b halted s; 7 a halted c;
    8 a unlock m; 9 a xunlock s; thread a base 100 eff 100; thread b base 50 eff 50; thread t base 70 eff 70; stuck"""

# two orders of two locks
ORDERS = """lockrun 1; mutex a ka; mutex b kb; mutex x kx; thread t1 100; lock a; lock b; unlock b; unlock a; end;
    thread t2 100; lock x; lock b; lock a; unlock a; unlock b; unlock x; end; done"""
ORDERS_RAN = """0 t1 lock a; 1 t2 lock x; 2 t1 lock b; 3 t1 unlock b; 4 t1 unlock a; 5 t2 lock b; 6 t2 reversed a kb;
    7 t2 unlock b; 8 t2 unlock x; thread t1 base 100 eff 100; thread t2 base 100 eff 100; reversed"""

# s had woken nobody before a slept
PASSED = """lockrun 1; mutex m k; cond c m; thread a 100; lock m; wait c; unlock m; end;
    thread s 10; signal c; show; end; done"""
PASSED_RAN = """0 s signal c -; 1 s show 10 10; 2 a lock m; 3 a wait c; 4 a halted c; 5 a unlock m;
    thread a base 100 eff 100; thread s base 10 eff 10; stuck"""

# Texts with an edit or a read where it may not stand.
OUTSIDE = [
    (FIRST, "0 t set m 1 5; 1 t lock m; 2 t unlock m; thread t base 100 eff 100; ok", 0),
    (FIRST, "0 t lock m; 1 t unlock m; 2 t set m 1 5; thread t base 100 eff 100; ok", 2),
    (BUSY, "0 t lock m; 1 u add m 1 10; thread t base 100 eff 100; thread u base 60 eff 60; ok", 1),
    (READERS, "0 r rlock d; 1 r set d 7 1; thread r base 1 eff 1; thread w base 1 eff 1; thread n base 1 eff 1; ok", 1),
    (READERS, "0 r rlock d; 1 n get d 7 -; thread r base 1 eff 1; thread w base 1 eff 1; thread n base 1 eff 1; ok", 1),
    (PASSED, "0 a lock m; 1 a wait c; 2 a add m 1 1; thread a base 100 eff 100; thread s base 10 eff 10; ok", 2),
]

LEGAL = [
    (FIRST, FIRST_RAN),
    (BUSY, BUSY_RAN),
    (LOAN, LOAN_RAN),
    (READERS, READERS_RAN),
    (WAKES, WAKES_RAN),
    (HALT, HALT_RAN),
    (ORDERS, ORDERS_RAN),
    (PASSED, PASSED_RAN),
    # a halt while b still looks for s, which it gains when a has given it back
    (HALT, """0 t lock m; 1 t signal c -; 2 t unlock m; 3 a xlock s; 4 a lock m; 5 a wait c; 6 a halted c; 7 a unlock m;
     8 a xunlock s; 9 b xlock s; 10 b xunlock s; thread a base 100 eff 100; thread b base 50 eff 50;
     thread t base 70 eff 70; stuck"""),
    # nobody signals
    ("lockrun 1; mutex m k; cond c m; thread a 100; lock m; wait c; unlock m; end; done",
     "0 a lock m; 1 a wait c; 2 a halted c; 3 a unlock m; thread a base 100 eff 100; stuck"),
    # the try gains: no busy entry, and the block is made
    (BUSY, """0 u trylock m; 1 u add m 1 10; 2 u unlock m; 3 u lock m; 4 u add m 1 3; 5 u unlock m; 6 t lock m;
     7 t add m 1 2; 8 t get m 1 15; 9 t unlock m;
     thread t base 100 eff 100; thread u base 60 eff 60; table m 1 15; ok"""),
    ("lockrun 1; done", "ok"),
    ("", "line 1 code 1"),
]

# Texts whose tickets are turned.
TICKETS = [
    (FIRST, FIRST_RAN.replace("1 t set", "2 t set"), 2),
    (FIRST, FIRST_RAN.replace("0 t lock", "1 t lock").replace("1 t set", "0 t set"), 1),
    (FIRST, FIRST_RAN.replace("2 t unlock", "1 t unlock"), 1),
]

# Of a legal text: lines that are put in place of others, the place at which that must be refused, and its ticket. A
# line is named by its first two words, or by its one word. What is put there may be several lines, or none; its tickets
# say whence they come, and are counted anew.
TURNED = [
    # the form of the text
    (FIRST, FIRST_RAN, {"1 t": "1 t set m 1 05"}, "text", None),
    (FIRST, FIRST_RAN, {"1 t": "1 t put m 1 5"}, "text", None),
    (FIRST, FIRST_RAN, {"thread t": ""}, "text", None),
    (FIRST, FIRST_RAN, {"ok": ""}, "text", None),
    (BUSY, BUSY_RAN, {"5 u": "5 u rlock m"}, "text", None),
    (FIRST + "; x", FIRST_RAN, {}, "text", None),
    # 2: entries follow operations
    (BUSY, BUSY_RAN, {"3 t": ""}, "part 2", 3),
    (BUSY, BUSY_RAN, {"2 t": "2 t add m 1 3"}, "part 2", 2),
    (BUSY, BUSY_RAN, {"1 u": "1 u busy m 0"}, "part 2", 1),
    (READERS, READERS_RAN, {"4 n": "4 n busy d 8"}, "part 2", 4),
    (BUSY, BUSY_RAN, {"7 u": ""}, "part 2", None),
    (WAKES, WAKES_RAN, {"13 a": "", "14 a": ""}, "part 2", None),
    (WAKES, WAKES_RAN, {"10 b": "10 b wait c"}, "part 2", 10),
    (BUSY, BUSY_RAN, {"7 u": "7 u unlock m; 8 u unlock m"}, "part 2", 8),
    (ORDERS, ORDERS_RAN, {"7 t2": "7 t2 unlock x", "8 t2": "8 t2 unlock b"}, "part 2", 7),
    (ORDERS, ORDERS_RAN, {"8 t2": ""}, "part 2", None),
    # a mutex is never halted: only an sx lock's take is
    (HALT, HALT_RAN, {"0 t": "0 t halted m", "1 t": "", "2 t": ""}, "part 2", 0),
    # 3: sections
    (BUSY, BUSY_RAN, {"4 t": "5 u lock m", "5 u": "4 t unlock m"}, "part 3", 4),
    (READERS, READERS_RAN, {"5 r": "6 w wlock d", "6 w": "5 r runlock d"}, "part 3", 5),
    (WAKES, WAKES_RAN, {"10 b": "11 e woke c", "11 e": "10 b unlock m"}, "part 3", 10),
    # 5: reads
    (BUSY, BUSY_RAN, {"3 t": "3 t get m 1 3"}, "part 5", 3),
    (READERS, READERS_RAN, {"2 r": "2 r get d 7 0"}, "part 5", 2),
    (READERS, READERS_RAN, {"10 n": "10 n get d 7 -"}, "part 5", 10),
    # 6: wakings. The first of equals that has slept longest goes first
    (WAKES, WAKES_RAN, {"6 s": "6 s signal c e", "7 b": "", "10 b": "", "8 s": "8 s broadcast c a b",
                        "12 e": "12 e unlock m; 12 b woke c; 12 b unlock m"}, "part 6", 11),
    (WAKES, WAKES_RAN, {"6 s": "6 s signal c -", "7 b": "", "8 s": "8 s broadcast c a b e",
                        "10 b": "10 b woke c; 10 b unlock m"}, "part 6", 9),
    (WAKES, WAKES_RAN, {"6 s": "6 s signal c s"}, "part 6", 6),
    (WAKES, WAKES_RAN, {"9 s": "9 s signal c b"}, "part 6", 9),
    (WAKES, WAKES_RAN, {"8 s": "8 s broadcast c e"}, "part 6", 13),
    (WAKES, WAKES_RAN, {"6 s": "7 b woke c", "7 b": "6 s signal c b"}, "part 6", 6),
    (WAKES, WAKES_RAN, {"13 a": "13 a halted c"}, "part 6", 13),
    # 8: shown priorities
    (LOAN, LOAN_RAN, {"3 o": "3 o show 200 30"}, "part 8", 3),
    (LOAN, LOAN_RAN, {"3 o": "3 o show 30 50"}, "part 8", 3),
    (LOAN, LOAN_RAN, {"1 o": "1 o show 200 30"}, "part 8", 1),
    (LOAN, LOAN_RAN, {"7 o": "7 o show 220 50"}, "part 8", 7),
    # 9: orders
    (ORDERS, ORDERS_RAN, {"6 t2": "6 t2 lock a; 6 t2 unlock a", "reversed": "ok"}, "part 9", 6),
    (ORDERS, ORDERS_RAN, {"6 t2": "6 t2 reversed a ka"}, "part 9", 6),
    (ORDERS, ORDERS_RAN, {"6 t2": "6 t2 reversed a kx"}, "part 9", 6),
    # 10: t could still have gone on when the others were halted
    (HALT, HALT_RAN, {"0 t": "", "1 t": "", "2 t": "",
                      "9 a": "9 a xunlock s; 9 t lock m; 9 t signal c -; 9 t unlock m"}, "part 10", 3),
    # a is on its way to sleep when b is halted
    (HALT, HALT_RAN, {"6 b": "", "5 a": "6 b halted s; 5 a wait c"}, "part 10", 5),
    # s passes over a, but can go on itself
    (PASSED, PASSED_RAN, {"0 s": "", "1 s": "", "4 a": "0 s signal c -; 1 s show 10 10; 4 a halted c"}, "part 10", 2),
    # 11: busy tries
    (BUSY, BUSY_RAN, {"1 u": "1 u busy m 12"}, "part 11", 1),
    (BUSY, BUSY_RAN, {"1 u": "1 u busy m 516"}, "part 2", 1),
    (BUSY, BUSY_RAN, {"1 u": "1 u busy m 8"}, "part 11", 1),
    (READERS, READERS_RAN, {"4 n": "4 n busy d 4"}, "part 11", 4),
    # behind the history
    (FIRST, FIRST_RAN, {"table m": "table m 1 6"}, "tables", None),
    (FIRST, FIRST_RAN, {"table m": ""}, "tables", None),
    (FIRST, FIRST_RAN, {"table m": "table m 1 5; table m 2 0"}, "tables", None),
    (LOAN, LOAN_RAN, {"thread o": "thread o base 200 eff 200"}, "threads", None),
    (LOAN, LOAN_RAN, {"thread o": "thread o base 220 eff 50"}, "threads", None),
    (FIRST, FIRST_RAN, {"2 t": "2 t unlock m; queue m slot 0 head t free - excl t@100 shared -"}, "queues", None),
    (FIRST, FIRST_RAN, {"ok": "stuck"}, "last word", None),
    (FIRST, FIRST_RAN, {"ok": "toolong"}, "last word", None),
    (HALT, HALT_RAN, {"stuck": "ok"}, "last word", None),
    (ORDERS, ORDERS_RAN, {"reversed": "ok"}, "last word", None),
]

# Texts of scheduled runs, turned.
TURNED_STEPS = [
    ("nobody_signals", {"queue c": "2 a halted c; 3 a unlock m", "stuck": "stuck"}, "part 7", 2),
    ("nobody_signals", {"stuck": "ok"}, "part 2", None),
    ("first", {"ok": "stuck"}, "last word", None),
    ("ties.cut", {"queue m": "queue m slot 0 head a free c excl b@50,c@50,a@100 shared -"}, "queues", None),
    ("ties.cut", {"toolong": "ok"}, "part 2", None),
    ("two_queues", {"queue c": "queue c slot 1 head a free - excl a@100 shared -"}, "queues", None),
    ("lending", {"thread t1": "thread t1 base 200 eff 50"}, "threads", None),
    ("reversal", {"reversed": "ok"}, "last word", None),
]

# Scripts that are none.
FAULTS = [
    ("lockrun 1; done", None),
    ("lockrun 1", "line 2 code 17"),
    ("lockrun 2; done", "line 1 code 1"),
    ("lockrun 1; mutex m k; sx s j; thread t 1; lock m; slock s; end; done", "line 6 code 12"),
    ("lockrun 1; sx s j; sx u k; cond c s; thread t 1; xlock s; xlock u; wait c; end; done", "line 8 code 13"),
    ("lockrun 1; rw d k; thread t 1; rlock d; set d 1 1; end; done", "line 5 code 20"),
    ("lockrun 1; rw d k; thread t 1; rlock d; wunlock d; end; done", "line 5 code 10"),
    ("lockrun 1; # " + "x" * 200 + "; done", "line 2 code 18"),
    ("lockrun 1; # \t x; done", "line 2 code 19"),
    ("lockrun 1; mutex  m k; done", "line 2 code 2"),
    ("lockrun 1; done; # x; ; end", "line 5 code 2"),
    ("lockrun 1; show; done", "line 2 code 15"),
    ("lockrun 1; thread t 1; end; mutex m k; done", "line 4 code 16"),
    ("lockrun 1; mutex m k; thread t 1; trylock m; end; done", "line 5 code 17"),
    ("lockrun 1; mutex M k; done", "line 2 code 3"),
    ("lockrun 1; mutex m k; mutex m j; done", "line 3 code 4"),
    ("lockrun 1; mutex m k; schedule m; done", "line 3 code 5"),
    ("lockrun 1; thread t 256; end; done", "line 2 code 6"),
    ("lockrun 1; mutex m k; thread t 1; lock m; set m 1 18446744073709551616; end; done", "line 5 code 6"),
    ("lockrun 1; rw d k; thread t 1; lock d; end; done", "line 4 code 8"),
    ("lockrun 1; mutex m k; thread t 1; lock m; trylock m; end; done", "line 5 code 9"),
    ("lockrun 1; mutex m k; thread t 1; get m 1; end; done", "line 4 code 11"),
    ("lockrun 1; mutex m k; thread t 1; trylock m; endtry; end; done", "line 5 code 14"),
    ("lockrun 1; " + "".join(f"mutex m{i} k{i}; " for i in range(9)) + "thread t 1; "
     + "".join(f"lock m{i}; " for i in range(9)) + "end; done", "line 20 code 7"),
    ("lockrun 1; " + "".join(f"mutex m{i} k; " for i in range(65)) + "done", "line 66 code 7"),
    ("lockrun 1; " + "".join(f"thread t{i} 1; end; " for i in range(33)) + "done", "line 66 code 7"),
    ("lockrun 1; thread t 1; " + "show; " * 20_001 + "end; done", "line 20003 code 7"),
]




def turned(text, changes):
    """The text with lines put in place of others, and the tickets counted anew."""
    for name in changes:
        assert sum(is_named(line, name) for line in text) == 1, name
    items = []
    for line in text:
        name = next((name for name in changes if is_named(line, name)), None)
        items += [line] if name is None else [item.strip() for item in changes[name].split(";") if item.strip()]
    made, ticket = [], 0
    for item in items:
        if item[0].isdigit():
            item = f"{ticket} {item.split(' ', 1)[1]}"
            ticket += 1
        made.append(item + "\n")
    return "".join(made).encode()


def is_named(line, name):
    return line == name or line.startswith(name + " ")


class Checks(unittest.TestCase):
    def refused(self, source, printed, where, ticket, **options):
        with self.assertRaises(Refusal) as refused:
            check(source, printed, **options)
        self.assertEqual((refused.exception.where, refused.exception.ticket), (where, ticket), refused.exception)
        self.assertNotIn("\n", str(refused.exception))

    def test_examples_are_legal(self):
        tried = 0
        for out in sorted(EXAMPLES.glob("*.out")):
            script = EXAMPLES / (out.name.split(".")[0] + ".script")
            with self.subTest(out.name):
                printed = out.read_bytes()
                # under `run` the order of the entries is open, so mostly they aren't written; lockplan has none,
                # lockchart tells them otherwise, and `profile` counts them
                others = (b"thread ", b"lockrun 1\n", b"# ", b"{")
                has_history = printed and not printed.startswith(others)
                is_other = any(word in out.name for word in (".check.", ".ticks.", "profile."))
                if has_history and not is_other:
                    check(script.read_bytes(), printed, is_step=".run." not in out.name)
                    tried += 1
        self.assertGreater(tried, 50)

    def test_examples_are_counted(self):
        for out in sorted(EXAMPLES.glob("*.check.out")):
            with self.subTest(out.name):
                script = (EXAMPLES / (out.name.split(".")[0] + ".script")).read_bytes()
                self.assertEqual(answer_of_check(script), out.read_text())

    def test_legal_texts_are_legal(self):
        for script, text in LEGAL:
            with self.subTest(text):
                check(lines(script) if script else b"", lines(text))

    def test_floors_are_judged_without_operations(self):
        check_floor(lines(FLOOR), lines(FLOOR_RAN))
        for turned, where, ticket in (
            (FLOOR_RAN.replace("2 t unlock m; 3 u lock m", "2 u lock m; 3 t unlock m"), "part 3", 2),
            (FLOOR_RAN.replace("busy m 4", "busy m 12"), "part 11", 1),
            (FLOOR_RAN.replace("; ok", "; stuck"), "last word", None),
        ):
            with self.subTest(turned), self.assertRaises(Refusal) as refused:
                check_floor(lines(FLOOR), lines(turned))
            self.assertEqual((refused.exception.where, refused.exception.ticket), (where, ticket))
        for script in (FIRST, FLOOR.replace("; done", "")):
            with self.subTest(script), self.assertRaises(Refusal) as refused:
                check_floor(lines(script), lines(FLOOR_RAN))
            self.assertEqual(refused.exception.where, "floor")

    def test_turned_tickets_are_refused(self):
        for script, text, ticket in TICKETS:
            with self.subTest(text):
                self.refused(lines(script), lines(text), "part 1", ticket)

    def test_turned_texts_are_refused(self):
        for script, text, changes, where, ticket in TURNED:
            with self.subTest(changes):
                printed = turned(lines(text).decode().splitlines(), changes)
                self.refused(lines(script), printed, where, ticket)

    def test_turned_texts_of_scheduled_runs_are_refused(self):
        for name, changes, where, ticket in TURNED_STEPS:
            with self.subTest(name=name, changes=changes):
                script = (EXAMPLES / (name.split(".")[0] + ".script")).read_bytes()
                printed = turned((EXAMPLES / (name + ".out")).read_text().splitlines(), changes)
                self.refused(script, printed, where, ticket, is_step=True)

    def test_edits_outside_sections_are_refused(self):
        """Where entries follow a script's operations its edits are in sections, so this part is tried by itself."""
        for script, text, ticket in OUTSIDE:
            with self.subTest(text):
                plan = read_script(lines(script))
                entries = TextReader(plan).read(lines(text)).entries
                with self.assertRaises(Refusal) as refused:
                    law.edits_in_sections(plan, entries)
                self.assertEqual((refused.exception.where, refused.exception.ticket), ("part 4", ticket))

    def test_faults_of_scripts(self):
        for script, answer in FAULTS:
            with self.subTest(script[:80]):
                if answer is None:
                    read_script(lines(script))
                else:
                    with self.assertRaises(ScriptFault) as fault:
                        read_script(lines(script))
                    self.assertEqual(str(fault.exception), answer)

    def test_the_command(self):
        with tempfile.TemporaryDirectory() as folder:
            script, text = os.path.join(folder, "script"), os.path.join(folder, "text")
            Path(script).write_bytes(lines(READERS))
            Path(text).write_bytes(lines(READERS_RAN))
            self.assertEqual(self.command([script, text]), (0, ""))
            Path(text).write_bytes(lines(READERS_RAN).replace(b"get d 7 1", b"get d 7 2"))
            said = "part 5, ticket 10: 'get d 7 2' where the table has 1\n"
            self.assertEqual(self.command([script, text]), (1, said))
            self.assertEqual(self.command([script, os.path.join(folder, "absent")])[0], 2)
            self.assertEqual(self.command([script])[0], 64)

    def command(self, words):
        """The status and the output of the command."""
        kept, sys.argv = sys.argv, ["check_history.py", *words]
        output = io.StringIO()
        try:
            with contextlib.redirect_stdout(output), contextlib.redirect_stderr(io.StringIO()):
                return check_history.main(), output.getvalue()
        except SystemExit as ended:
            return ended.code, output.getvalue()
        finally:
            sys.argv = kept


def answer_of_check(source):
    try:
        plan = read_script(source)
    except ScriptFault as fault:
        return f"{fault}\n"
    operations = sum(len(thread.operations) for thread in plan.threads)
    return (f"ok threads {len(plan.threads)} locks {len(plan.locks)} channels {len(plan.channels)} "
            f"classes {len(plan.classes)} operations {operations}\n")


if __name__ == "__main__":
    unittest.main()
