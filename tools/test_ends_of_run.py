#!/usr/bin/env python3
"""Tries ends_of_run.py on scripts whose ends are worked out by hand. It needs nothing but python3."""
import unittest
from pathlib import Path

from ends_of_run import ends
from scripts import read_script

EXAMPLES = Path(__file__).resolve().parent.parent / "examples"

# by the example: each last word, and the tables as lock, key and value
CASES = {
    # nobody is there to wake its thread
    "nobody_signals": {("stuck", ())},
    "its_own_signal": {("stuck", ())},
    # in either order of the takes of s, nobody wakes a
    "two_queues": {("stuck", ())},
    # the signal comes before the sleep, or finds the sleeper
    "lost_signal": {("ok", ((0, 1, 7),)), ("stuck", ((0, 1, 7),))},
    "producer": {("ok", ((0, 1, 7), (0, 2, 1))), ("stuck", ((0, 1, 7), (0, 2, 1)))},
    # each tells the other by a lock how far it is
    "handover": {("ok", ((0, 1, 7),))},
    "handover_to_two": {("ok", ((0, 1, 7),))},
    # whoever asks second in the other order is refused, and the thread alone is
    "alone_in_both_orders": {("reversed", ())},
    "reversal": {("reversed", ())},
}

# One waits, and one signals under the lock of the condition. The edit behind the wait is made only where that one came
# second, else it is halted; the one behind the halt never.
UNDER_ITS_LOCK = """lockrun 1
mutex m k
cond c m
thread a 100
lock m
wait c
set m 1 1
unlock m
end
thread b 100
lock m
signal c
set m 2 1
unlock m
end
done
"""


class Ends(unittest.TestCase):
    def test_examples(self):
        for name, expected in CASES.items():
            with self.subTest(name):
                self.assertEqual(ends(read_script((EXAMPLES / f"{name}.script").read_bytes())), expected)

    def test_halts_cut_short(self):
        expected = {("ok", ((0, 1, 1), (0, 2, 1))), ("stuck", ((0, 2, 1),))}
        self.assertEqual(ends(read_script(UNDER_ITS_LOCK.encode())), expected)

    def test_gives_up(self):
        self.assertIsNone(ends(read_script((EXAMPLES / "handover.script").read_bytes()), 10))


if __name__ == "__main__":
    unittest.main()
