#!/usr/bin/env python3
"""Tries find_run with two programs that stand in for lockplan and lockrun: a script's schedule is the seed, and its run
ends as that says. It needs nothing but python3."""
import os
import subprocess
import sys
import tempfile
import unittest
from pathlib import Path

FIND_RUN = Path(__file__).with_name("find_run")
PLAN = """import sys
source = sys.stdin.read()
if source == "no script":
    print("lockplan: the source is no script", file=sys.stderr)
    sys.exit(1)
assert sys.argv[1:3] == ["--by", "chance"]
print(source.strip(), sys.argv[3])
"""
# the seed 2 is stuck, 4 and 6 are refused, 9 fails
RUN = """import sys
assert sys.argv[1:] == ["step"]
seed = int(sys.stdin.read().split()[-1])
status, last = {2: (5, "stuck"), 4: (6, "reversed"), 6: (6, "reversed"), 9: (4, "")}.get(seed, (0, "ok"))
print(f"0 a show {seed}", last, sep="\\n")
sys.exit(status)
"""


class FindsRuns(unittest.TestCase):
    def setUp(self):
        self.folder = tempfile.TemporaryDirectory()
        self.addCleanup(self.folder.cleanup)
        self.at = Path(self.folder.name)
        self.programs = dict(os.environ)
        for name, text in (("lockplan", PLAN), ("lockrun", RUN)):
            path = self.at / name
            path.write_text(f"#!{sys.executable}\n{text}")
            path.chmod(0o755)
            self.programs[name.upper()] = str(path)

    def find(self, *words, source="a script\n"):
        script = self.at / "a.script"
        script.write_text(source)
        ended = subprocess.run([sys.executable, FIND_RUN, *words, script], env=self.programs, capture_output=True,
                               text=True, check=False)
        return ended.returncode, ended.stdout, ended.stderr

    def test_first_that_does_not_end_well(self):
        self.assertEqual(self.find(), (0, "a script 2\n", "seed 2: stuck\n"))
        self.assertEqual(self.find("--first", "3"), (0, "a script 4\n", "seed 4: reversed\n"))

    def test_status(self):
        self.assertEqual(self.find("--status", "6"), (0, "a script 4\n", "seed 4: reversed\n"))
        self.assertEqual(self.find("--status", "0", "--first", "2"), (0, "a script 3\n", "seed 3: ok\n"))

    def test_words_of_the_text(self):
        self.assertEqual(self.find("--text", "a show 7"), (0, "a script 7\n", "seed 7: ok\n"))
        self.assertEqual(self.find("--status", "6", "--text", "show 6"), (0, "a script 6\n", "seed 6: reversed\n"))

    def test_none(self):
        self.assertEqual(self.find("--status", "7", "--seeds", "8"), (1, "", "find_run: no such run among 8 seeds\n"))

    def test_failures(self):
        self.assertEqual(self.find("--first", "9")[:2], (2, ""))
        self.assertEqual(self.find(source="no script"), (2, "", "find_run: lockplan: the source is no script\n"))
        self.programs["LOCKRUN"] = str(self.at / "none")
        self.assertEqual(self.find()[:2], (2, ""))

    def test_other_words(self):
        for words in (["--status", "3"], ["--seeds", "x"], ["--any"]):
            with self.subTest(words):
                self.assertEqual(self.find(*words)[:2], (64, ""))


if __name__ == "__main__":
    unittest.main()
