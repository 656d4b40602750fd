#!/usr/bin/env python3
"""Tries plan_model.py: its runs are those that the examples have, its generator draws what its authors published, and
its schedules are those worked by hand. It needs nothing but python3."""
import unittest
from pathlib import Path

from plan_model import ByChance, ByPriority, SplitMix64, canonical, schedule, step
from scripts import ScriptFault, read_script

EXAMPLES = Path(__file__).resolve().parent.parent / "examples"
ROWS = EXAMPLES.resolve().parent / "stdin"
POLICIES = [ByPriority, lambda: ByPriority(False), lambda: ByChance(0), lambda: ByChance(7)]


def plan_of(name):
    return read_script((EXAMPLES / f"{name}.script").read_bytes())


def plans():
    """The plan of each example that is a script."""
    for path in sorted(EXAMPLES.glob("*.script")):
        try:
            yield path.stem, read_script(path.read_bytes())
        except ScriptFault:
            pass


def names(plan, turns):
    return " ".join(plan.threads[t].name for t in turns)


class Runs(unittest.TestCase):
    def test_examples(self):
        tried = 0
        for row in ROWS.read_text().splitlines():
            name, *words = row.replace("=", " ").split()
            if "step" not in words:
                continue
            turns = int(words[words.index("--turns") + 1]) if "--turns" in words else 1_000_000
            printed = (EXAMPLES / f"{name}.out").read_text().splitlines()
            with self.subTest(row):
                if printed[-1].startswith("line "):
                    continue
                plan = plan_of(name.split(".")[0])
                run, last = step(plan, turns)
                finals = [f"thread {thread.name} base {run.threads[t].base} eff {run.effective(t)}"
                          for t, thread in enumerate(plan.threads)]
                self.assertEqual(run.history, [line for line in printed if line[0].isdigit()])
                self.assertEqual(finals, [line for line in printed if line.startswith("thread ")])
                self.assertEqual(last, printed[-1])
                tried += 1
        self.assertGreater(tried, 50)


class Policies(unittest.TestCase):
    def test_generator(self):
        """The first numbers of java.util.SplittableRandom and of the authors' C program."""
        published = {
            0: [0xE220A8397B1DCDAF, 0x6E789E6AA1B965F4, 0x06C45D188009454F],
            1234567: [6457827717110365317, 3203168211198807973, 9817491932198370423, 4593380528125082431,
                      16408922859458223821],
        }
        for seed, numbers in published.items():
            generator = SplitMix64(seed)
            self.assertEqual([generator.draw() for _ in numbers], numbers)

    def test_inversion(self):
        """high lends low its 10, so low goes on before medium, and wakes high before medium has a turn; by base
        priorities medium goes before low."""
        plan = plan_of("inversion")
        arrivals = "low low medium medium high high "
        self.assertEqual(names(plan, schedule(plan, ByPriority())),
                         arrivals + "low low low high high high high medium medium low")
        self.assertEqual(names(plan, schedule(plan, ByPriority(False))),
                         arrivals + "medium medium low low low high high high high low")
        plan = plan_of("inversion_at_250")
        self.assertEqual(names(plan, schedule(plan, ByPriority())),
                         "low low medium medium medium medium low low low high high high")

    def test_schedules_go_on_behind_the_read_one(self):
        for name, plan in plans():
            for policy in POLICIES:
                with self.subTest(name):
                    turns = schedule(plan, policy())
                    self.assertEqual(turns[:len(plan.schedule)], plan.schedule)

    def test_schedules_stay_where_all_have_ended_or_are_idle(self):
        for name, plan in plans():
            for policy in POLICIES:
                written = read_script(canonical(plan, schedule(plan, policy())))
                for other in POLICIES:
                    with self.subTest(name):
                        self.assertEqual(schedule(written, other()), written.schedule)

    def test_what_is_written_is_the_script_but_for_its_schedule(self):
        for name, plan in plans():
            with self.subTest(name):
                turns = schedule(plan, ByChance(3))
                plan.schedule = turns
                self.assertEqual(read_script(canonical(plan, turns)), plan)


if __name__ == "__main__":
    unittest.main()
