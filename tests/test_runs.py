"""Several runs on one table: in the source and its task file, in words run by run, and the user's own case in samples/runs.md."""

import re

from support import GOOD, LIST, NO_LIST, ROOT, SAMPLES, Case, mend

import files
import source
import taskfile
import words
from listing import Listing

RUNS = """\
{file}: 8 facts, 9 actions, 2 runs of 26 steps in all, at most 6 repairs

5 needs are missing in run {short}; the first of them:
  step 4, {sweep}: needs {known}, which is absent
16 needs are missing in run {long}; the first of them:
  step 4, {sweep}: needs {known}, which is absent
A step that can't run does nothing, and the next one is tried.

To change (1 repair):
  {turn} should make {known} true

No shorter list makes every run valid, and of those as short this is the first in order.
"""
NAMES = {"sweep": "sweep-to", "known": "direction-known", "turn": "turn"}
NUMBERS = {"sweep": "action 3", "known": "fact 4", "turn": "action 2"}
NAMED, NUMBERED = {"short": "short", "long": "long"}, {"short": "1", "long": "2"}

TABLE = "limit 3\nfacts a b\naction go stop\n  needs a\n"


def made(text):
    return taskfile.file_of(files.source_of("a.txt", text.encode()))


class TaskFiles(Case):
    def test_a_run_is_opened_by_kind_9(self):
        text = "run r\n goal b\n start b a\n steps go\nrun s\nrun t\n steps stop go\n start b\n"
        cells = b"\1\2\2\3" + b"\2\0\2\1\3\1" + b"\4\0\0\4\1\0" + b"\7\0"
        self.assertEqual(made(TABLE + text), cells + b"\11" + b"\11\2\1\7\1\7\0" + b"\10")

    def test_the_first_run_may_stand_above_every_other(self):
        first, second = "start b\nsteps go\n", "run second\ngoal a\nsteps stop\n"
        self.assertEqual(made(TABLE + first + second), made(TABLE + "run first\n" + first + second))
        self.assertEqual(made(first + TABLE + second), made(second.replace("run second", "steps go\nstart b\nrun z") + TABLE))

    def test_a_single_run_may_have_a_name(self):
        run = "start b\nsteps go\n"
        self.assertEqual(made(TABLE + run), made(TABLE + "run alone\n" + run))
        self.assertEqual(made(TABLE), made(TABLE + "run alone\n"))

    def test_eight_full_runs(self):
        run = "start a b\ngoal a b\nsteps" + " go" * 64 + "\n"
        data = made(TABLE + "".join(f"run r-{number}\n{run}" for number in range(8)))
        self.assertEqual([(len(each.goals), len(each.steps)) for each in taskfile.task_of(data).runs], [(2, 64)] * 8)
        self.assertIsNone(taskfile.fault(data))
        self.assertEqual(taskfile.fault(data[:-1] + b"\11\10"), len(data) - 1)

    def test_order_begins_anew_in_a_run(self):
        head = b"\1\2\2\3\2\1\4\0\0\7\0\11"
        good = [b"\10", b"\11\10", b"\2\0\2\1\3\0\7\1\7\0\10", b"\7\0\11\2\0\10"]
        bad = {b"\4\0\0\10": 0, b"\5\0\0\10": 0, b"\6\0\0\10": 0, b"\1\2\2\3\10": 0, b"\2\0\5\0\0\10": 2}
        bad |= {b"\2\1\2\0\10": 3, b"\7\0\2\0\10": 2, b"\3\0\2\1\10": 2, b"\4\2\0\10": 1, b"\5\0\2\10": 2}
        self.assertEqual([taskfile.fault(head + tail) for tail in good], [None] * len(good))
        self.assertEqual([taskfile.fault(head + tail) for tail in bad], [len(head) + at for at in bad.values()])


class Words(Case):
    def test_of_the_sample(self):
        told = self.expect(mend("samples/runs.txt", cwd=ROOT), LIST)
        self.assertEqual(told, RUNS.format(file="samples/runs.txt", **NAMES, **NAMED))
        told = self.expect(mend("samples/runs.task", cwd=ROOT), LIST)
        self.assertEqual(told, RUNS.format(file="samples/runs.task", **NUMBERS, **NUMBERED))

    def test_names_are_lent(self):
        """Those of the runs by a source with as many; by another those of facts and actions alone."""
        for lender, runs in (("runs", NAMED), ("story", NUMBERED)):
            told = self.expect(mend("samples/runs.task", "--names", f"samples/{lender}.txt", cwd=ROOT), LIST)
            self.assertEqual(told, RUNS.format(file="samples/runs.task", **NAMES, **runs))
        told = self.expect(mend("samples/story.task", "--names", "samples/runs.txt", cwd=ROOT), LIST)
        self.assertIn("\n16 needs are missing; the first of them:\n", told)

    def test_a_first_run_without_a_name_is_run_1(self):
        told = self.expect(mend(self.file("a.txt", GOOD + "run again\nsteps press\n")), LIST)
        self.assertIn("\nOne need is missing in run 1:\n  at the end: the goal lamp-on is absent\n", told)
        self.assertIn("\nOne need is missing in run again:\n  step 1, press: needs door-shut, which is absent\n", told)

    def test_a_single_run_with_a_name(self):
        path = self.file("a.txt", "run lamp\n" + GOOD)
        told = self.expect(mend(path), LIST)
        self.assertIn(f"{path}: 2 facts, 2 actions, 1 step, at most 3 repairs\n\nOne need is missing in run lamp:\n", told)
        self.assertIn("No shorter list makes the run valid", told)

    def test_no_list(self):
        told = self.expect(mend(self.file("a.txt", GOOD + "run bare\ngoal lamp-on\n")), NO_LIST)
        self.assertIn("\nOne need is missing in run bare:\n  at the end: the goal lamp-on is absent\n", told)
        self.assertTrue(told.endswith("\n\nNo list of repairs, of any length, makes every run valid.\n"))
        told = self.expect(mend(self.file("a.txt", GOOD.replace("limit 3", "limit 1") + "run again\nsteps press\n")), NO_LIST)
        self.assertTrue(told.endswith("A list of repairs makes every run valid, but none of at most 1, which is the limit.\n"))

    def test_headings(self):
        self.assertEqual(words.Names().headings(1), [None])
        self.assertEqual(words.Names().headings(3), ["run 1", "run 2", "run 3"])
        self.assertEqual(words.Names(runs=["1", "b"]).headings(2), ["run 1", "run b"])
        self.assertEqual(source.read(GOOD).run_texts(), None)
        self.assertEqual(source.read(GOOD + "run b\n").run_texts(), ["1", "b"])

    def test_each_open_line_is_told(self):
        found = Listing("", (2, 2, 3, 5), [(0, 0, 0), (1, 3, 1), (4, 1, 0)], refusal=(10, 0))
        runs = [taskfile.Run(steps=[0]), taskfile.Run(steps=[1, 1]), taskfile.Run(steps=[1, 0])]
        self.assertEqual(words.answer("f", found, words.Names(["a", "b"], ["go", "stop"], ["1", "x", "y"]), runs), [
            "f: 2 facts, 2 actions, 3 runs of 5 steps in all, at most 3 repairs",
            "",
            "Nothing is missing in run 1: the run is valid as the table stands.",
            "One need is missing in run x:",
            "  at the end: the goal b is absent",
            "4 needs are missing in run y; the first of them:",
            "  step 1, stop: needs a, which is absent",
            "A step that can't run does nothing, and the next one is tried.",
            "",
            "A list of repairs makes every run valid, but none of at most 3, which is the limit.",
        ])  # fmt: skip


class Story(Case):
    """samples/runs.md: the short run cured alone leaves the long one refused; both at once get the one true repair."""

    def parts(self):
        text = (SAMPLES / "runs.txt").read_text()
        table, short = text.split("run short")
        short, long = short.split("run long")
        return table, "run short" + short, "run long" + long

    def test_one_after_the_other(self):
        table, short, long = self.parts()
        told = self.expect(mend(self.file("short.txt", table + short), "--table", self.folder / "cured"), LIST)
        self.assertIn("To change (1 repair):\n  switch-on should make direction-known true\n", told)
        cured = (self.folder / "cured").read_text()
        told = self.expect(mend(self.file("long.txt", cured.replace(short, long))), LIST)
        self.assertIn("12 needs are missing in run long; the first of them:\n  step 8, sweep-fro: needs direction-known,", told)
        self.assertIn("To change (1 repair):\n  next-line should not end direction-known\n", told)

    def test_the_repairs_of_the_table_in_the_story(self):
        table, short, long = self.parts()
        for action, missing in (("switch-on", 12), ("open-map", 12), ("turn", 0)):
            cured = re.sub(rf"(?m)^action {action}\b.*$", r"\g<0>\n  adds direction-known", table)
            told = self.expect(mend(self.file("a.txt", cured + short + long)), LIST)
            self.assertIn("Nothing is missing in run short:", told)
            self.assertIn(f"{missing or 'Nothing'} {'needs are' if missing else 'is'} missing in run long", told)
