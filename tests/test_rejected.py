"""A step that can't run does nothing (02, request 3): in the words, in the drawings, in the states that are drawn, and in the
sample that shows it."""

import random
import re
import unittest
import xml.etree.ElementTree

from support import GOOD, LIST, NO_LIST, ROOT, SAMPLES, Case, mend

import library
import picture
import taskfile
import words
from listing import Listing
from taskfile import ADD, DELETE, END, GOAL, NEED, RUN, SIZES, START, STEP

TOLD = "A step that can't run does nothing, and the next one is tried."
LEGEND = "could not run, did nothing"

HIDDEN = """\
                    before               after
                    laser-ready          laser-ready
                    |   plate-clamped    |   plate-clamped
   1   clamp     *  .   .                .   .
   2   warm-up      .   .                .   +
   3   sweep     * [+] [X] !            [+] [+]
   4   store-row   [+]  .               [+]  +
       (the end)    +   .                +   +
"""

NO_LIST_WITHIN = """\
limit 0
facts  a b c
start  a
goal   c
action takes-a    # and needs b, so that it keeps a
  needs   b
  deletes a
action needs-a
  needs a
  adds  c
steps  takes-a needs-a takes-a
"""


class Words(Case):
    def test_told_where_a_step_cant_run(self):
        """In some run, and once; a goal that is missing is no step."""
        runs = [taskfile.Run(steps=[0, 0]), taskfile.Run(steps=[0])]
        for opens, told in {
            ((0, 0, 0), (0, 0, 0)): [],
            ((1, 3, 0), (2, 2, 0)): [],
            ((1, 2, 0), (0, 0, 0)): [TOLD],
            ((1, 3, 0), (1, 1, 0)): [TOLD],
            ((1, 1, 0), (1, 1, 0)): [TOLD],
        }.items():
            self.assertEqual(words.rejected(Listing("", opens=list(opens)), runs), told, opens)

    def test_below_what_is_missing(self):
        told = self.expect(mend(SAMPLES / "hidden.txt"), LIST).split("\n\n")
        self.assertEqual(told[1], f"One need is missing:\n  step 3, sweep: needs plate-clamped, which is absent\n{TOLD}")

    def test_not_told_of_a_goal(self):
        told = self.expect(mend(self.file("a.txt"), "--show"), LIST)
        self.assertIn("at the end: the goal lamp-on is absent\n\nTo change", told)
        self.assertNotIn("!", told)

    def test_the_table_in_the_page_of_the_sample(self):
        text = (SAMPLES / "hidden.txt").read_text()
        clamped = text.replace("action warm-up", "  adds plate-clamped\naction warm-up")
        opens = [self.open_of(each) for each in (text, clamped, ready(text), ready(clamped))]
        self.assertEqual(opens, ["1 3 2", "2 4 1", "1 3 2", "0 0 0"])
        self.assertEqual(re.findall(r"\| `(\d+ \d+ \d+)`", (SAMPLES / "hidden.md").read_text()), opens)

    def open_of(self, text):
        listing = self.expect(mend(self.file("a.txt", text), "--numbers"), LIST)
        return re.search("(?m)^open (.*)$", listing)[1]


def ready(text):
    return text.replace("  deletes laser-ready", "  #")


class Drawing(Case):
    def test_of_the_sample(self):
        """Its sign stands before the correction only, also beside that of a changed action."""
        told = self.expect(mend("samples/hidden.txt", "--show", cwd=ROOT), LIST)
        self.assertEqual(told.count(HIDDEN), 1)
        self.assertEqual(re.findall("(?m)^!.*$", told), [f"!  {LEGEND}"])

    def test_without_a_correction(self):
        """Each step that could not run has the sign, and keeps what it would have ended; one that could run has its effects."""
        told = self.expect(mend(self.file("a.txt", NO_LIST_WITHIN), "--show"), NO_LIST)
        self.assertEqual(told.count(TOLD), 1)
        rows = re.findall(r"(?m)^ +\d   .*$", told)
        self.assertEqual(rows, ["   1   takes-a     [X] !", "   2   needs-a      .", "   3   takes-a     [X] !"])
        self.assertIn("2 needs are missing; the first of them:\n  step 1, takes-a: needs b, which is absent\n", told)

    def test_as_a_picture(self):
        for name, rejected in {"hidden": [3], "story": [4, 5, 8, 9, 12, 13, 16, 17, 18]}.items():
            self.expect(mend(SAMPLES / f"{name}.txt", "--svg", self.folder / "out.svg"), LIST)
            root = xml.etree.ElementTree.parse(self.folder / "out.svg").getroot()
            texts = list(root.iter("{http://www.w3.org/2000/svg}text"))
            row = {each.text.split()[0]: each.get("y") for each in texts if each.get("x") == "16.0"}
            signs = [each for each in texts if each.get("class") == "rejected"]
            self.assertEqual([(each.text, each.get("y")) for each in signs], [("!", row[str(step)]) for step in rejected])
            after = next(float(each.get("x")) for each in texts if each.text == "after")
            self.assertLess(max(float(each.get("x")) for each in signs), after)
            self.assertEqual([each.text for each in texts if each.text.startswith("! ")], [f"! {LEGEND}"])

    def test_a_picture_without_one(self):
        self.expect(mend(self.file("a.txt", GOOD), "--svg", self.folder / "out.svg"), LIST)
        self.assertNotIn("!", (self.folder / "out.svg").read_text())

    def test_the_end_is_no_step(self):
        missing, whole = [picture.Cell(present=False, needed=True)], [picture.Cell(present=True, needed=True)]
        run = picture.Run(None, [], [[whole, missing, missing], [missing], [whole, whole, missing]])
        self.assertEqual([run.rejected(side) for side in range(3)], [[False, True, False], [False], [False] * 3])


class States(unittest.TestCase):
    """The states that are drawn are the controller's, on random tasks of eight runs."""

    COUNT = 12

    def test_random_tasks(self):
        pick, calls = random.Random(20263), library.Library()
        kept = {ADD: 0, DELETE: 0}  # steps that could not run and would have changed the state by an add, or by a delete
        for number in range(self.COUNT):
            facts = (3, 5, 8, 64)[number % 4]
            data, starts = random_task(pick, facts)
            task = taskfile.task_of(data)
            told = calls.presence(calls.task(data), range(facts))
            self.assertEqual(told, [course(task, run, start, kept) for run, start in zip(task.runs, starts)], data.hex())
        self.assertGreater(min(kept.values()), 100)


def random_task(pick, facts):
    """A task file with eight runs, and their starts."""
    some = lambda many: sorted(pick.sample(range(facts), min(facts, many)))  # noqa: E731
    cells = [(kind, a, f) for kind in (NEED, ADD, DELETE) for a in range(6) for f in some(pick.randint(0, 2))]
    starts, records = [], [(SIZES, facts, 6, 0)]
    for number in range(8):
        starts.append(set(some(facts // 2)))
        records += [(RUN,)] if number else []
        records += [(START, f) for f in sorted(starts[-1])] + [(GOAL, f) for f in some(2)]
        records += [*([] if number else cells), *((STEP, pick.randrange(6)) for _ in range(pick.randint(0, 20)))]
    return bytes(each for record in [*records, (END,)] for each in record), starts


def course(task, run, start, kept):
    """The controller's states after each number of a run's steps: it rejects a step that lacks a need, and keeps the state."""
    cells = {(kind, a): {f for k, b, f in task.cells if (k, b) == (kind, a)} for kind in (NEED, ADD, DELETE) for a in range(6)}
    states = [start]
    for action in run.steps:
        state, adds, deletes = states[-1], cells[ADD, action], cells[DELETE, action] - cells[ADD, action]
        can_run = cells[NEED, action] <= state
        kept[ADD] += not can_run and not adds <= state
        kept[DELETE] += not can_run and bool(deletes & state)
        states.append(state - deletes | adds if can_run else state)
    return states
