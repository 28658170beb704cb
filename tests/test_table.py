"""The corrected source: comments and order kept, and equal to what the library's apply gives."""

import random
import struct
import unittest
from unittest import mock

from support import GOOD, LIST, SAMPLES, UNABLE, Case, mend

import corrected
import judging
import library
import main
import source
import taskfile
from stop import Stop

GROUPS = """\
limit 6
facts f-{0..9}   # ten of them

action a-{0..3} b    # five alike
  needs f-{0..4} f-7 # what they need
\tdeletes f-8
# between
action c
steps b a-2 c
"""
# a-2 should not need f-2, b should not end f-8, c should make f-9 true, and so should all of the first five f-1
REPAIRS = [("drop-need", 2, 2), ("drop-delete", 4, 8), ("add-effect", 5, 9), *(("add-effect", a, 1) for a in range(5))]
CORRECTED = """\
limit 6
facts f-{0..9}   # ten of them

action a-{0..1}    # five alike
  needs f-{0..4} f-7 # what they need
\tdeletes f-8
  adds  f-1
action a-2
  needs f-{0..1} f-{3..4} f-7
\tdeletes f-8
  adds  f-1
action a-3
  needs f-{0..4} f-7
\tdeletes f-8
  adds  f-1
action b
  needs f-{0..4} f-7
  adds  f-1
# between
action c
  adds f-9
steps b a-2 c
"""

RUN_BETWEEN = """\
limit 2
facts a b c
start c
goal  b
steps go
action go
run other  # between an action and its cells
  start a c
  needs c
  goal  b c
  steps go
  deletes c
"""


class Table(Case):
    def table(self, path):
        self.expect(mend(path, "--table", self.folder / "out"), LIST)
        return (self.folder / "out").read_text()

    def test_the_story_gets_its_effect(self):
        before = (SAMPLES / "story.txt").read_text()
        lines = before.splitlines(keepends=True)
        at = next(number for number, line in enumerate(lines) if line.startswith("action turn")) + 2
        after = self.table(SAMPLES / "story.txt")
        self.assertEqual(after, "".join([*lines[:at], "  adds  direction-known\n", *lines[at:]]))
        again = self.expect(mend(self.folder / "out"), LIST)
        self.assertIn("Nothing is missing: the run is valid as the table stands.", again)

    def test_words_are_dropped_with_their_line(self):
        before = (SAMPLES / "first.txt").read_text()
        after = before.replace("  deletes laser-ready\n", "").replace("adds  laser-ready", "adds  laser-ready direction-known")
        self.assertEqual(self.table(SAMPLES / "first.txt"), after)

    def test_one_table_for_all_runs(self):
        before = (SAMPLES / "runs.txt").read_text()
        turn = "action turn                     # faces the other way\n  needs laser-on\n"
        self.assertEqual(self.table(SAMPLES / "runs.txt"), before.replace(turn, turn + "  adds  direction-known\n"))
        again = self.expect(mend(self.folder / "out"), LIST)
        for name in ("short", "long"):
            self.assertIn(f"Nothing is missing in run {name}: the run is valid as the table stands.", again)

    def test_cells_below_a_run_are_corrected_there(self):
        path = self.file("a.txt", RUN_BETWEEN)
        self.assertEqual(self.table(path), RUN_BETWEEN.replace("  deletes c\n", "  adds  b\n"))

    def test_ranges_are_cut(self):
        before = (SAMPLES / "wordiest.txt").read_text()
        self.assertEqual(self.table(SAMPLES / "wordiest.txt"), before.replace("  deletes row-{14..19}\n", ""))

    def test_a_valid_table_stays_as_it_is(self):
        text = GOOD.replace("steps press\n", "").replace("goal ", "#goal") + "\n# the end, without a line feed"
        self.assertEqual(self.table(self.file("a.txt", text)), text)

    def test_other_line_ends_stay(self):
        path = self.file("a.txt", GOOD.replace("\n", "\r\n"))
        self.expect(mend(path, "--table", self.folder / "out"), LIST)
        expected = GOOD.replace("  needs door-shut\n", "  needs door-shut\n  adds  lamp-on\n").replace("\n", "\r\n")
        self.assertEqual((self.folder / "out").read_bytes().decode(), expected)

    def test_a_group_is_said_apart_where_its_actions_differ(self):
        self.assertEqual(corrected.text(source.read(GROUPS), REPAIRS), CORRECTED)

    def test_a_source_with_a_byte_written(self):
        """Where the file is accepted with it the table is corrected all the same; not where the correction moves that byte, or
        leaves no such place."""
        text = GOOD + "byte 3 6\n"  # the limit
        corrected = text.replace("  needs door-shut\n", "  needs door-shut\n  adds  lamp-on\n")
        self.assertEqual(self.table(self.file("a.txt", text)), corrected)
        moved = GOOD + "byte 15 1\n"  # the step
        last = len((SAMPLES / "pairs.task").read_bytes()) - 1
        gone = (SAMPLES / "pairs.txt").read_text() + f"byte {last} 8\n"
        out = self.folder / "none"
        error = f"{out}: not written: the corrected source is not what the library's apply gives"
        for text in (moved, gone):
            self.assertIn("To change", self.expect(mend(self.file("a.txt", text), "--table", out), UNABLE, error))
        self.assertFalse(out.exists())

    def test_a_table_that_differs_is_not_written(self):
        out = self.folder / "out"
        with mock.patch.object(corrected, "text", lambda source, repairs: GOOD):
            with self.assertRaises(Stop) as stopped:
                main.mend([str(self.file("a.txt")), "--table", str(out)], mock.Mock())
        error = f"{out}: not written: the corrected source is not what the library's apply gives"
        self.assertEqual((stopped.exception.status, stopped.exception.lines), (3, (error,)))
        self.assertFalse(out.exists())


class RandomTables(unittest.TestCase):
    """Random sources with groups, ranges and comments, and random permitted lists: what `corrected` makes is what the library's
    apply gives."""

    COUNT = 600

    def setUp(self):
        self.random = random.Random(20261)

    def ranges(self, numbers, letter):
        """The names of some numbers, in words with and without ranges."""
        words, run = [], []
        for number in [*sorted(numbers), None]:
            if run and (number != run[-1] + 1 or self.random.random() < 0.3):
                words.append(f"{letter}{run[0]}" if len(run) == 1 else f"{letter}{{{run[0]}..{run[-1]}}}")
                run = []
            run.append(number)
        self.random.shuffle(words)
        return words

    def some(self, facts):
        return self.random.sample(facts, self.random.randint(0, len(facts)))

    def cells(self, facts):
        """Of some kinds of cells in any order the facts; locks are on needs alone."""
        said = {kind: self.some(range(facts)) for kind in self.some(["needs", "adds", "deletes"])}
        said |= {"locks": self.some(said["needs"])} if "needs" in said else {}
        return self.random.sample(list(said.items()), len(said))

    def block(self, first, count, facts):
        pick = self.random.choice
        lines = ["action " + " ".join(self.ranges_in_order(first, count)) + pick(["", " # said of them"])]
        for kind, said in self.cells(facts):
            words = self.ranges(said, "f-")
            cut = self.random.randint(0, len(words))
            for part in (words[:cut], words[cut:]):
                said = kind + pick([" ", "   "]) + pick([" ", "  "]).join(part)
                lines.append(pick(["  ", "\t"]) + said + pick(["", "", " # f-1"]))
        between = [[""], ["# alone"], ["steps a-0"], [f"run r-{first}", "start f-0", "goal f-0 # f-1", "steps a-0"]]
        at = self.random.randint(1, len(lines))
        lines[at:at] = pick(between)
        return lines

    def ranges_in_order(self, first, count):
        cut = self.random.randint(0, count)
        parts = [range(first, first + cut), range(first + cut, first + count)]
        return [f"a-{p[0]}" if len(p) == 1 else f"a-{{{p[0]}..{p[-1]}}}" for p in parts if p]

    def text(self):
        facts, actions = self.random.randint(1, 8), 0
        lines = [f"limit {self.random.randint(0, 6)}", f"facts f-{{0..{facts - 1}}}"]
        for _ in range(self.random.randint(1, 3)):
            count = self.random.randint(1, 4)
            lines += self.block(actions, count, facts)
            actions += count
        return self.random.choice(["\n", "\r\n"]).join(lines)

    def repairs(self, data):
        task = taskfile.task_of(data)
        permitted = []
        for fact in range(task.facts):
            for action in range(task.actions):
                permitted += [(fact, 0, action)] if (taskfile.DELETE, action, fact) in task.cells else []
                permitted += [(fact, 1, action)] if (taskfile.ADD, action, fact) not in task.cells else []
                is_locked = (action, fact) in task.locks()
                permitted += [(fact, 2, action)] if (taskfile.NEED, action, fact) in task.cells and not is_locked else []
        return sorted(self.random.sample(permitted, min(len(permitted), self.random.choice([0, 1, 2, 3, 6, 12]))))

    def test_equal_to_apply(self):
        texts = [self.text() for _ in range(self.COUNT)]
        sources = [source.read(text) for text in texts]
        self.assertEqual([error for each in sources for error in judging.errors(each)], [])
        datas = [taskfile.file_of(each) for each in sources]
        lists = [self.repairs(data) for data in datas]
        calls = library.Library()
        tasks = [words[2:] for words, _ in calls.ask([(library.READ, [], data) for data in datas])]
        numbers = [struct.pack(f"<{len(each)}H", *(96 * f + 32 * k + a for f, k, a in each)) for each in lists]
        applied = calls.ask([(library.APPLY, task, each) for task, each in zip(tasks, numbers)])
        self.assertEqual({words[0] for words, _ in applied}, {0})
        written = calls.ask([(library.WRITE, words[2:], bytes(library.LONGEST_FILE)) for words, _ in applied])
        for text, each, repairs, (words, room) in zip(texts, sources, lists, written):
            made = corrected.text(each, [(("drop-delete", "add-effect", "drop-need")[k], a, f) for f, k, a in repairs])
            self.assertEqual(taskfile.file_of(source.read(made)), room[: words[2]], text)
            self.assertEqual(comments(made), comments(text))
        self.assertGreater(sum(map(bool, lists)), self.COUNT / 2)
        self.assertGreater(sum(bool(taskfile.task_of(data).locks()) for data in datas), self.COUNT / 4)


def comments(text):
    return [line.partition("#")[2].strip() for line in text.split("\n") if "#" in line]
