"""The drawing: in a terminal with colours, elsewhere without, never by colour alone; as a picture; and true to the listing."""

import io
import os
import re
import xml.etree.ElementTree
from unittest import mock

from support import LIST, NO_LIST, ROOT, SAMPLES, Case, in_terminal, mend

import draw_text
import library
import main
import picture
from listing import Listing
from stop import Stop

MANY = """\
limit 6
facts channel-{0..63}
start channel-{0..63}
action reset
  deletes channel-{0..63}
action expose
  needs channel-{0..63}
action restore
  adds channel-{32..63}
steps expose reset expose restore expose
""" + "steps expose\n" * 59

APART = """\
limit 6
facts a b
action go
run misses-a-and-has-a-name-that-is-longer-than-its-actions
  goal  a
  start b
  steps go
run misses-b
  goal  b
  steps go go
"""

FIRST = """\
the run of samples/first.txt

                    before                 after
                    laser-ready            laser-ready
                    |   direction-known    |   direction-known
                    |   |   row-stored     |   |   row-stored
   1   warm-up   *  .   .   .              .   .   .
   2   sweep     * [+]  .   .             [+]  +   .
   3   store-row   [X] [X]  .  !          [+] [+]  .
       (the end)    .   .  [X]             +   +  [+]

Each line shows the facts before its step.
.  absent     +  present     [+]  needed and present     [X]  needed and missing
!  could not run, did nothing
*  changed: sweep should not end laser-ready
*  changed: warm-up should make direction-known true
"""


RUNS = """\
the runs of samples/runs.txt

run short
                    before                      after
                    at-right                    at-right
                    |   direction-known         |   direction-known
                    |   |   row-in-buffer       |   |   row-in-buffer
                    |   |   |   map-complete    |   |   |   map-complete
   1   switch-on    .   .   .   .               .   .   .   .
   2   open-map     .   .   .   .               .   .   .   .
   3   turn      *  .   .   .   .               .   .   .   .
   4   sweep-to     .  [X]  .   .  !            .  [+]  .   .
   5   store-row    .  [X] [X]  .  !            +  [+] [+]  .
   6   close-map    .  [X]  .   .  !            +  [+]  .   .
   7   go-home      .   .   .   .               +   +   .   +
       (the end)    .   .   .  [X]              .   +   .  [+]

run long
                    before                      after
                    at-right                    at-right
                    |   direction-known         |   direction-known
                    |   |   row-in-buffer       |   |   row-in-buffer
                    |   |   |   map-complete    |   |   |   map-complete
   1   switch-on    .   .   .   .               .   .   .   .
   2   open-map     .   .   .   .               .   .   .   .
   3   turn      *  .   .   .   .               .   .   .   .
   4   sweep-to     .  [X]  .   .  !            .  [+]  .   .
   5   store-row    .  [X] [X]  .  !            +  [+] [+]  .
   6   next-line    .   .   .   .               +   +   .   .
   7   turn      *  .   .   .   .               +   .   .   .
   8   sweep-fro   [X] [X]  .   .  !           [+] [+]  .   .
   9   store-row    .  [X] [X]  .  !            .  [+] [+]  .
"""


def shown(told):
    return told[re.search("the runs? of", told).start() :]


class Drawing(Case):
    def test_before_and_after(self):
        told = self.expect(mend("samples/first.txt", "--show", cwd=ROOT), LIST)
        self.assertEqual(shown(told), FIRST)

    def test_each_run(self):
        told = shown(self.expect(mend("samples/runs.txt", "--show", cwd=ROOT), LIST))
        self.assertEqual(told[: len(RUNS)], RUNS)
        self.assertEqual((told.count("[X]"), told.count("(the end)")), (5 + 16 + 1, 2))  # and once in the legend
        numbered = shown(self.expect(mend("samples/runs.task", "--show", cwd=ROOT), LIST))
        self.assertEqual(re.findall(r"(?m)^run .*", numbered), ["run 1", "run 2"])

    def test_runs_have_the_same_columns(self):
        told = shown(self.expect(mend(self.file("a.txt", APART), "--show"), LIST))
        first, second = told.split("\nrun ")[1:]
        self.assertEqual(first.splitlines()[1:4], second.splitlines()[1:4])
        self.assertEqual((first.count("[X]"), second.count("[X]")), (1, 1 + 1))  # and once in the legend

    def test_colours_repeat_the_signs(self):
        coloured = in_terminal(["samples/first.txt", "--show"])
        red = re.findall(r"\033\[1;31m([^\033]*)\033\[0m", coloured)
        self.assertEqual(red, ["[X]", "[X]", "!", "[X]"])
        plain = re.sub(r"\033\[[0-9;]*m", "", coloured)
        self.assertEqual(shown(re.sub(r"(?m) +$", "", plain)), FIRST)
        self.assertEqual(shown(in_terminal(["samples/first.txt", "--show"], NO_COLOR="1")), FIRST)
        self.assertEqual(shown(in_terminal(["samples/first.txt", "--show"], TERM="dumb")), FIRST)

    def test_narrow_terminals_get_parts(self):
        told = shown(self.expect(mend("samples/runs.txt", "--show", cwd=ROOT, env={**os.environ, "COLUMNS": "64"}), LIST))
        drawing, legend = told.split("\nEach line shows")
        self.assertLessEqual(max(map(len, drawing.splitlines())), 64)
        self.assertEqual(drawing.count("(the end)"), 3 * 2)
        self.assertEqual(drawing.count("[X]"), 5 + 16)
        self.assertEqual((drawing.count("!"), legend.count("!")), (3 * (3 + 9), 1))  # a step's sign is in each part

    def test_64_facts_and_64_steps(self):
        told = shown(self.expect(mend(self.file("many.txt", MANY), "--show"), NO_LIST))
        self.assertIn("channel-0 and 31 more", told)
        self.assertIn("channel-32 and 31 more: channel-32, channel-33,", told)
        self.assertNotIn("after", told)
        self.assertEqual(len(re.findall(r"(?m)^ *\d+   ", told)), 64)
        self.assertLess(len(told.splitlines()), 90)

    def test_without_steps(self):
        told = shown(self.expect(mend(SAMPLES / "hopeless.txt", "--show"), NO_LIST))
        self.assertRegex(told, r"\(the end\)\s+\[X\]\n")

    def test_nothing_missing(self):
        told = self.expect(mend("samples/fullest.txt", "--show", cwd=ROOT), LIST)
        self.assertEqual(shown(told), "the runs of samples/fullest.txt: nothing is missing, and nothing is changed\n")

    def test_wide_letters_take_two_columns(self):
        fitted = [draw_text.fit(text, 6) for text in ("ab", "日本", "日本語本", "abcdefgh")]
        self.assertEqual(fitted, ["ab    ", "日本  ", "日本..", "abcd.."])

    def test_a_drawing_that_the_listing_denies_is_not_shown(self):
        missing, whole = [[picture.Cell(present=False, needed=True)]], [[picture.Cell(present=True, needed=True)]]
        right = Listing("", opens=[(1, 1, 0), (0, 0, 0)])
        picture.hold_to_listing(right, [[missing, whole]])
        picture.hold_to_listing(right, [[missing, whole], [whole, whole]])
        for told in ((0, 0, 0), (2, 1, 0), (1, 2, 0), (1, 1, 1)):
            for opens in ([told], [told, (0, 0, 0)], [(0, 0, 0), told]):
                with self.assertRaises(Stop) as stopped:
                    picture.hold_to_listing(Listing("", opens=opens), [[missing, whole]])
                self.assertEqual(stopped.exception.status, 3)
        with self.assertRaises(Stop):
            picture.hold_to_listing(right, [[missing, whole], [whole, missing]])

    def test_it_is_not_shown_by_mend_either(self):
        out = io.StringIO()
        with mock.patch.object(library.Library, "presence", lambda self, task, facts: [[set(facts)] * 20]):
            with self.assertRaises(Stop) as stopped:
                main.mend([str(SAMPLES / "story.txt"), "--show", "--svg", str(self.folder / "out")], out)
        told = "mend: the drawing does not show what the listing says, and is not shown"
        self.assertEqual((stopped.exception.status, stopped.exception.lines), (3, (told,)))
        self.assertNotIn("the run of", out.getvalue())

    def test_presence_is_asked_of_the_run_check(self):
        states = [[{0, 1, 2}, {1}], [{0, 2}], [set(), {0, 1, 2}, {2}]]  # of three runs, after each number of steps
        in_steps = [[0, 2], [0], [0, 0, 64]]  # how many needs are open up to there
        task, pipes = [0] * 668, []
        task[library.AT_MANY], task[library.AT_COUNTS : library.AT_COUNTS + 3] = 3, [1, 0, 2]

        def checked(requests):
            pipes.append(len(requests))
            for call, (*words, run), _ in requests:
                self.assertEqual((call, len(words)), (library.CHECK, 668))
                goals, done = words[library.AT_GOALS + run], words[library.AT_COUNTS + run]
                absent = {fact for fact in range(3) if goals >> fact & 1} - states[run][done]
                yield [0, 0, in_steps[run][done] + len(absent), 0, 0], b""

        calls = library.Library.__new__(library.Library)
        with mock.patch.object(calls, "ask", lambda requests: list(checked(requests))):
            self.assertEqual(calls.presence(task, range(3)), states)
        self.assertEqual(pipes, [6, 6, 2 * 3, 2 * 3])  # without goals, with all, and twice the halves of the three that are mixed
        with mock.patch.object(calls, "ask", lambda requests: [([14, 0, 0, 0, 0], b"")] * len(requests)):
            with self.assertRaises(Stop):
                calls.presence(task, range(3))

    def test_a_run_is_cut_where_it_is_asked(self):
        task = list(range(1, 669))
        words = library.cut(task, 2, 3, [0, 63])
        steps = library.AT_STEPS + 2 * 64
        changed = {library.AT_GOALS + 2: 1 | 1 << 63, library.AT_COUNTS + 2: 3}
        changed |= {at: 0 for at in range(steps + 3, steps + 64)}
        self.assertEqual(words, [changed.get(at, word) for at, word in enumerate(task)])
        self.assertFalse((self.folder / "out").exists())

    def test_facts_that_matter(self):
        cells = {"present": picture.Cell(True, False), "missing": picture.Cell(False, True)}
        present, missing = [[cells["present"]] * 4], [[cells["present"], cells["missing"], cells["present"], cells["present"]]]
        self.assertEqual(picture.columns_of([[missing]], 4, {2}), [[1], [2]])
        self.assertEqual(picture.columns_of([[present, missing], [present, present]], 4, {2}), [[1], [2]])


class Picture(Case):
    def svg(self, path, status):
        self.expect(mend(path, "--svg", self.folder / "out.svg"), status)
        return xml.etree.ElementTree.parse(self.folder / "out.svg").getroot()

    def count(self, root, kind):
        return sum(each.get("class") == kind for each in root.iter())

    def test_signs_of_every_cell(self):
        root = self.svg(SAMPLES / "story.txt", LIST)
        self.assertEqual((self.count(root, "missing"), self.count(root, "need")), (16 + 1, 16 + 1))  # and once in the legend
        self.assertEqual(self.count(root, "cross"), 2 * self.count(root, "missing"))
        texts = [each.text for each in root.iter("{http://www.w3.org/2000/svg}text")]
        for words in ("before", "after", "direction-known", "  3  turn *", "* changed: turn should make direction-known true"):
            self.assertIn(words, texts)

    def test_each_run(self):
        root = self.svg(SAMPLES / "runs.txt", LIST)
        self.assertEqual(self.count(root, "missing"), 5 + 16 + 1)  # and once in the legend
        texts = [each.text for each in root.iter("{http://www.w3.org/2000/svg}text")]
        self.assertEqual([text for text in texts if text.startswith("run ")], ["run short", "run long"])
        self.assertEqual((texts.count("before"), texts.count("after"), texts.count("     (the end)")), (2, 2, 2))
        rows = [float(each.get("y")) for each in root.iter() if (each.text or "").strip() == "1  switch-on"]
        self.assertGreater(rows[1], rows[0] + 20 * 7)

    def test_everything_lies_inside(self):
        pictures = {SAMPLES / f"{name}.txt": LIST for name in ("runs", "wordiest", "fullest")}
        pictures |= {self.file("many.txt", MANY): NO_LIST, self.file("apart.txt", APART): LIST}
        for path, status in pictures.items():
            root = self.svg(path, status)
            width, height = float(root.get("width")), float(root.get("height"))
            for each in root.iter():
                place = [float(each.get(word, 0)) for word in ("x", "y")]
                length = 7.3 * len(each.text or "") if each.tag.endswith("text") else 0
                upright = "rotate" in each.get("transform", "")
                self.assertLessEqual(place[0] + (0 if upright else length), width)
                self.assertGreaterEqual(place[1] - (length if upright else 0), 0)
                self.assertLessEqual(place[1], height)

    def test_letters_that_mark_text_are_kept_apart(self):
        text = "limit 3\nfacts <b>&amp;\ngoal <b>&amp;\naction 'go'\nsteps 'go'\n"
        texts = [each.text for each in self.svg(self.file("a.txt", text), LIST).iter()]
        self.assertIn("<b>&amp;", texts)
