"""Every sample: its listing in numbers, its status, the answer in words, and what its page and the README show of it."""

import pathlib
import re
import tempfile

from support import LIST, NO_LIST, REFUSED, ROOT, SAMPLES, Case, mend

STATUS = {
    "first": LIST, "story": LIST, "runs": LIST, "hidden": LIST, "pairs": LIST, "fullest": LIST, "wordiest": LIST,
    "locked": LIST, "sittings": LIST, "lockout": NO_LIST, "hopeless": NO_LIST, "over": NO_LIST,
    "damaged": REFUSED, "torn": REFUSED, "trailing": REFUSED,
}  # fmt: skip
PLACES = {"damaged": ":20:1", "torn": ":20:1", "trailing": ":52:1"}  # of the statement that damages the file
REFUSALS = {
    "damaged": "refused 5 at byte 34: no fact or action has this number",
    "torn": "refused 1 at byte 35: the end record is missing, or a record passes the end of the file",
    "trailing": "refused 8 at byte 27660: there are bytes after the end record",
}
MARKED = {"damaged": "[03]", "torn": "[..]", "trailing": "[00]"}

STORY = """\
{file}: 8 facts, 9 actions, 19 steps, at most 6 repairs

16 needs are missing; the first of them:
  step 4, {sweep}: needs {known}, which is absent
A step that can't run does nothing, and the next one is tried.

To change (1 repair):
  {turn} should make {known} true

No shorter list makes the run valid, and of those as short this is the first in order.
"""
NAMES = {"sweep": "sweep-to", "known": "direction-known", "turn": "turn"}
NUMBERS = {"sweep": "action 3", "known": "fact 4", "turn": "action 2"}

WORDS = {
    "first": ["3 needs are missing; the first of them:", "To change (2 repairs):", "  sweep should not end laser-ready"],
    "pairs": [f"  move-{number} should not end shutter-open" for number in range(1, 7)],
    "wordiest": ["1006 needs are missing in run panel-8; the first of them:", "  tilt should not end row-19"],
    "fullest": [f"Nothing is missing in run panel-{number}: the run is valid as the table stands." for number in range(1, 9)],
    "hopeless": ["  at the end: the goal map-complete is absent", "No list of repairs, of any length, makes the run valid."],
    "runs": ["5 needs are missing in run short; the first of them:", "  turn should make direction-known true"],
    "locked": ["To change (2 repairs):", "  load-panel should not end hood-shut", "  wipe-lens should not end hood-shut"],
    "sittings": ["To change (3 repairs):", "  turn should make direction-known true", "  store-row should not end map-open"],
    "lockout": ["A lock is why:", "  step 1, open-shutter: needs hood-shut, which is locked, and absent at the start"],
    "over": ["A list of repairs makes the run valid, but none of at most 6, which is the limit."],
}


class Samples(Case):
    def test_every_sample_is_here(self):
        self.assertEqual({path.stem for path in SAMPLES.glob("*.txt")}, set(STATUS))

    def test_the_gate_runs_the_program_on_every_sample(self):
        looped = re.search(r"for sample in (.*); do", (ROOT / ".ci" / "run").read_text())
        self.assertEqual(sorted(looped[1].split()), sorted(STATUS))

    def test_numbers_are_the_listing(self):
        for name, status in STATUS.items():
            for end in ("txt", "task"):
                with self.subTest(name=name, end=end):
                    listing = self.expect(mend(SAMPLES / f"{name}.{end}", "--numbers"), status)
                    self.assertEqual(listing, (SAMPLES / f"{name}.listing").read_text())

    def test_a_refused_file_has_no_answer(self):
        """Only why it is refused and where, and the byte; of the source the same as of its task file with its names."""
        for name, place in PLACES.items():
            path = SAMPLES / f"{name}.txt"
            ran, lent = mend(path), mend(path.with_suffix(".task"), "--names", path)
            told, *shown = ran.stderr.splitlines()
            self.assertEqual((ran.returncode, ran.stdout, told), (REFUSED, "", f"{path}{place}: {REFUSALS[name]}"))
            self.assertEqual((lent.returncode, lent.stderr.splitlines()[1:]), (REFUSED, shown))
            self.assertEqual("".join(shown).count(MARKED[name]), 1)

    def test_words_of_the_story(self):
        told = self.expect(mend("samples/story.txt", cwd=ROOT), LIST)
        self.assertEqual(told, STORY.format(file="samples/story.txt", **NAMES))
        told = self.expect(mend("samples/story.task", cwd=ROOT), LIST)
        self.assertEqual(told, STORY.format(file="samples/story.task", **NUMBERS))
        told = self.expect(mend("samples/story.task", "--names", "samples/story.txt", cwd=ROOT), LIST)
        self.assertEqual(told, STORY.format(file="samples/story.task", **NAMES))

    def test_words_of_the_others(self):
        for name, lines in WORDS.items():
            with self.subTest(name=name):
                told = self.expect(mend(SAMPLES / f"{name}.txt"), STATUS[name]).splitlines()
                self.assertEqual([line for line in lines if line not in told], [])

    def test_task_files_are_made(self):
        for name, status in STATUS.items():
            with self.subTest(name=name):
                self.assertEqual(mend(SAMPLES / f"{name}.txt", "--task", self.folder / "out").returncode, status)
                self.assertEqual((self.folder / "out").read_bytes(), (SAMPLES / f"{name}.task").read_bytes())

    def test_pages_show_what_is_printed(self):
        """Each block of a page that begins with `$ ./mend`, up to the next one or the block's end. A page has a folder of its own,
        where one block may write what the next one reads."""
        seen = set()
        for page in [ROOT / "README.md", *(ROOT / "docs").glob("*.md"), *SAMPLES.glob("*.md")]:
            folder = pathlib.Path(tempfile.mkdtemp(dir=self.folder))
            (folder / "samples").symlink_to(SAMPLES)
            for words, shown in re.findall(r"(?m)^    \$ \./mend (.*)\n((?:(?:    (?!\$ ).*)?\n)*)", page.read_text()):
                with self.subTest(page=page.name, words=words):
                    ran = mend(*words.split(), cwd=folder)
                    self.assertEqual([line[4:] for line in shown.rstrip().splitlines()], (ran.stdout + ran.stderr).splitlines())
                    seen.add(page.name)
        shown = ("damaged", "hidden", "locked", "lockout", "sittings", "torn", "trailing")
        self.assertLessEqual({"README.md", *(f"{name}.md" for name in shown)}, seen)

    def test_the_longest_listing_is_as_long_as_its_page_says(self):
        listing = (SAMPLES / "wordiest.listing").read_bytes()
        self.assertIn(f"That is {len(listing)} bytes, and no listing is longer.", (SAMPLES / "wordiest.md").read_text())
        self.assertIn(f"| the longest listing, {len(listing)} bytes,", (SAMPLES / "README.md").read_text())

    def test_the_story_of_the_damaged_byte(self):
        """samples/damaged.md: one bit is turned, and each of the three actions would be accepted."""
        whole, damaged = ((SAMPLES / f"{name}.task").read_bytes() for name in ("first", "damaged"))
        changed = [(place, old ^ new) for place, (old, new) in enumerate(zip(whole, damaged)) if old != new]
        self.assertEqual((len(damaged), changed), (len(whole), [(34, 1)]))
        for action in range(3):
            path = self.file("a.task", whole[:34] + bytes([action]) + whole[35:])
            self.assertIn(mend(path).returncode, (LIST, NO_LIST))

    def test_readme_shows_the_picture_that_is_drawn(self):
        self.assertIn("](docs/story.svg)", (ROOT / "README.md").read_text())
        self.expect(mend("samples/story.txt", "--svg", self.folder / "out.svg", cwd=ROOT), LIST)
        self.assertEqual((self.folder / "out.svg").read_text(), (ROOT / "docs" / "story.svg").read_text())
