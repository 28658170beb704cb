"""Locks (02, request 6): in the source and its task file, in the words where they are why there is no list, in the corrected
source, and beside PDDL, which does not carry them; and what samples/locked.md and samples/lockout.md tell."""

import re
import subprocess
from unittest import mock

from support import GOOD, LIST, NO_LIST, ROOT, SAMPLES, Case, mend

import files
import listing
import locks
import taskfile
import words

TABLE = "limit 3\nfacts a b c\naction go stop\n  needs a c\n  deletes b\n"
LOCKED_GOOD = GOOD.replace("  needs door-shut\n", "  needs door-shut\n  locks door-shut\n")
HOPELESS = "No list of repairs, of any length, makes {} valid."
HELD = "which is locked, and absent at the start"
RULE = "No repair drops a locked need or changes a start."

TWO_RUNS = """\
limit {limit}
facts  lamp-on door-shut hood-shut
action press
  needs door-shut hood-shut
  locks hood-shut door-shut
  adds  lamp-on
action wait
run day
  start hood-shut door-shut
  steps press
run dusk
  steps press press
run night
  start door-shut
  goal  lamp-on
  steps press wait
run dawn
  steps wait press
"""


def made(text):
    return taskfile.file_of(files.source_of("a.txt", text.encode()))


class TaskFiles(Case):
    def test_a_lock_is_kind_10_before_the_steps(self):
        head, cells, tail = b"\1\3\2\3", b"\4\0\0\4\0\2\4\1\0\4\1\2\6\0\1\6\1\1", b"\7\0\10"
        self.assertEqual(made(TABLE + "steps go\n"), head + cells + tail)
        locked = b"\12\0\0\12\0\2\12\1\0\12\1\2"
        for said in ("  locks c a\n", "  locks c\n  locks a\n"):
            self.assertEqual(made(TABLE + said + "steps go\n"), head + cells + locked + tail)
        self.assertEqual(made(TABLE.replace("  needs", "  locks c\n  needs") + "steps go\n").count(b"\12"), 2)

    def test_it_is_of_the_actions_above_it_alone(self):
        text = TABLE + "action wait\n  needs b c\n  locks c\n"
        self.assertEqual(taskfile.task_of(made(text)).locks(), [(2, 2)])

    def test_it_is_of_the_table_and_not_of_a_run(self):
        text = TABLE + "steps go\nrun other\n  start a\n  locks a\n  steps stop\n"
        self.assertEqual(taskfile.task_of(made(text)).locks(), [(0, 0), (1, 0)])
        self.assertTrue(made(text).endswith(b"\12\0\0\12\1\0\7\0\11\2\0\7\1\10"))

    def test_read_and_taken_away(self):
        data = made(TABLE + "  locks c\nstart b\ngoal a\nsteps go\nrun other\n  start a\n")
        task = taskfile.task_of(data)
        self.assertEqual((task.locks(), task.runs[0].starts, task.runs[1].starts), ([(0, 2), (1, 2)], {1}, {0}))
        bare = made(TABLE + "start b\ngoal a\nsteps go\nrun other\n  start a\n")
        self.assertEqual((taskfile.without_locks(data), taskfile.without_locks(bare)), (bare, bare))

    def test_where_it_may_stand(self):
        head = b"\1\3\2\3\2\1\4\0\0\4\1\2"
        good = [b"\12\0\0\10", b"\6\0\1\12\0\0\12\1\2\7\0\10", b"\5\0\1\12\1\2\11\2\0\10", b"\12\1\2\11\11\10"]
        bad = {b"\12\0\1\10": 0, b"\12\1\0\10": 0, b"\12\0\0\12\0\1\10": 3}  # 18
        bad |= {b"\7\0\12\0\0\10": 2, b"\12\0\0\6\0\1\10": 3, b"\12\0\0\4\1\2\10": 3, b"\11\12\0\0\10": 1}  # 6, at the kind
        bad |= {b"\12\1\2\12\0\0\10": 4, b"\12\0\0\12\0\0\10": 4, b"\11\2\0\12\0\0\10": 3}  # 6
        bad |= {b"\12\2\3\10": 1, b"\12\0\3\10": 2, b"\11\12\2\0\10": 2, b"\7\0\12\0\3\10": 4, b"\12\0": 0, b"\12": 0}  # 5, 1
        self.assertEqual([taskfile.fault(head + tail) for tail in good], [None] * len(good))
        self.assertEqual([taskfile.fault(head + tail) for tail in bad], [len(head) + at for at in bad.values()])

    def test_the_longest_file(self):
        data = (SAMPLES / "fullest.task").read_bytes()
        self.assertEqual((len(data), len(taskfile.without_locks(data)), taskfile.fault(data)), (27660, 21516, None))


class NoList(Case):
    def test_a_lock_is_why(self):
        text = LOCKED_GOOD.replace("start door-shut\n", "")
        told = self.expect(mend(self.file("a.txt", text)), NO_LIST)
        held = f"  step 1, press: needs door-shut, {HELD}"
        tail = [HOPELESS.format("the run"), "A lock is why:", held, f"{RULE} With nothing locked, 2 repairs would do."]
        self.assertEqual(told.split("\n\n")[-1].splitlines(), tail)

    def test_each_run_and_each_need(self):
        told = self.expect(mend(self.file("a.txt", TWO_RUNS.format(limit=3))), NO_LIST)
        self.assertEqual(told.split("\n\n")[-1].splitlines(), [
            HOPELESS.format("every run"),
            "Locks are why:",
            f"  run dusk, step 1, press: needs door-shut, {HELD}",
            f"  run dusk, step 1, press: needs hood-shut, {HELD}",
            f"  run night, step 1, press: needs hood-shut, {HELD}",
            f"{RULE} With nothing locked, 2 repairs would do.",
        ])  # fmt: skip

    def test_over_the_limit_with_nothing_locked(self):
        told = self.expect(mend(self.file("a.txt", TWO_RUNS.format(limit=1))), NO_LIST)
        self.assertTrue(told.endswith(f"{RULE} With nothing locked a list would do, but none of at most 1.\n"), told)

    def test_in_numbers(self):
        path = self.file("a.task", made(LOCKED_GOOD.replace("start door-shut\n", "")))
        self.assertIn(f"\n  step 1, action 0: needs fact 1, {HELD}\n", self.expect(mend(path), NO_LIST))
        told = self.expect(mend(path, "--numbers"), NO_LIST)
        self.assertEqual(told, "task 2 2 3 1\nopen 2 1 1\nrefused 9 0\n")

    def test_a_lock_that_is_not_why(self):
        """A run without steps lacks its goal; the locks are in no one's way, or in the way beside that."""
        for text in (LOCKED_GOOD, LOCKED_GOOD.replace("start door-shut\n", "")):
            told = self.expect(mend(self.file("a.txt", text + "run bare\ngoal lamp-on\n")), NO_LIST)
            self.assertTrue(told.endswith("\n\n" + HOPELESS.format("every run") + "\n"), told)

    def test_a_lock_on_what_is_present_or_made_true_changes_nothing(self):
        homed = "  needs stage-homed\n"
        runs = (SAMPLES / "runs.txt").read_text().replace(homed, homed + "  locks stage-homed\n")
        for text in (LOCKED_GOOD, runs):
            locked, free = self.file("a.txt", text), self.file("b.txt", re.sub("  locks .*\n", "", text))
            told = self.expect(mend(free), LIST).replace(str(free), str(locked))
            self.assertEqual(self.expect(mend(locked), LIST), told)

    def test_the_program_is_asked_only_where_a_lock_may_be_why(self):
        names, locked = words.Names(), made(LOCKED_GOOD)
        hopeless, over = (listing.Listing("", (2, 2, 3, 1), [(1, 1, 1)], refusal=(number, 0)) for number in (9, 10))
        answered = listing.Listing("", (2, 2, 3, 1), [(1, 1, 1)], [])
        with mock.patch("locks.listing_of", return_value=hopeless) as asked:
            for data, found in ((locked, over), (locked, answered), (made(GOOD), hopeless)):
                self.assertEqual(locks.why(data, found, names), [])
            asked.assert_not_called()
            self.assertEqual(locks.why(locked, hopeless, names), [])
            asked.assert_called_once_with(made(GOOD))


class Table(Case):
    def table(self, text):
        self.expect(mend(self.file("a.txt", text), "--table", self.folder / "out"), LIST)
        return (self.folder / "out").read_text()

    def test_the_locks_are_kept(self):
        before = (SAMPLES / "locked.txt").read_text()
        wrong = " +# this is wrong"
        self.assertEqual(self.table(before), re.sub(rf"(?m)^  deletes hood-shut({wrong})$", r"  # this is wrong", before))
        again = self.expect(mend(self.folder / "out", "--task", self.folder / "task"), LIST)
        self.assertIn("Nothing is missing: the run is valid as the table stands.", again)
        self.assertEqual(taskfile.task_of((self.folder / "task").read_bytes()).locks(), [(3, 2)])

    def test_an_effect_is_added_below_a_lock(self):
        text = LOCKED_GOOD.replace("  locks door-shut\n", "  locks door-shut\n  adds  lamp-on\n")
        self.assertEqual(self.table(LOCKED_GOOD), text)

    def test_a_group_that_is_said_apart_keeps_its_locks(self):
        """One of two actions has another need dropped; the lock stays with both."""
        text = "limit 1\nfacts a b\nstart a\naction x-{1..2} # both\n  needs a b\n  locks a\nrun r\n  start a\n  steps x-1\n"
        text = text.replace("start a\naction", "action") + "run s\n  start a b\n  steps x-2\n"
        apart = "action x-1 # both\n  needs a\n  locks a\naction x-2\n  needs a b\n  locks a\n"
        self.assertEqual(self.table(text), text.replace("action x-{1..2} # both\n  needs a b\n  locks a\n", apart))


class Pddl(Case):
    def test_what_is_written_says_that_it_has_no_locks(self):
        out, bare = self.folder / "out", self.folder / "bare"
        path, free = self.file("a.txt", LOCKED_GOOD), self.file("b.txt")
        told = self.expect(mend(path, "--pddl", out), LIST)
        note = f"\nThe texts in {out} carry no locks; names.txt lists the locked need.\n"
        self.assertEqual(told, self.expect(mend(path), LIST) + note)
        self.expect(mend(free, "--pddl", bare), LIST)
        for name in ("domain.pddl", "run-1.pddl"):
            self.assertEqual((out / name).read_bytes(), (bare / name).read_bytes())
        listed = "\n# The texts carry no locks. Locked are these needs:\n\na0 f1  press needs door-shut\n"
        self.assertEqual((out / "names.txt").read_text(), (bare / "names.txt").read_text() + listed)

    def test_the_listing_stays_unchanged(self):
        for option in (["--pddl", self.folder / "out"], ["--from-pddl", self.folder / "out"]):
            told = self.expect(mend(SAMPLES / "locked.txt", "--numbers", *option), LIST)
            self.assertNotIn("lock", told)
            self.assertTrue(told.endswith("end\n"))

    def test_what_is_read_back_has_none(self):
        """A list may then drop what is locked in the file; that is said."""
        out, path, task = self.folder / "out", SAMPLES / "locked.txt", self.folder / "task"
        self.expect(mend(path, "--pddl", out), LIST)
        domain = (out / "domain.pddl").read_text()
        effects = r"(:action a{}\n(?:   .*\n)+?   :effect \(and\n)"
        for action in (0, 5):
            domain = re.sub(effects.format(action), r"\1    (not (f2))\n", domain)
        (out / "domain.pddl").write_text(domain)
        told = self.expect(mend(path, "--from-pddl", out, "--task", task), LIST)
        self.assertIn("\n  open-shutter should not need hood-shut\n", told)
        self.assertTrue(told.endswith(f"\n\nThe texts in {out} carry no locks: the lock of {path} is not in this answer.\n"), told)
        self.assertEqual(task.read_bytes(), taskfile.without_locks((SAMPLES / "locked.task").read_bytes()))

    def test_many_locks_are_counted(self):
        self.assertIn("lists the 3 locked needs.", locks.not_written("out", "names.txt", 3))
        self.assertIn("the 3 locks of a.txt are not in this answer.", locks.not_read("out", "a.txt", 3))


class Pages(Case):
    def test_the_answer_without_the_lock(self):
        """The commands of samples/locked.md that begin otherwise than with mend."""
        page = (SAMPLES / "locked.md").read_text()
        blocks = re.findall(r"(?m)^    \$ (grep .*)\n((?:(?:    (?!\$ ).*)?\n)*)", page)
        self.assertEqual(len(blocks), 1)
        for command, shown in blocks:
            ran = subprocess.run(["sh", "-c", command], cwd=ROOT, capture_output=True, text=True, check=False)
            self.assertEqual([line[4:] for line in shown.rstrip().splitlines()], (ran.stdout + ran.stderr).splitlines())

    def test_the_line_of_the_lock(self):
        shown = "action open-shutter\n  needs laser-on hood-shut\n  locks hood-shut\n  adds  shutter-open\n"
        self.assertIn(shown, re.sub(" +#.*", "", (SAMPLES / "locked.txt").read_text()))
        self.assertIn("".join(f"    {line}\n" for line in shown.splitlines()), (SAMPLES / "locked.md").read_text())

    def test_the_sentence_beside_pddl(self):
        note = locks.not_written("out", "names.txt", 1)
        self.assertIn(f"\n    {note}\n", (SAMPLES / "locked.md").read_text())

    def test_what_to_do_about_the_lockout(self):
        text = (SAMPLES / "lockout.txt").read_text().replace("start laser-on\n", "start laser-on hood-shut\n")
        self.assertIn("Nothing is missing:", self.expect(mend(self.file("a.txt", text)), LIST))

    def test_docs_show_what_is_printed(self):
        told = self.expect(mend(SAMPLES / "lockout.txt"), NO_LIST).split("\n\n")[-1]
        self.assertIn("".join(f"    {line}\n" for line in told.splitlines()), (ROOT / "docs" / "SOURCE.md").read_text())
