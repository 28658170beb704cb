"""Lists in two sittings (02, request 7): the option --part and what is told of it; that two sittings, in either order, end in the
table of the whole list, and that mend answers just what is left between them; and what samples/sittings.md tells."""

import io
import itertools
import random
import re
import subprocess
import unittest
from unittest import mock

import test_table
from support import GOOD, LIST, NO_LIST, REFUSED, ROOT, SAMPLES, UNABLE, Case, mend

import corrected
import files
import judging
import library
import listing
import main
import source
import taskfile
from stop import Stop

SITTINGS = SAMPLES / "sittings.txt"
TELLS = " (mend --help tells how it is used)"
TAKES = "--part takes numbers from 1, with commas and without spaces, such as 1,3"
HOME, TURN, STORE = "home should not need stage-homed", "turn should make direction-known true", "store-row should not end map-open"

LISTS = {path.stem: listing.parsed(path.read_text()).repairs for path in SAMPLES.glob("*.listing")}
ANSWERED = {name: repairs for name, repairs in LISTS.items() if repairs}


def with_commas(part):
    return ",".join(map(str, part))


def task_file(path):
    return taskfile.file_of(files.source_of(path, path.read_bytes()))


class WrongUse(Case):
    def test_numbers_that_are_none(self):
        spaced, unlike = ["1, 2", " 1", "1 2", "1\n"], ["", "1,", ",1", "1,,2", "1;2", "1..3"]
        for value in (*spaced, *unlike, "0", "x", "-1", "+1", "01", "1.0", "²", "١"):
            with self.subTest(value=value):
                ran = mend(SITTINGS, "--table", "x", f"--part={value}", cwd=self.folder)
                self.assertEqual(self.expect(ran, UNABLE, f"mend: {TAKES}{TELLS}"), "")
        self.assertEqual(list(self.folder.iterdir()), [])

    def test_each(self):
        both = "can't both be given: the texts have the whole list made"
        cases = {
            ("--table", "x", "--part"): "--part needs numbers: --part NUMBERS",
            ("--table", "x", "--part", "2,1,3,1"): "--part has the number 1 twice",
            ("--table", "x", "--part", "1", "--part", "2"): "--part is given twice",
            ("--part", "1"): "--part is for --table, which is not given",
            ("--part", "1", "--task", "x", "--numbers"): "--part is for --table, which is not given",
            ("--part", "1", "--pddl", "x"): f"--part and --pddl {both}",
            ("--table", "y", "--part", "1", "--pddl", "x"): f"--part and --pddl {both}",
        }
        for arguments, what in cases.items():
            with self.subTest(what=what):
                self.assertEqual(self.expect(mend(SITTINGS, *arguments, cwd=self.folder), UNABLE, f"mend: {what}{TELLS}"), "")
        task = SAMPLES / "sittings.task"
        error = f"mend: --table is not for a task file, and {task} is one{TELLS}"
        self.expect(mend(task, "--table", "x", "--part", "1", cwd=self.folder), UNABLE, error)
        self.assertEqual(list(self.folder.iterdir()), [])


class NotWritten(Case):
    """What stops mend once there is an answer: that is told, and no file is written."""

    def not_written(self, path, part, why, status=UNABLE):
        out, svg = self.folder / "out", self.folder / "out.svg"
        for option in ([], ["--numbers"]):
            ran = mend(path, "--table", out, "--part", part, *option)
            told = self.expect(ran, status, f"{out}: not written: {why}")
            self.assertEqual(told, mend(path, *option).stdout)
        if status == UNABLE:
            self.expect(mend(path, "--table", out, "--part", part, "--svg", svg), status, f"{out}: not written: {why}")
        self.assertFalse(out.exists() or svg.exists())

    def test_a_number_above_the_list(self):
        self.not_written(SAMPLES / "story.txt", "2", "there is no repair 2: the list has 1 repair")
        self.not_written(SITTINGS, "4", "there is no repair 4: the list has 3 repairs")
        self.not_written(SITTINGS, "1,7,9,3", "there is no repair 7: the list has 3 repairs")
        self.not_written(SAMPLES / "pairs.txt", "1,2,3,4,5,6,7", "there is no repair 7: the list has 6 repairs")
        self.not_written(SITTINGS, "1" * 5000, f"there is no repair {'1' * 5000}: the list has 3 repairs")

    def test_an_empty_list_has_no_numbers(self):
        valid = self.file("a.txt", GOOD.replace("goal ", "#goal"))
        self.not_written(valid, "1", "there is no repair 1: the list has none")

    def test_no_list(self):
        for name in ("over", "hopeless", "lockout"):
            for part in ("1", "1,9"):
                self.not_written(SAMPLES / f"{name}.txt", part, "there is no correction to make", NO_LIST)

    def test_a_refused_source(self):
        ran = mend(self.file("bad.txt", GOOD + "steps gone\n"), "--table", self.folder / "out", "--part", "1")
        self.assertEqual(ran.returncode, REFUSED)
        self.assertFalse((self.folder / "out").exists())

    def test_a_file_that_stands_there_stays(self):
        out = self.file("out", "before")
        self.assertEqual(mend(SITTINGS, "--table", out, "--part", "4").returncode, UNABLE)
        self.assertEqual(out.read_text(), "before")

    def test_what_could_not_be_written_is_not_told_as_made(self):
        ran = mend(SITTINGS, "--table", "/dev/full", "--part", "1")
        told = self.expect(ran, UNABLE, "/dev/full: can't be written: No space left on device")
        self.assertEqual(told, mend(SITTINGS).stdout)

    def stopped(self, *arguments):
        out = self.folder / "out"
        with self.assertRaises(Stop) as stop:
            main.mend([str(SITTINGS), "--table", str(out), *arguments], io.StringIO())
        self.assertFalse(out.exists())
        self.assertEqual(stop.exception.status, UNABLE)
        return stop.exception.lines[0].removeprefix(f"{out}: not written: ")

    def test_another_part_than_was_asked_for(self):
        text, repairs = corrected.text, ANSWERED["sittings"]
        for wrong in (repairs, repairs[:1], repairs[1:], []):
            with mock.patch.object(corrected, "text", lambda of, _, wrong=wrong: text(of, wrong)):
                error = self.stopped("--part", "2")
            self.assertEqual(error, "the corrected source is not what the library's apply gives")

    def test_another_answer_than_what_is_left(self):
        solved = library.Library.solved
        for arguments, wrong in ((["--part", "2"], [64]), (["--part", "2"], []), (["--part", "1,2,3"], [64]), ([], [64])):
            first = []  # the first solve is of the table as it is given

            def answers(self, task, wrong=wrong, first=first):
                if first:
                    return wrong
                first.append(task)
                return solved(self, task)

            with mock.patch.object(library.Library, "solved", answers):
                error = self.stopped(*arguments)
            self.assertEqual(error, "what is left is not what the library's solve answers for the corrected source")


class Told(Case):
    def part(self, numbers, *options):
        return self.expect(mend(SITTINGS, "--table", "out", "--part", numbers, *options, cwd=self.folder), LIST)

    def after_the_answer(self, numbers):
        answer, told = self.expect(mend(SITTINGS), LIST), self.part(numbers)
        self.assertEqual(told[: len(answer)], answer)
        return told[len(answer) :].splitlines()

    def test_what_is_made_and_what_is_left(self):
        left = "Left for another sitting ({}); it is what mend answers for out:"
        told = ["", "Made in out (1 of 3 repairs):", f"  {TURN}", "", left.format("2 repairs"), f"  {HOME}", f"  {STORE}"]
        self.assertEqual(self.after_the_answer("2"), told)
        told = ["", "Made in out (2 of 3 repairs):", f"  {HOME}", f"  {STORE}", "", left.format("1 repair"), f"  {TURN}"]
        for numbers in ("1,3", "3,1"):
            self.assertEqual(self.after_the_answer(numbers), told)

    def test_nothing_is_left(self):
        nothing = "Nothing is left for another sitting."
        told = ["", "Made in out (3 of 3 repairs):", f"  {HOME}", f"  {TURN}", f"  {STORE}", "", nothing]
        self.assertEqual(self.after_the_answer("2,3,1"), told)
        told = self.expect(mend(self.file("a.txt"), "--table", "out", "--part", "1", cwd=self.folder), LIST)
        made = f"\n\nMade in out (1 of 1 repair):\n  press should make lamp-on true\n\n{nothing}\n"
        self.assertTrue(told.endswith(made), told)

    def test_the_listing_stays_unchanged(self):
        for numbers in ("2", "1,2,3"):
            self.assertEqual(self.part(numbers, "--numbers"), (SAMPLES / "sittings.listing").read_text())

    def test_a_drawing_stands_before_it_and_is_of_the_whole_list(self):
        drawn = self.expect(mend(SITTINGS, "--show"), LIST)
        told = self.part("2", "--show")
        self.assertEqual(told[: len(drawn)], drawn)
        self.assertTrue(told[len(drawn) :].startswith("\nMade in out (1 of 3 repairs):\n"), told)

    def test_the_whole_list_is_told_without_a_part_as_before(self):
        told = self.expect(mend(SITTINGS, "--table", self.folder / "out"), LIST)
        self.assertEqual(told, self.expect(mend(SITTINGS), LIST))

    def test_only_the_words_of_the_part_change(self):
        before = SITTINGS.read_text()
        changes = {
            "1": ("  needs   stage-homed           # this is wrong\n", "  # this is wrong\n"),
            "2": ("was forgotten\n  needs laser-on\n", "was forgotten\n  needs laser-on\n  adds  direction-known\n"),
            "3": ("deletes row-in-buffer map-open #", "deletes row-in-buffer #"),
        }
        for number, (old, new) in changes.items():
            self.part(number)
            self.assertEqual(before.count(old), 1)
            self.assertEqual((self.folder / "out").read_text(), before.replace(old, new))


class Splits(Case):
    """Every split of a short list, and some of a long one: mend takes the part from the source, and the rest from what it wrote."""

    OF_A_LONG_ONE = 12

    def setUp(self):
        super().setUp()
        self.random, self.count = random.Random(20267), itertools.count(1)

    def sitting(self, path, part=None):
        """The repairs that mend answers for a source, and the source that it then writes."""
        written, out = self.folder / f"{next(self.count)}.txt", io.StringIO()
        options = ["--part", with_commas(part)] if part else []
        self.assertEqual(main.mend([str(path), "--numbers", "--table", str(written), *options], out), LIST)
        return listing.parsed(out.getvalue()).repairs, written

    def parts(self, many):
        """Parts of a list, each followed by its rest: so both orders of a split are here."""
        numbers = range(1, many + 1)
        with_the_first = [[1, *more] for size in range(many - 1) for more in itertools.combinations(numbers[1:], size)]
        splits = self.random.sample(with_the_first, min(len(with_the_first), self.OF_A_LONG_ONE))
        return [each for part in splits for each in (part, [number for number in numbers if number not in part])]

    def test_the_samples_that_are_split(self):
        names = {"first", "story", "runs", "hidden", "locked", "pairs", "wordiest", "sittings"}
        self.assertLessEqual(names, set(ANSWERED))
        self.assertEqual([sorted(map(len, self.parts(many))) for many in (1, 2, 3)], [[], [1, 1], [1, 1, 1, 2, 2, 2]])
        self.assertEqual(len(self.parts(6)), 2 * self.OF_A_LONG_ONE)

    def test_each_sample(self):
        for name, repairs in ANSWERED.items():
            path = SAMPLES / f"{name}.txt"
            whole = task_file(self.sitting(path)[1])
            self.assertNotEqual(whole, task_file(path))
            for part in self.parts(len(repairs)):
                with self.subTest(name=name, part=part):
                    answered, half = self.sitting(path, self.random.sample(part, len(part)))
                    self.assertEqual(answered, repairs)
                    left, written = self.sitting(half)
                    self.assertEqual(left, [repair for number, repair in enumerate(repairs, 1) if number not in part])
                    self.assertEqual(task_file(written), whole)
                    self.assertNotIn(task_file(half), (whole, task_file(path)))

    def test_all_numbers_are_the_whole_list(self):
        for name, repairs in ANSWERED.items():
            path = SAMPLES / f"{name}.txt"
            (_, all_named), (_, whole) = self.sitting(path, range(len(repairs), 0, -1)), self.sitting(path)
            self.assertEqual(all_named.read_text(), whole.read_text())
            self.assertEqual(self.sitting(whole)[0], [])

    def test_a_sitting_for_each_repair(self):
        """Numbers are counted anew in each sitting."""
        for name in ("sittings", "pairs"):
            path, left = SAMPLES / f"{name}.txt", list(ANSWERED[name])
            whole = task_file(self.sitting(path)[1])
            while left:
                number = self.random.randint(1, len(left))
                answered, path = self.sitting(path, [number])
                self.assertEqual(answered, left)
                left.pop(number - 1)
            self.assertEqual(task_file(path), whole)

    def test_a_repair_that_is_made_is_refused_by_apply(self):
        calls = library.Library()
        task = calls.task((SAMPLES / "sittings.task").read_bytes())
        numbers = calls.solved(task)
        self.assertEqual(len(numbers), 3)
        for part in self.parts(3):
            made = calls.applied(task, [numbers[number - 1] for number in part])
            data = b"".join(number.to_bytes(2, "little") for number in numbers)
            words, _ = calls.ask([(library.APPLY, made, data)])[0]
            self.assertEqual((words[:2], words[2:]), ([15, min(part) - 1], made))


class RandomSources(unittest.TestCase):
    """Random sources with groups, ranges and comments, and random permitted lists: what is written in one sitting is a source for
    the next one, and in either order they end in the table of both lists at once."""

    COUNT = 300

    def test_either_order(self):
        make, pick = test_table.RandomTables("test_equal_to_apply"), random.Random(20268)
        make.setUp()
        split = 0
        for _ in range(self.COUNT):
            text = make.text()
            permitted = make.repairs(taskfile.file_of(source.read(text)))
            repairs = [(listing.KINDS[kind], action, fact) for fact, kind, action in permitted]
            one = [repair for repair in repairs if pick.random() < 0.5]
            other = [repair for repair in repairs if repair not in one]
            whole = self.sittings(text, repairs)
            self.assertEqual(self.sittings(text, one, other), whole, text)
            self.assertEqual(self.sittings(text, other, one), whole, text)
            split += bool(one and other)
        self.assertGreater(split, self.COUNT / 3)

    def sittings(self, text, *lists):
        """The task file of a source after lists that are made one after the other."""
        for repairs in lists:
            text = corrected.text(source.read(text), repairs)
            self.assertEqual(judging.errors(source.read(text)), [], text)
        return taskfile.file_of(source.read(text))


class Pages(Case):
    def test_the_sample_page_is_what_the_commands_print(self):
        """All commands of samples/sittings.md, one after the other in a folder where they find mend and the samples."""
        for name in ("mend", "samples"):
            (self.folder / name).symlink_to(ROOT / name)
        page = (SAMPLES / "sittings.md").read_text()
        blocks = re.findall(r"(?m)^    \$ (.*)\n((?:(?:    (?!\$ ).*)?\n)*)", page)
        self.assertEqual([command.split()[0] for command, _ in blocks], ["./mend"] * 6 + ["cmp"])
        for command, shown in blocks:
            ran = subprocess.run(["sh", "-c", command], cwd=self.folder, capture_output=True, text=True, check=False)
            self.assertEqual(ran.returncode, 0, command)
            self.assertEqual([line[4:] for line in shown.rstrip().splitlines()], (ran.stdout + ran.stderr).splitlines())
        self.assertEqual((self.folder / "evening.txt").read_text(), (self.folder / "evening-too.txt").read_text())

    def test_the_listing_in_the_page(self):
        lines = (SAMPLES / "sittings.listing").read_text().splitlines()
        told = "".join(f"    {line}(?: {{2,}}.*)?\n" for line in lines)
        self.assertEqual(len(re.findall(told, (SAMPLES / "sittings.md").read_text())), 2)
