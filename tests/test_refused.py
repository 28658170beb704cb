"""A refused task file: why it is refused, which byte is wrong, and the record that it stands in (02, request 2); with --numbers
the program's line alone."""

import re

from refused_files import FILES, NO_SIZES, first
from support import LIST, REFUSED, ROOT, SAMPLES, UNABLE, Case, in_terminal, mend

import badbyte
import library
import refusals
from stop import Stop

NO_TEXT = " (nor is this a source: it is no text in UTF-8)"

SAID = {  # the words of the refusals of a file
    1: "the end record is missing, or a record passes the end of the file",
    2: "no record has this kind",
    3: "the sizes don't stand first, or stand there twice",
    4: "a size is out of range: 1 to 64 facts, 1 to 32 actions, limit 0 to 6",
    5: "no fact or action has this number",
    6: "out of order: kinds never go back, bodies ascend, no need, add, delete or lock in a further run",
    7: "a run has more than 64 steps",
    8: "there are bytes after the end record",
    16: "there are more than 8 runs",
    18: "there is a lock on a fact that the action does not need",
}

COLOURS = re.compile("\033\\[[0-9;]*m")


def line(path, number, place):
    return f"{path}: refused {number} at byte {place}: {SAID[number]}"


class Shown(Case):
    def test_each(self):
        for name, (data, number, place, shown) in FILES.items():
            with self.subTest(name=name):
                path = self.file("file", data)
                told = line(path, number, place) + (NO_TEXT if name in NO_SIZES else "")
                self.assertEqual(self.expect(mend(path), REFUSED, [told, "", *shown.splitlines()]), "")

    def test_every_refusal_of_a_file_is_here(self):
        self.assertEqual({number for _, number, _, _ in FILES.values()}, set(SAID))

    def test_numbers_are_the_programs_line_alone(self):
        for name, (data, number, place, _) in FILES.items():
            with self.subTest(name=name):
                told = self.expect(mend(self.file("file", data), "--numbers"), REFUSED)
                self.assertEqual(told, f"refused {number} {place}\n")

    def test_numbers_alone_with_names_and_of_a_source(self):
        for arguments in (["samples/damaged.txt"], ["samples/damaged.task", "--names", "samples/story.txt"]):
            self.assertEqual(self.expect(mend(*arguments, "--numbers", cwd=ROOT), REFUSED), "refused 5 34\n")

    def test_docs_show_what_is_printed(self):
        """The example of docs/SOURCE.md."""
        text = (ROOT / "docs" / "SOURCE.md").read_text()
        block = re.search(r"(?m)^    swapped\.task: .*\n(?:(?:    .*)?\n)+", text)[0]
        self.file("swapped.task", first(8, "02 01", 0))
        ran = mend("swapped.task", "--names", SAMPLES / "first.txt", cwd=self.folder)
        self.expect(ran, REFUSED, [each[4:] for each in block.rstrip().splitlines()])


class Rows(Case):
    """The rows, for every place of files of many lengths."""

    def test_each_place(self):
        for length in (0, 1, 15, 16, 17, 31, 32, 33, 64, 130):
            for place in range(length + 1):
                self.assertEqual(*self.both(bytes(range(7, 7 + length)), place), (length, place))

    def both(self, data, place):
        """The rows as they are, and as they should be: plain ones, with brackets in the place of the spaces around the byte."""
        digits = [f"{byte:02x}" for byte in data] + [".."] * (place == len(data))
        starts = [start for start in range(0, len(digits), 16) if start - 16 <= place - place % 16 <= start + 16]
        width, should = len(str(starts[-1])), []
        for start in starts:
            row = f"  {start:{width}}  {' '.join(digits[start : start + 16])} "
            if start <= place < start + 16:
                at = len(f"  {start:{width}}  ") + 3 * (place - start)
                row = f"{row[: at - 1]}[{row[at : at + 2]}]{row[at + 3 :]}"
            should.append(row.rstrip())
        return badbyte.rows(data, place, coloured=False), should


class Named(Case):
    def source(self, *damage):
        return self.file("a.txt", (SAMPLES / "first.txt").read_text() + "".join(f"{each}\n" for each in damage))

    def test_a_source_and_names_that_are_lent(self):
        path = self.source("byte 16 9")
        told = ["the record at byte 14: 04 02 09, a need: store-row, fact 9", "there are 4 facts, numbered 0 to 3"]
        ran = mend(path)
        self.assertEqual(ran.stderr.splitlines()[0], line(f"{path}:19:1", 5, 16))
        self.assertEqual(ran.stderr.splitlines()[-2:], told)
        lent = mend(self.file("a.task", first(16, "09")), "--names", SAMPLES / "first.txt")
        self.assertEqual(lent.stderr.splitlines()[1:], ran.stderr.splitlines()[1:])

    def test_a_source_whose_file_does_not_begin_with_the_sizes(self):
        path = self.source("byte 0 2")
        told = [line(f"{path}:19:1", 3, 0), "", "   0 [02]04 03 03 02 00 03 03 04 00 00 04 01 01 04 02"]
        told += ["  16  01 04 02 02 05 00 01 05 02 03 06 01 01 07 00 07", "", "the record at byte 0: 02 04, a start: fact 4"]
        self.expect(mend(path), REFUSED, told)

    def test_the_record_before_is_named_too(self):
        told = ["the record at byte 17: 04 02 01, a need: store-row, laser-ready"]
        told.append("after the record at byte 14: 04 02 01, a need: store-row, laser-ready")
        self.assertEqual(mend(self.source("byte 19 1")).stderr.splitlines()[-2:], told)
        told = ["the file ends here, where a record has to come; the last one has to be the end record, 08"]
        told.append("after the record at byte 31: 07 01, a step: sweep")
        self.assertEqual(mend(self.source("cut 33")).stderr.splitlines()[-2:], told)

    def test_a_lock_is_told_in_names_with_what_the_action_needs(self):
        lent = mend(self.file("a.task", first(29, "0a 02 03", 0)), "--names", SAMPLES / "first.txt")
        told = ["the record at byte 29: 0a 02 03, a lock: store-row, row-stored", "store-row needs laser-ready, direction-known"]
        self.assertEqual(lent.stderr.splitlines()[-2:], told)

    def test_many_needs_are_told_in_lines(self):
        needs = "".join(f"04 00 {fact:02x}" for fact in range(63))
        shown = mend(self.file("a.task", bytes.fromhex(f"01 40 01 00 {needs} 0a 00 3f 08"))).stderr.split("\n\n")[-1].splitlines()
        self.assertEqual(" ".join(shown[1:]), "action 0 needs " + ", ".join(f"fact {fact}" for fact in range(63)))
        self.assertLessEqual(max(map(len, shown)), 100)

    def test_a_number_outside_has_no_name(self):
        """The source has four facts, and the damaged file says three."""
        told = ["the record at byte 6: 03 03, a goal: fact 3", "there are 3 facts, numbered 0 to 2"]
        self.assertEqual(mend(self.source("byte 1 3")).stderr.splitlines()[-2:], told)

    def test_sizes_that_are_damaged_and_good(self):
        """A file with more facts, or more actions, than the source has names for is answered."""
        told = self.expect(mend("samples/first.txt", cwd=ROOT), LIST)
        for damage, said in (("byte 1 9", ("4 facts", "9 facts")), ("byte 2 8", ("3 actions", "8 actions"))):
            path = self.source(damage)
            expected = told.replace("samples/first.txt", str(path)).replace(*said)
            self.assertEqual(self.expect(mend(path), LIST), expected)

    def test_names_for_other_sizes_are_not_used(self):
        arguments = ["samples/damaged.task", "--names", "samples/story.txt"]
        plain = mend(arguments[0], cwd=ROOT).stderr.splitlines()
        note = "samples/story.txt: has names for 8 facts and 9 actions, and samples/damaged.task has 4 and 3"
        self.expect(mend(*arguments, cwd=ROOT), REFUSED, [*plain, "", note])

    def test_names_for_a_file_without_whole_sizes(self):
        for data in (b"", b"\1", b"\1\5\3", b"\2\0\10"):
            path = self.file("file", data)
            self.expect(mend(path, "--names", SAMPLES / "first.txt"), REFUSED, mend(path).stderr.splitlines())


class Terminal(Case):
    def test_the_digits_are_red_as_well(self):
        for name, marked in (("damaged", "03"), ("torn", ".."), ("trailing", "00")):
            arguments = [f"samples/{name}.task"]
            plain = mend(*arguments, cwd=ROOT).stderr
            coloured = in_terminal(arguments, "stderr")
            self.assertEqual(COLOURS.sub("", coloured), plain)
            self.assertEqual(coloured.count("\033"), 2)
            self.assertIn(f"[\033[1;31m{marked}\033[0m]", coloured)

    def test_no_colours(self):
        plain = mend("samples/damaged.task", cwd=ROOT).stderr
        for environment in ({"NO_COLOR": "1"}, {"TERM": "dumb"}):
            self.assertEqual(in_terminal(["samples/damaged.task"], "stderr", **environment), plain)

    def test_a_terminal_for_the_answer_alone_makes_none(self):
        error = self.folder / "error"
        command = f"'{ROOT}/mend' samples/damaged.task 2> '{error}'"
        self.assertEqual(in_terminal(["-c", command], command="sh"), "")
        self.assertEqual(error.read_text(), mend("samples/damaged.task", cwd=ROOT).stderr)


class Words(Case):
    def test_every_number_has_words(self):
        self.assertEqual(sorted(refusals.WORDS), list(range(1, 19)))
        self.assertEqual({number: refusals.told(number) for number in SAID}, SAID)
        self.assertEqual([each for each in map(refusals.told, refusals.WORDS) if "{" in each or each.endswith(".")], [])

    def test_they_stand_in_one_place(self):
        parts = [part for words in refusals.WORDS.values() for part in re.split(r"\{\w+\}", words) if len(part) > 12]
        self.assertGreater(len(parts), 15)
        for path in (ROOT / "command").glob("*.py"):
            text = path.read_text().lower()
            found = [part for part in parts if part in text and path.name != "refusals.py"]
            self.assertEqual(found, [], path.name)

    def test_lines_are_short(self):
        self.assertLessEqual(max(len(refusals.told(number)) for number in refusals.WORDS), 100)
        for _, _, _, shown in FILES.values():
            self.assertLessEqual(max(map(len, shown.splitlines())), 100)

    def test_what_the_library_refuses(self):
        cases = {12: "the task is not well formed", 9: "no list of repairs, of any length, makes every run valid"}
        cases[10] = "a list of repairs makes every run valid, but none of at most L, which is the limit"
        for number, words in cases.items():
            with self.assertRaises(Stop) as stopped:
                library.accepted([number, 0, 0])
            told = f"mend: the library refuses with {number} what the program accepts: {words}"
            self.assertEqual((stopped.exception.status, stopped.exception.lines), (UNABLE, (told,)))
