"""Sources are judged: every error with its line, its column and the name it might have meant, and all of them."""

from support import GOOD, LIST, REFUSED, Case, mend

HEAD = "limit 3\nfacts a-known b\n"
TAIL = "action go\nsteps go\n"
RANGE = "is no range: one is written {1..3}, runs upwards, and has at most 64 numbers"
LIMIT = "'limit' takes one number from 0 to 6"
BYTE = "'byte' takes two numbers: a place in the task file, and a value from 0 to 255"
ONE_NAME = "'run' takes one name"
NO_LOCK = "does not need '{}', so that there is nothing to lock"
NO_RUN = "is said of no run: it stands above every 'run', where no steps are, and each run says its own"

ERRORS = {  # a source: its errors
    "limit 7\nfacts a\n" + TAIL: [f"1:7: {LIMIT}"],
    "limit -1\nfacts a\n" + TAIL: [f"1:7: {LIMIT}"],
    "limit many\nfacts a\n" + TAIL: [f"1:7: {LIMIT}"],
    "limit 3 4\nfacts a\n" + TAIL: [f"1:7: {LIMIT}"],
    "limit\nfacts a\n" + TAIL: [f"1:1: {LIMIT}"],
    "limit " + "9" * 5000 + "\nfacts a\n" + TAIL: [f"1:7: {LIMIT}"],
    "limit 3\nlimit 3\nfacts a\n" + TAIL: ["2:1: 'limit' is said twice: first on line 1"],
    "facts a\n" + TAIL: ["3:1: there is no limit: write 'limit 6' for at most six repairs"],
    "limit 3\n" + TAIL: ["3:1: there is no fact"],
    "limit 3\nfacts\n" + TAIL: ["4:1: there is no fact"],
    HEAD: ["2:1: there is no action"],
    HEAD + "action\n" + TAIL: ["3:1: an action needs a name"],
    HEAD + "needs b\n" + TAIL: ["3:1: 'needs' is said of no action: none stands above it"],
    HEAD + "locks b\n" + TAIL: ["3:1: 'locks' is said of no action: none stands above it"],
    HEAD + TAIL + "  locks b\n": [f"5:9: 'go' {NO_LOCK.format('b')}"],
    HEAD + TAIL + "  locks b\n  needs b\n  locks a-known\n": [f"7:9: 'go' {NO_LOCK.format('a-known')}"],
    HEAD + TAIL + "  adds b\n  locks b\naction stop\n  needs b\n": [f"6:9: 'go' {NO_LOCK.format('b')}"],
    HEAD + TAIL + "action s-{1..3}\n  locks b\n": [f"6:9: 's-1' {NO_LOCK.format('b')}"],
    HEAD + TAIL + "  needs b\n  locks b\n  locks b\n": ["7:9: 'b' is said twice under 'locks': first on line 6"],
    HEAD + TAIL + "  needs b\n  locks zzz go\n": ["6:9: there is no fact 'zzz'", "6:13: 'go' is no fact, but an action"],
    HEAD + TAIL + "  needs bb\n  locks b\n": ["5:9: there is no fact 'bb'; did you mean 'b'?"],
    HEAD + TAIL + "  needs b{2..1}\n  locks b\n": [f"5:9: 'b{{2..1}}' {RANGE}"],
    HEAD + TAIL + "  needs b\n  lock b\n": ["6:3: 'lock' is no statement; did you mean 'locks'?"],
    HEAD + "action\n  locks b\n" + TAIL: ["3:1: an action needs a name"],
    HEAD + "facts  c b\n" + TAIL: ["3:10: the fact 'b' is declared twice: first on line 2"],
    HEAD + TAIL + "action go\n": ["5:8: the action 'go' is declared twice: first on line 3"],
    HEAD + "start b b\n" + TAIL: ["3:9: 'b' is said twice under 'start': first on line 3"],
    HEAD + "goal b\ngoal b\n" + TAIL: ["4:6: 'b' is said twice under 'goal': first on line 3"],
    HEAD + "start a-knwon\n" + TAIL: ["3:7: there is no fact 'a-knwon'; did you mean 'a-known'?"],
    HEAD + "goal  zzz\n" + TAIL: ["3:7: there is no fact 'zzz'"],
    HEAD + TAIL + "  adds a-konwn\n": ["5:8: there is no fact 'a-konwn'; did you mean 'a-known'?"],
    HEAD + TAIL + "  needs b\n  needs b\n": ["6:9: 'b' is said twice under 'needs': first on line 5"],
    HEAD + TAIL + "  deletes go\n": ["5:11: 'go' is no fact, but an action"],
    HEAD + TAIL + "steps goo b\n": ["5:7: there is no action 'goo'; did you mean 'go'?", "5:11: 'b' is no action, but a fact"],
    HEAD + TAIL + "stepps go\n": ["5:1: 'stepps' is no statement; did you mean 'steps'?"],
    HEAD + TAIL + "xyzzy go\n": ["5:1: 'xyzzy' is no statement"],
    HEAD + TAIL + "start a-{2..1}\n": [f"5:7: 'a-{{2..1}}' {RANGE}"],
    HEAD + TAIL + "start a-{1..99}\n": [f"5:7: 'a-{{1..99}}' {RANGE}"],
    HEAD + TAIL + "start a-{1..\n": [f"5:7: 'a-{{1..' {RANGE}"],
    HEAD + TAIL + "start a{1..2}{1..2}\n": [f"5:7: 'a{{1..2}}{{1..2}}' {RANGE}"],
    HEAD + TAIL + "start b\u200b\n": ["5:7: 'b\\u200b' has a letter that can't be printed"],
    "limit 3\nfacts f-{1..60} g-{1..5}\n" + TAIL: ["2:17: 'g-5' is fact number 65, and there may be 64"],
    HEAD + TAIL + "action s-{1..32}\n": ["5:8: 's-32' is action number 33, and there may be 32"],
    HEAD + TAIL + "steps" + " go" * 64 + "\n": ["5:196: 'go' is step number 65, and there may be 64"],
    HEAD + TAIL + "run\n": [f"5:1: {ONE_NAME}"],
    HEAD + TAIL + "run long way\n": [f"5:5: {ONE_NAME}"],
    HEAD + TAIL + "run r-{1..2}\n": [f"5:5: {ONE_NAME}"],
    HEAD + TAIL + "run r-{2..1}\n": [f"5:5: 'r-{{2..1}}' {RANGE}"],
    HEAD + TAIL + "runs long\nstart b\n": ["5:1: 'runs' is no statement; did you mean 'run'?"],
    HEAD + TAIL + "run a\nrun b\nrun a\n": ["7:5: the run 'a' is declared twice: first on line 5"],
    HEAD + TAIL + "run 1\n": ["5:5: the run '1' is declared twice: first on line 4"],
    HEAD + "action go\n" + "".join(f"run r-{n}\n" for n in range(1, 11)): ["12:5: 'r-9' is run number 9, and there may be 8"],
    HEAD + TAIL + "".join(f"run r-{n}\n" for n in range(2, 10)): ["12:5: 'r-9' is run number 9, and there may be 8"],
    HEAD + "action go\nstart b\ngoal b\nrun a\nsteps go\n": [f"4:1: 'start' {NO_RUN}", f"5:1: 'goal' {NO_RUN}"],
    HEAD + TAIL + "run a\nstart b\nrun c\nstart b\nstart b\n": ["9:7: 'b' is said twice under 'start': first on line 8"],
    HEAD + TAIL + "run a\ngoal zzz\nsteps b\n": ["6:6: there is no fact 'zzz'", "7:7: 'b' is no action, but a fact"],
    HEAD + TAIL + "run a\nsteps" + " go" * 65 + "\n": ["6:199: 'go' is step number 65, and there may be 64"],
    HEAD + TAIL + "cut many\n": ["5:5: 'cut' takes one number from 0 to 1000000"],
    HEAD + TAIL + "fill 9999999\n": ["5:6: 'fill' takes one number from 0 to 1000000"],
    HEAD + TAIL + "byte\n": [f"5:1: {BYTE}"],
    HEAD + TAIL + "byte 3\n": [f"5:6: {BYTE}"],
    HEAD + TAIL + "byte 3 4 5\n": [f"5:6: {BYTE}"],
    HEAD + TAIL + "byte -1 4\n": [f"5:6: {BYTE}"],
    HEAD + TAIL + "byte 3  256\n": [f"5:9: {BYTE}"],
    HEAD + TAIL + "byte 3 0x4\n": [f"5:8: {BYTE}"],
    HEAD + TAIL + "byte 7 256\n": [f"5:8: {BYTE}"],
    HEAD + TAIL + "byte " + "9" * 5000 + " 4\n": [f"5:6: {BYTE}"],
    HEAD + TAIL + "  byte 7 4\n": ["5:8: there is no byte 7: the task file's last is byte 6"],
    HEAD + TAIL + "byte 999999 4\ncut 2\nfill 9\n": ["5:6: there is no byte 999999: the task file's last is byte 6"],
    HEAD + TAIL + "byte 7 4\nstart zzz\n": ["6:7: there is no fact 'zzz'"],
    HEAD + TAIL + "byte 3 4\nbyte 3 4\n": ["6:1: 'byte' is said twice: first on line 5"],
    HEAD + TAIL + "bytes 7 4\n": ["5:1: 'bytes' is no statement; did you mean 'byte'?"],
}


class Sources(Case):
    def test_each_error(self):
        for text, errors in ERRORS.items():
            with self.subTest(source=text[-60:]):
                path = self.file("bad.txt", text)
                self.assertEqual(self.expect(mend(path), REFUSED, [f"{path}:{error}" for error in errors]), "")

    def test_all_errors_in_the_order_of_the_lines(self):
        path = self.file("bad.txt", "limit 9\nfact a\nstart b\naction go\n delets a\n needs c\nsteps gone\n")
        told = [
            "1:7: 'limit' takes one number from 0 to 6",
            "2:1: 'fact' is no statement; did you mean 'facts'?",
            "3:7: there is no fact 'b'",
            "5:2: 'delets' is no statement; did you mean 'deletes'?",
            "6:8: there is no fact 'c'",
            "7:7: there is no action 'gone'; did you mean 'go'?",
        ]
        self.expect(mend(path), REFUSED, [f"{path}:{error}" for error in told])

    def test_an_error_writes_no_file(self):
        path = self.file("bad.txt", GOOD + "steps nothing\n")
        for option in ("--task", "--table", "--svg"):
            self.assertEqual(mend(path, option, self.folder / "out").returncode, REFUSED)
        self.assertEqual([each.name for each in self.folder.iterdir()], ["bad.txt"])

    def test_damage(self):
        """A byte is written first; then the file is cut, and then filled."""
        cases = {
            "": "01 02 01 03 07 00 08",
            "byte 0 255\n": "ff 02 01 03 07 00 08",
            "fill 9\nbyte 6 0\n": "01 02 01 03 07 00 00 00 00",
            "cut 4\nbyte 3 9\n": "01 02 01 09",
            "cut 2\nfill 5\nbyte 4 255\n": "01 02 00 00 00",
            "cut 6\nfill 7\nbyte 5 7\n": "01 02 01 03 07 07 00",
        }
        for damage, data in cases.items():
            mend(self.file("a.txt", HEAD + TAIL + damage), "--task", self.folder / "out")
            self.assertEqual((self.folder / "out").read_bytes().hex(" "), data, damage)

    def test_the_place_of_a_refusal_is_the_first_damage(self):
        for damage, at in (("cut 6\n", "5:1"), ("fill 9\n  cut 5\n", "6:3"), ("cut 5\n\n byte 5 1\n", "7:2")):
            path = self.file("a.txt", HEAD + TAIL + damage)
            self.assertEqual(mend(path).stderr.partition(" refused ")[0], f"{path}:{at}:")

    def test_line_ends_and_marks_of_other_machines(self):
        told = [self.expect(mend(self.file("a.txt", text)), LIST) for text in (GOOD, GOOD.replace("\n", "\r\n"), "\ufeff" + GOOD)]
        self.assertEqual(told, [told[0]] * 3)
        self.assertIn("press should make lamp-on true", told[0])

    def test_names_may_be_used_before_they_are_declared(self):
        self.expect(mend(self.file("a.txt", "steps go\nstart a\n" + "action go\n needs a\nfacts a\nlimit 0\n")), LIST)

    def test_names_in_other_letters(self):
        told = self.expect(mend(self.file("a.txt", GOOD.replace("lamp-on", "лампа-💡"))), LIST)
        self.assertIn("press should make лампа-💡 true", told)

    def test_a_byte_that_is_no_utf_8(self):
        path = self.file("latin.txt", GOOD.encode() + "# schön".encode("latin-1"))
        self.expect(mend(path), REFUSED, f"{path}:12:6: the byte 246 is no text in UTF-8")
