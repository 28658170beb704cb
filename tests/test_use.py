"""Wrong use, input that can't be read, output that can't be written: status 3, one line that says so, and never a traceback."""

import os
import pathlib
import subprocess

from support import GOOD, LIST, NO_LIST, REFUSED, ROOT, SAMPLES, UNABLE, Case, mend

STORY, TASK = SAMPLES / "story.txt", SAMPLES / "story.task"
TELLS = " (mend --help tells how it is used)"
NO_TEXT = " (nor is this a source: it is no text in UTF-8)"
CAN_T_WRITE = "mend: standard output can't be written: "
CAN_T_BOTH, NO_SOURCE = "can't both be given", "the table is then not the source's"


class WrongUse(Case):
    def test_each(self):
        cases = {
            (): "no FILE is given",
            (STORY, STORY): "one FILE at a time, and not 2",
            ("--shw", STORY): "there is no option --shw; did you mean --show?",
            ("-x", STORY): "there is no option --x",
            (STORY, "--task"): "--task needs a file: --task OUT",
            (STORY, "--pddl"): "--pddl needs a folder: --pddl FOLDER",
            (STORY, "--show=yes"): "--show takes nothing",
            (STORY, "--show", "--show"): "--show is given twice",
            (STORY, "--show", "--numbers"): f"--numbers and --show {CAN_T_BOTH}: the listing would not be unchanged",
            (STORY, "--from-pddl", "x", "--table", "x"): f"--table and --from-pddl {CAN_T_BOTH}: {NO_SOURCE}",
            (STORY, "--force"): "--force is for --pddl, which is not given",
            (TASK, "--table", "x"): f"--table is not for a task file, and {TASK} is one",
            (TASK, "--task", "x"): f"--task is not for a task file, and {TASK} is one",
            (STORY, "--names", STORY): f"--names is not for a source, and {STORY} is one",
            (TASK, "--names", TASK): f"--names takes a source, and {TASK} is none",
        }
        for arguments, what in cases.items():
            with self.subTest(what=what):
                self.assertEqual(self.expect(mend(*arguments, cwd=self.folder), UNABLE, f"mend: {what}{TELLS}"), "")
        self.assertEqual(list(self.folder.iterdir()), [])

    def test_help(self):
        told = self.expect(mend("--help"), LIST)
        words = ["--numbers", "--show", "--svg OUT", "--table OUT", "--task OUT", "--names SOURCE", "Exit status"]
        for word in [*words, "--pddl FOLDER", "--force", "--from-pddl FOLDER", "--part NUMBERS"]:
            self.assertIn(word, told)
        self.assertEqual([line[2] for line in told.splitlines() if line[:2] == "  " and line[2].isdigit()], list("0123"))

    def test_names_of_other_sizes(self):
        lender, task = SAMPLES / "first.txt", SAMPLES / "story.task"
        error = f"{lender}: has names for 4 facts and 3 actions, and {task} has 8 and 9"
        self.expect(mend(task, "--names", lender), UNABLE, error)

    def test_names_with_errors_are_refused(self):
        lender = self.file("bad.txt", GOOD + "steps gone\n")
        self.expect(mend(SAMPLES / "story.task", "--names", lender), REFUSED, f"{lender}:12:7: there is no action 'gone'")

    def test_a_file_with_the_name_of_an_option(self):
        self.file("--show")
        self.expect(mend("--", "--show", cwd=self.folder), LIST)


class Input(Case):
    def test_missing_and_folder(self):
        missing = self.folder / "none.txt"
        self.expect(mend(missing), UNABLE, f"{missing}: can't be read: No such file or directory")
        self.expect(mend(self.folder), UNABLE, f"{self.folder}: can't be read: Is a directory")
        self.expect(mend(STORY / "x"), UNABLE, f"{STORY}/x: can't be read: Not a directory")
        self.expect(mend(TASK, "--names", missing), UNABLE, f"{missing}: can't be read: No such file or directory")

    def test_input_without_end(self):
        told = [f"/dev/zero: refused 2 at byte 0: no record has this kind{NO_TEXT}", ""]
        told += ["   0 [00]" + " ".join(["00"] * 15), "  16  " + " ".join(["00"] * 16), ""]
        told += ["the record at byte 0: 00, and no record has this kind: kinds are 01 to 0a"]
        self.expect(mend("/dev/zero"), REFUSED, told)

    def test_a_source_that_is_too_long(self):
        path = self.file("long.txt", GOOD + "#" * 1_000_000)
        self.expect(mend(path), REFUSED, f"{path}: is longer than any source: 1,000,000 bytes and more")

    def test_paths(self):
        told = self.expect(mend(self.file("a b  c.txt")), LIST)
        self.assertIn("a b  c.txt: 2 facts", told)
        self.assertIn("a\\nb.txt: 2 facts", self.expect(mend(self.file("a\nb.txt")), LIST).splitlines()[0])
        strange = os.fsencode(self.folder) + b"/\xff.txt"
        pathlib.Path(os.fsdecode(strange)).write_text(GOOD)
        ran = subprocess.run([ROOT / "mend", strange, "--svg", self.folder / "out"], capture_output=True, check=False)
        self.assertEqual((ran.returncode, ran.stderr), (LIST, b""))

    def test_started_through_links_from_elsewhere(self):
        told = self.expect(mend(STORY), LIST)
        (self.folder / "link").symlink_to(ROOT / "mend")
        (self.folder / "link to link").symlink_to("link")
        for command in ("./link", "./link to link"):
            self.assertEqual(self.expect(mend(STORY, command=command, cwd=self.folder), LIST), told)
        self.assertEqual(sorted(path.name for path in self.folder.iterdir()), ["link", "link to link"])


class Output(Case):
    def test_full_disk(self):
        with open("/dev/full", "w") as full:
            ran = mend(STORY, stdout=full)
            self.assertEqual((ran.returncode, ran.stderr), (UNABLE, CAN_T_WRITE + "No space left on device\n"))
            self.assertEqual(mend("--help", stdout=full).returncode, UNABLE)
        for option in ("--task", "--table", "--svg"):
            with self.subTest(option=option):
                ran = mend(STORY, option, "/dev/full")
                self.assertEqual((ran.returncode, ran.stderr), (UNABLE, "/dev/full: can't be written: No space left on device\n"))
        self.assertTrue(pathlib.Path("/dev/full").is_char_device())

    def test_closed_output(self):
        ran = subprocess.run(["sh", "-c", '"$0" "$1" >&-', ROOT / "mend", STORY], capture_output=True, text=True, check=False)
        self.assertEqual((ran.returncode, ran.stderr), (UNABLE, CAN_T_WRITE + "it is closed\n"))

    def test_output_that_nobody_reads(self):
        reading, writing = os.pipe()
        os.close(reading)
        with os.fdopen(writing, "w") as out:
            ran = mend(STORY, stdout=out)
        self.assertEqual((ran.returncode, ran.stderr), (UNABLE, CAN_T_WRITE + "Broken pipe\n"))

    def test_closed_error_output(self):
        for arguments, status in ((["none"], UNABLE), ([STORY], LIST), ([SAMPLES / "damaged.txt"], REFUSED)):
            command = ["sh", "-c", '"$0" "$1" 2>&-', ROOT / "mend", *arguments]
            self.assertEqual(subprocess.run(command, capture_output=True, check=False).returncode, status)
        with open("/dev/full", "w") as full:
            self.assertEqual(mend("none", stderr=full).returncode, UNABLE)

    def test_places_that_are_no_file(self):
        out = self.folder / "none" / "out"
        self.expect(mend(STORY, "--task", out), UNABLE, f"{out}: can't be written: there is no folder {out.parent}")
        self.expect(mend(STORY, "--svg", self.folder), UNABLE, f"{self.folder}: can't be written: it is a folder")

    def test_nothing_is_written_over(self):
        path = self.file("a.txt")
        self.expect(mend(path, "--table", path), UNABLE, f"{path}: --table would write over {path}")
        self.expect(mend(path, "--task", "x", "--svg", "./x", cwd=self.folder), UNABLE, "./x: --svg would write over x")
        self.assertEqual(path.read_text(), GOOD)

    def test_a_link_is_written_through(self):
        target = self.file("target", "before")
        (self.folder / "link").symlink_to("target")
        self.expect(mend(STORY, "--task", self.folder / "link"), LIST)
        self.assertEqual(target.read_bytes(), (SAMPLES / "story.task").read_bytes())
        self.assertTrue((self.folder / "link").is_symlink())

    def test_no_list_writes_no_table(self):
        out = self.folder / "out"
        error = f"{out}: not written: there is no correction to make"
        told = self.expect(mend(SAMPLES / "over.txt", "--table", out), NO_LIST, error)
        self.assertIn("none of at most 6", told)
        self.assertFalse(out.exists())
