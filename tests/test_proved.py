"""The proved program and library behind mend: what they say of bad input and output, and that mend proves nothing before the
input is known to be good, tells how far the proving is, and gives no answer that it did not get whole."""

import os
import shutil
import signal
import subprocess
import sys
import time

from refused_files import AT_THE_END, DISORDERED, LOCK_WITHOUT_NEED, OUTSIDE
from support import LIST, REFUSED, ROOT, SAMPLES, UNABLE, Case, mend

PROGRAM = '"$0/c/run.sh" "$0/target/bin/zernoplysk"'
CRATES = """# name: what it stands on
facts:
table: facts
zernoplysk: table facts io libc
boundary: facts
boundary_c staticlib: boundary facts
other: facts
"""
LISTING = (SAMPLES / "story.listing").read_text()


def proving(name):
    """What rt says of a crate that it proves: a line as it begins, and one at the end."""
    return f"rt: chose --jobs 2 for {name}", "logic=proved functions=1 sum=dac8208d650f15bf native=nat,char,string"


def program(redirected):
    """The program alone, with its input and output as a shell gives them."""
    return subprocess.run(["sh", "-c", f"{PROGRAM} {redirected}", ROOT], cwd=ROOT, capture_output=True, text=True, check=False)


class Program(Case):
    def test_input_that_cant_be_read_is_not_its_end(self):
        for redirected in ("< /", "<&-", "< /proc/self/mem"):
            ran = program(redirected)
            self.assertEqual((ran.stdout, ran.stderr), ("", "zernoplysk: standard input can't be read\n"), redirected)
        self.assertEqual(program("< /dev/null").stdout, "refused 1 0\n")

    def test_input_that_comes_in_parts_is_read_to_its_end(self):
        ran = program("< samples/story.task")
        self.assertEqual((ran.stdout, ran.stderr), (LISTING, ""))
        parts = "(head -c 9; sleep 0.3; cat) < samples/story.task"
        piped = subprocess.run(["sh", "-c", f"{parts} | {PROGRAM}", ROOT], cwd=ROOT, capture_output=True, text=True, check=False)
        self.assertEqual((piped.stdout, piped.stderr), (LISTING, ""))

    def test_output_that_cant_be_written_is_told(self):
        for redirected in ("> /dev/full", ">&-"):
            ran = program("< samples/story.task " + redirected)
            self.assertEqual(ran.stderr, "zernoplysk: standard output can't be written\n", redirected)


class Stands(Case):
    """mend in a tree of its own, with a kit and a program that do what the test says."""

    def setUp(self):
        super().setUp()
        self.root = self.folder / "tree"
        shutil.copytree(ROOT / "command", self.root / "command")
        shutil.copy(ROOT / "mend", self.root / "mend")
        (self.root / "crates.txt").write_text(CRATES)
        for name in ("crates/zernoplysk", "c", "bin", "target/bin", "tools"):
            (self.root / name).mkdir(parents=True)
        shutil.copy(ROOT / "tools" / "programs", self.root / "tools")
        (self.root / "crates/zernoplysk/stdin").touch()
        self.script("c/run.sh", f"cat '{SAMPLES}/story.listing'")
        proved = "; ".join(f"echo '{line}' >&2" for name in ("facts", "table") for line in proving(name))
        self.script("bin/rt", f"{proved}; mkdir -p out; touch out/zernoplysk")

    def script(self, name, text):
        (self.root / name).write_text(f'#!/bin/sh\necho "$0 $*" >> "{self.root}/started"\n{text}\n')
        (self.root / name).chmod(0o755)

    def started(self):
        log = self.root / "started"
        return [line.split("/")[-1] for line in log.read_text().splitlines()] if log.exists() else []

    def mend(self, *arguments, **how):
        path = {**os.environ, "PATH": f"{self.root}/bin:{os.environ['PATH']}"}
        return mend(*arguments, command=self.root / "mend", env=path, **how)

    def test_nothing_is_proved_for_bad_arguments_or_input(self):
        bad = self.file("bad.txt", "limit 9\n")
        story = SAMPLES / "story.txt"
        damaged, task = SAMPLES / "damaged.task", SAMPLES / "story.task"
        cases = [["--help"], [], ["none"], [self.folder], [bad], [damaged], [story, "--shw"], [story, "--task", "/none/out"]]
        cases += [[story, "--svg", "/"], [task, "--names", SAMPLES / "first.txt"], [task, "--table", "x"]]
        cases += [[story, "--part", "1"], [story, "--table", "x", "--part", "0"]]
        self.file("names.txt")
        cases += [[story, "--pddl", self.folder], [story, "--pddl", "/none/out"], [story, "--from-pddl", self.folder]]
        for arguments in cases:
            self.mend(*arguments)
        self.assertEqual(self.started(), [])

    def test_a_refused_file_is_shown_without_the_program(self):
        """Its byte and the record, as the program would have them; and not what only the number of the refusal tells."""
        for name, (data, _, place, shown) in {**AT_THE_END, **OUTSIDE, **DISORDERED, **LOCK_WITHOUT_NEED}.items():
            with self.subTest(name=name):
                path = self.file("file", data)
                left = [line for line in shown.splitlines() if not line.startswith(("there ", "after ", "and after ", "action "))]
                if place == len(data) > 0:
                    left = shown.splitlines()
                told = f"{path}: refused at byte {place}, before the program is proved and built"
                for option in ([], ["--numbers"]):
                    self.assertEqual(self.expect(self.mend(path, *option), REFUSED, [told, "", *left]), "")
        self.assertEqual(self.started(), [])

    def test_a_refused_source_is_shown_without_the_program(self):
        path = self.file("a.txt", (SAMPLES / "first.txt").read_text() + "byte 16 9\n")
        told, *shown = self.mend(path).stderr.splitlines()
        self.assertEqual(told, f"{path}:19:1: refused at byte 16, before the program is proved and built")
        self.assertEqual(shown[-1], "the record at byte 14: 04 02 09, a need: store-row, fact 9")

    def test_proving_tells_which_crate_of_how_many(self):
        told = ["mend: proving and building first, 3 crates; from nothing that takes some minutes"]
        told += ["mend: crate 1 of 3 is proved: facts", "mend: crate 2 of 3 is proved: table"]
        self.expect(self.mend(SAMPLES / "story.txt"), LIST, told)
        self.assertEqual(self.started()[0], "rt run zernoplysk")
        self.expect(self.mend(SAMPLES / "story.txt"), LIST)
        later = time.time() + 5
        os.utime(self.root / "crates", (later, later))
        self.assertEqual(self.mend(SAMPLES / "story.txt").stderr.splitlines()[0], told[0])

    def test_proving_that_fails(self):
        self.script("bin/rt", "echo 'rt: search not proved' >&2; exit 1")
        ran = self.mend(SAMPLES / "story.txt")
        told = f"mend: {self.root}/tools/programs zernoplysk failed: rt: search not proved"
        self.assertEqual((ran.returncode, ran.stderr.splitlines()[-1]), (UNABLE, told))

    def test_no_kit(self):
        bare = self.folder / "bare"
        bare.mkdir()
        for name in ("sh", "dirname", "readlink", "python3"):
            (bare / name).symlink_to(sys.executable if name == "python3" else shutil.which(name))
        ran = mend(SAMPLES / "story.txt", command=self.root / "mend", env={**os.environ, "PATH": str(bare)})
        told = "mend: rt (the Rattle kit) can't be started: No such file or directory"
        self.assertEqual((ran.returncode, ran.stderr.splitlines()[-1]), (UNABLE, told))

    def test_no_python(self):
        ran = mend(command=self.root / "mend", env={"PATH": str(self.folder)})
        self.assertEqual((ran.returncode, ran.stderr), (UNABLE, "mend: there is no python3 on this machine\n"))

    def test_building_the_library_is_told_too(self):
        lines = "\n".join([*proving("facts"), *proving("boundary")])
        (self.root / "target/bin/zernoplysk").touch()
        self.script("c/build.sh", f"echo '{lines}'; echo 'c: no compiler'; exit 1")
        ran = self.mend(SAMPLES / "story.txt", "--show")
        told = ["crate 1 of 3 is proved: facts", "crate 2 of 3 is proved: boundary"]
        told.append(f"{self.root}/c/build.sh failed: c: no compiler")
        self.assertEqual((ran.returncode, ran.stderr.splitlines()[1:]), (UNABLE, [f"mend: {line}" for line in told]))

    def test_a_listing_that_is_not_whole(self):
        (self.root / "target/bin/zernoplysk").touch()
        lines = LISTING.splitlines(keepends=True)
        cut = ["".join(lines[:count]) for count in range(len(lines))]
        more = LISTING.replace(lines[1], lines[1] * 2)  # an open line for a run that isn't there
        for text in [*cut, LISTING[:-1], LISTING + "x\n", LISTING.replace("set 1", "set 2"), more]:
            self.script("c/run.sh", f"printf '%s' '{text}'")
            told = self.expect(self.mend(SAMPLES / "story.txt"), UNABLE, "mend: the program's listing is not whole")
            self.assertEqual(told, "")

    def test_a_listing_with_a_complaint(self):
        (self.root / "target/bin/zernoplysk").touch()
        self.script("c/run.sh", f"cat '{SAMPLES}/story.listing'; echo 'zernoplysk: no' >&2")
        self.expect(self.mend(SAMPLES / "story.txt"), UNABLE, "mend: the program's listing is not whole: zernoplysk: no")

    def test_interrupted(self):
        self.script("bin/rt", "sleep 5")
        environment = {**os.environ, "PATH": f"{self.root}/bin:{os.environ['PATH']}"}
        command = [self.root / "mend", SAMPLES / "story.txt"]
        how = {"stdout": subprocess.PIPE, "stderr": subprocess.PIPE, "text": True, "start_new_session": True}
        with subprocess.Popen(command, env=environment, **how) as ran:
            ran.stderr.readline()
            os.killpg(ran.pid, signal.SIGINT)
            out, errors = ran.communicate()
        self.assertEqual((ran.returncode, out, errors), (UNABLE, "", "mend: interrupted\n"))
