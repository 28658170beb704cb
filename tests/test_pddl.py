"""The repaired table as PDDL (02, request 4): what is written into a folder, what is read back from one, and what is said of a
text that is refused."""

import io
import os
import pathlib
import re
import shutil
import subprocess
import tempfile
from unittest import mock

import pddl_grammar
from pddl_grammar import Action, Domain, Problem
from support import GOOD, LIST, NO_LIST, REFUSED, ROOT, SAMPLES, UNABLE, Case, in_terminal, mend

import badtext
import files
import library
import listing
import main
import taskfile
from stop import Stop
from taskfile import ADD, DELETE, GOAL, NEED, RUN, START

# What is written of GOOD, whose repair is that press should make lamp-on true.
DOMAIN = """\
(define (domain stage)
  (:requirements :strips)
  (:predicates
    (f0)
    (f1)
  )
  (:action a0
   :parameters ()
   :precondition (and
    (f1)
   )
   :effect (and
    (f0)
   )
  )
  (:action a1
   :parameters ()
   :precondition (and
   )
   :effect (and
    (not (f1))
   )
  )
)
"""
PROBLEM = """\
(define (problem run)
  (:domain stage)
  (:init
    (f1)
  )
  (:goal (and
    (f0)
  ))
)
"""
NAMES = """\
# What f0, a0 and on stand for in domain.pddl, and which run each other text is of.

f0  lamp-on
f1  door-shut

a0  press
a1  open-door

run-1.pddl  the run
"""
WRITTEN = {"domain.pddl": DOMAIN, "run-1.pddl": PROBLEM, "names.txt": NAMES}

VALID = "Nothing is missing: the run is valid as the table stands."
NO_CHANGE = "Nothing to change: the shortest list of repairs is the empty one."
LEAVES = "here the text leaves the layout of docs/PDDL.md"
OVER_2 = f"{LEAVES}, as a problem over 2 facts has it"
EARLY = "here the text ends too early"
TAIL = "here the text has its end, and something stands after it"

# What is wrong: the text, what of it is replaced by what, the line and the column, and what is shown of it.
REFUSALS = {
    "another word": ("domain.pddl", (":effect", ":efect"), 12, 7, f"""\
  11     )
  12     :efect (and
            ^

{LEAVES}
"""),
    "a fact that is not there": ("domain.pddl", ("(not (f1))", "(not (f2))"), 21, 12, f"""\
  20     :effect (and
  21      (not (f2))
                 ^

{LEAVES}
"""),
    "upper case": ("domain.pddl", ("(define", "(DEFINE"), 1, 2, f"""\
  1  (DEFINE (domain stage)
      ^

{LEAVES}
"""),
    "other line ends": ("domain.pddl", ("\n", "\r\n"), 1, 23, f"""\
  1  (define (domain stage)\\r
                           ^

{LEAVES}
"""),
    "a space at a line's end": ("domain.pddl", ("(f0)\n", "(f0) \n"), 4, 9, f"""\
  3    (:predicates
  4      (f0)
             ^

{LEAVES}
"""),
    "all on one line, and long": ("domain.pddl", ("\n ", "  "), 1, 23, f"""\
  1  (define (domain stage)   (:requirements :strips)   (:predicates     (f0)     (..
                           ^

{LEAVES}
"""),
    "what is no text": ("domain.pddl", ("a0", "a\udcff0"), 7, 13, f"""\
  6    )
  7    (:action a\\xff0
                 ^

{LEAVES}
"""),
    "cut": ("domain.pddl", ("(not (f1))\n   )\n  )\n)\n", "(no"), 21, 8, f"""\
  20     :effect (and
  21      (no
             ^

{EARLY}
"""),
    "without its last line": ("domain.pddl", ("\n)\n", "\n"), 24, 1, f"""\
  23    )
  24
      ^

{EARLY}
"""),
    "nothing": ("domain.pddl", (DOMAIN, ""), 1, 1, f"""\
  1
     ^

{EARLY}
"""),
    "a comment below it": ("domain.pddl", ("\n)\n", "\n)\n; ours\n"), 25, 1, f"""\
  24  )
  25  ; ours
      ^

{TAIL}
"""),
    "a goal over another F": ("run-1.pddl", ("(f0)", "(f2)"), 7, 7, f"""\
  6    (:goal (and
  7      (f2)
           ^

{OVER_2}
"""),
    "facts that go down": ("run-1.pddl", ("    (f1)\n", "    (f1)\n    (f0)\n"), 5, 3, f"""\
  4      (f1)
  5      (f0)
       ^

{OVER_2}
"""),
    "a run cut": ("run-1.pddl", ("))\n)\n", ""), 8, 3, f"""\
  7      (f0)
  8
       ^

{EARLY}
"""),
    "a run twice": ("run-1.pddl", (PROBLEM, PROBLEM + PROBLEM), 10, 1, f"""\
   9  )
  10  (define (problem run)
      ^

{TAIL}
"""),
    "a domain for a run": ("run-1.pddl", (PROBLEM, DOMAIN), 1, 10, f"""\
  1  (define (domain stage)
              ^

{OVER_2}
"""),
}  # fmt: skip


def refusal(path, line, column, place):
    return f"{path}:{line}:{column}: refused 17 at byte {place}: the text is not of the layout"


def within(*arguments):
    """mend without a process of its own, and without a look whether all is built, which take most of the time."""
    out = io.StringIO()
    try:
        with mock.patch.dict(os.environ, NO_COLOR="1"), mock.patch("ready.is_ready", return_value=True):
            status, lines = main.mend([str(word) for word in arguments], out), []
    except Stop as stop:
        status, lines = stop.status, stop.lines
    return subprocess.CompletedProcess(arguments, status, out.getvalue(), "".join(f"{line}\n" for line in lines))


class Folders(Case):
    def pddl(self, name="out", **changed):
        """A folder with the texts of GOOD, some of them changed: (what is replaced, by what)."""
        folder = self.folder / name
        folder.mkdir()
        for each, text in WRITTEN.items():
            text = text.replace(*changed.get(each.split(".")[0].replace("-", "_"), ("", "")))
            (folder / each).write_bytes(text.encode("utf-8", "surrogateescape"))
        return folder

    def content(self, folder):
        return {path.name: path.read_bytes().decode() for path in folder.iterdir()}


class Written(Folders):
    def test_files(self):
        """The folder is made; what is said and the status are as without it."""
        path, out = self.file("a.txt"), self.folder / "out"
        self.assertEqual(self.expect(mend(path, "--pddl", out), LIST), self.expect(mend(path), LIST))
        self.assertEqual(self.content(out), WRITTEN)
        told = self.expect(mend(path, "--from-pddl", out), LIST)
        self.assertEqual(told, f"{out} with {path}: 2 facts, 2 actions, 1 step, at most 3 repairs\n\n{VALID}\n\n{NO_CHANGE}\n")

    def test_the_page_shows_what_is_written(self):
        """Both texts of docs/PDDL.md, each of a small table."""
        blocks = re.findall(r"(?m)(?:^    .*\n)+", (ROOT / "docs" / "PDDL.md").read_text())
        shown = ["".join(line[4:] for line in block.splitlines(keepends=True)) for block in blocks]
        source = "limit 0\nfacts a b c\naction go\nneeds a c\nadds b\ndeletes a\nstart a\ngoal b c\n"
        calls = library.Library()
        written = calls.texts(calls.task(taskfile.file_of(files.source_of("a.txt", source.encode()))))
        self.assertEqual(shown[:2], [text.decode() for text in written])

    def test_the_least_table(self):
        """One fact, one action, and a run of nothing: whatever may be empty is, and it is PDDL all the same."""
        path, out = self.file("a.txt", "limit 0\nfacts a\naction go\n"), self.folder / "out"
        self.expect(within(path, "--pddl", out), LIST)
        domain = pddl_grammar.domain((out / "domain.pddl").read_text())
        self.assertEqual(domain, Domain("stage", [":strips"], {"f0": 0}, [Action("a0", [], [], [], [])]))
        run = pddl_grammar.problem((out / "run-1.pddl").read_text(), domain)
        self.assertEqual(run, Problem("run", "stage", [], [], []))
        self.assertIn(VALID, self.expect(within(path, "--from-pddl", out), LIST))

    def test_each_run_has_its_own_text(self):
        """Another start, another goal and other steps; read back they are with their run again."""
        text = GOOD.replace("  needs door-shut", "  needs door-shut\n  adds lamp-on") + "run dark\n"
        text += "run open\n start lamp-on door-shut\n goal door-shut\n steps press press\n"
        text += "run lit\n start lamp-on\n steps open-door\n"
        path, out, task = self.file("a.txt", text), self.folder / "out", self.folder / "task"
        self.expect(within(path, "--pddl", out), LIST)
        domain = pddl_grammar.domain((out / "domain.pddl").read_text())
        found = [pddl_grammar.problem((out / f"{each}.pddl").read_text(), domain) for each in runs_of(4)]
        lamp, door = ("f0",), ("f1",)
        sets = [([door], [lamp]), ([], []), ([lamp, door], [door]), ([lamp], [])]
        self.assertEqual([(each.init, each.goal) for each in found], sets)
        self.expect(within(path, "--from-pddl", out, "--task", task), LIST)
        self.assertEqual(task.read_bytes(), taskfile.file_of(files.source_of("a.txt", text.encode())))

    def test_the_legend_of_a_source(self):
        path = self.file("a.txt", GOOD.replace("lamp-on", "лампа-💡") + "run again\nstart door-shut\nsteps press\n")
        self.expect(within(path, "--pddl", self.folder), LIST)
        legend = NAMES.replace("lamp-on", "лампа-💡").replace("  the run\n", "  run 1\nrun-2.pddl  run again\n")
        self.assertEqual((self.folder / "names.txt").read_text("utf-8"), legend)

    def test_the_legend_of_a_task_file(self):
        """In the words that mend has elsewhere; with a source's names, where one lends them."""
        task, lent = SAMPLES / "runs.task", self.folder / "lent"
        self.expect(within(task, "--pddl", self.folder / "out"), LIST)
        told = (self.folder / "out" / "names.txt").read_text()
        for line in ("f0  fact 0", "f7  fact 7", "a8  action 8", "run-1.pddl  run 1", "run-2.pddl  run 2"):
            self.assertIn(f"\n{line}\n", told)
        self.expect(within(task, "--names", SAMPLES / "runs.txt", "--pddl", lent), LIST)
        told = (lent / "names.txt").read_text()
        for line in ("f4  direction-known", "a8  go-home", "run-1.pddl  run short", "run-2.pddl  run long"):
            self.assertIn(f"\n{line}\n", told)

    def test_not_over_what_stands_there(self):
        path, out = self.file("a.txt"), self.folder / "out"
        out.mkdir()
        cases = {
            "names.txt": "names.txt stands there already, and --force is not given",
            "run-1.pddl": "run-1.pddl and names.txt stand there already, and --force is not given",
            "domain.pddl": "domain.pddl, run-1.pddl and names.txt stand there already, and --force is not given",
        }
        for name, told in cases.items():
            (out / name).write_text("ours")
            before = self.content(out)
            self.assertEqual(self.expect(within(path, "--pddl", out), UNABLE, f"{out}: nothing is written: {told}"), "")
            self.assertEqual(self.content(out), before)
        (out / "plan.txt").write_text("theirs")
        self.expect(within(path, "--pddl", out, "--force"), LIST)
        self.assertEqual(self.content(out), {**WRITTEN, "plan.txt": "theirs"})

    def test_not_beside_a_run_that_is_not_there(self):
        """It would be read back with the others; and it is not removed, also with --force."""
        out = self.pddl()
        for number in (2, 10):
            (out / f"run-{number}.pddl").write_text("ours")
        before = self.content(out)
        error = f"{out}: nothing is written: run-2.pddl and run-10.pddl stand there, and {self.file('a.txt')} has 1 run"
        self.expect(within(self.folder / "a.txt", "--pddl", out, "--force"), UNABLE, error)
        self.assertEqual(self.content(out), before)

    def test_places_that_are_no_folder(self):
        path, none = self.file("a.txt"), self.folder / "none"
        self.expect(within(path, "--pddl", none / "out/"), UNABLE, f"{none}/out: can't be written: there is no folder {none}")
        taken = self.file("taken")
        self.expect(within(path, "--pddl", taken), UNABLE, f"{taken}: can't be written: it is no folder")
        (self.folder / "run-1.pddl").mkdir()
        error = f"{self.folder}/run-1.pddl: can't be written: it is no plain file"
        self.expect(within(path, "--pddl", self.folder, "--force"), UNABLE, error)

    def test_not_over_what_is_read_or_written_otherwise(self):
        path, out = self.file("a.txt"), self.pddl()
        error = f"{out}/domain.pddl: --pddl would write over {out}/domain.pddl"
        self.expect(within(path, "--from-pddl", out, "--pddl", out, "--force"), UNABLE, error)
        for option in ("--svg", "--task"):
            error = f"{out}/names.txt: --pddl would write over {out}/names.txt"
            self.expect(within(path, option, out / "names.txt", "--pddl", out, "--force"), UNABLE, error)
        both = self.folder / "both"
        self.expect(within(path, "--svg", both, "--pddl", both), UNABLE, f"{both}: --pddl would write over {both}")
        self.assertEqual((self.content(out), both.exists()), (WRITTEN, False))

    def test_no_list_writes_nothing(self):
        for name in ("over", "hopeless", "lockout"):
            out = self.folder / name
            error = f"{out}: nothing is written: there is no correction to make"
            told = self.expect(within(SAMPLES / f"{name}.txt", "--pddl", out), NO_LIST, error)
            self.assertEqual(told, self.expect(within(SAMPLES / f"{name}.txt"), NO_LIST))
            self.assertFalse(out.exists())

    def test_a_refused_file_writes_nothing(self):
        path, out = SAMPLES / "damaged.txt", self.folder / "out"
        self.expect(within(path, "--pddl", out), REFUSED, within(path).stderr.splitlines())
        self.assertFalse(out.exists())

    def test_all_or_nothing(self):
        """Where one can't be written, the others are not there either, nor what was begun of them, nor a folder that was made."""
        out = self.folder / "out"
        failures = [None, OSError(28, "No space left on device")]
        with mock.patch("os.chmod", side_effect=failures), self.assertRaises(Stop) as stopped:
            files.write_in(out, {"one": b"1", "two": b"2"})
        error = f"{out}: can't be written: No space left on device"
        self.assertEqual((stopped.exception.status, stopped.exception.lines), (UNABLE, (error,)))
        self.assertFalse(out.exists())

    def test_beside_the_listing(self):
        told = self.expect(within(SAMPLES / "pairs.txt", "--numbers", "--pddl", self.folder / "out"), LIST)
        self.assertEqual(told, (SAMPLES / "pairs.listing").read_text())


class EachSample(Case):
    """What is written for each sample that has a list, and read back."""

    NAMES = {"first": 1, "story": 1, "runs": 2, "hidden": 1, "locked": 1, "pairs": 1, "fullest": 8, "wordiest": 8}  # how many runs
    LOCKED = ("locked", "fullest")

    @classmethod
    def setUpClass(cls):
        cls.all = pathlib.Path(tempfile.mkdtemp(prefix="mend tests "))
        cls.addClassCleanup(shutil.rmtree, cls.all)
        cls.ran = {name: within(SAMPLES / f"{name}.txt", "--pddl", cls.all / name) for name in cls.NAMES}

    def test_files(self):
        for name, many in self.NAMES.items():
            self.expect(self.ran[name], LIST)
            runs = {f"run-{number}.pddl" for number in range(1, many + 1)}
            self.assertEqual({path.name for path in (self.all / name).iterdir()}, {"domain.pddl", "names.txt", *runs}, name)

    def test_the_longest_texts(self):
        """No text is longer than those of the fullest sample, and so much room mend lends for it."""
        lengths = [len((self.all / "fullest" / f"{name}.pddl").read_bytes()) for name in ("domain", "run-1")]
        self.assertEqual(lengths, [library.LONGEST_DOMAIN, library.LONGEST_PROBLEM])

    def test_they_are_pddl_and_say_what_the_table_says(self):
        """By the strict parser (docs/PDDL-GRAMMAR.md), which knows nothing of our layout: the repaired table, and each run."""
        for name, many in self.NAMES.items():
            with self.subTest(name=name):
                texts = [(self.all / name / f"{each}.pddl").read_text("ascii") for each in ("domain", *runs_of(many))]
                domain = pddl_grammar.domain(texts[0])
                self.assertEqual(domain, repaired(name))
                self.assertEqual([pddl_grammar.problem(text, domain) for text in texts[1:]], problems(name))

    def test_no_need_is_missing_when_they_are_read_back(self):
        """And the task file is that of the library's own apply, with nothing locked."""
        calls = library.Library()
        for name, many in self.NAMES.items():
            with self.subTest(name=name):
                path, task = SAMPLES / f"{name}.txt", self.folder / "out.task"
                told = self.expect(within(path, "--from-pddl", self.all / name, "--task", task), LIST)
                head, missing, change, *note = told.split("\n\n")
                self.assertTrue(head.startswith(f"{self.all / name} with {path}: "), head)
                valid = re.findall(r"(?m)^Nothing is missing(?: in run \S+)?: the run is valid as the table stands\.$", missing)
                self.assertEqual(valid, missing.splitlines())
                self.assertEqual(len(valid), many)
                self.assertEqual(change.strip(), NO_CHANGE)
                self.assertEqual(len(note), name in self.LOCKED)
                data = (SAMPLES / f"{name}.task").read_bytes()
                repaired_file = calls.file(calls.mended(calls.task(data)))
                self.assertEqual(task.read_bytes(), taskfile.without_locks(repaired_file))
                self.assertEqual(task.read_bytes() != repaired_file, name in self.LOCKED)


def runs_of(many):
    return [f"run-{number}" for number in range(1, many + 1)]


def atoms(facts):
    return [(f"f{fact}",) for fact in sorted(facts)]


def repaired(name):
    """The domain that the table of a sample is, with the repairs of its stored listing made by hand."""
    task = taskfile.task_of((SAMPLES / f"{name}.task").read_bytes())
    cells = set(task.cells)
    for kind, action, fact in listing.parsed((SAMPLES / f"{name}.listing").read_text()).repairs:
        cells ^= {({"drop-delete": DELETE, "add-effect": ADD, "drop-need": NEED}[kind], action, fact)}
    of = {(kind, a): atoms(f for k, b, f in cells if (k, b) == (kind, a)) for kind in (NEED, ADD, DELETE) for a in range(32)}
    actions = [Action(f"a{a}", [], of[NEED, a], of[ADD, a], of[DELETE, a]) for a in range(task.actions)]
    return Domain("stage", [":strips"], {f"f{f}": 0 for f in range(task.facts)}, actions)


def problems(name):
    """The problem that each run of a sample is."""
    facts = [{START: set(), GOAL: set()}]
    for record in taskfile.records_in((SAMPLES / f"{name}.task").read_bytes()):
        if record.kind == RUN:
            facts.append({START: set(), GOAL: set()})
        elif record.kind in (START, GOAL):
            facts[-1][record.kind] |= set(record.body)
    return [Problem("run", "stage", [], atoms(each[START]), atoms(each[GOAL])) for each in facts]


class ReadBack(Folders):
    def told(self, path, folder, *options, status=LIST):
        """The answer, without what it is headed by."""
        told = self.expect(within(path, "--from-pddl", folder, *options), status)
        head, _, rest = told.partition(": ")
        self.assertEqual(head, f"{folder} with {path}")
        return rest

    def test_a_table_that_was_changed_by_hand(self):
        """Without the effect that mend had added, the answer is the source's own again."""
        out, path = self.folder / "out", SAMPLES / "story.txt"
        self.expect(within(path, "--pddl", out), LIST)
        domain = (out / "domain.pddl").read_text()
        cut = domain.replace("   :effect (and\n    (f4)\n   )\n", "   :effect (and\n   )\n")
        self.assertNotEqual(cut, domain)
        (out / "domain.pddl").write_text(cut)
        self.assertEqual(self.told(path, out), self.expect(within(path), LIST).partition(": ")[2])
        listing = self.expect(within(path, "--from-pddl", out, "--numbers"), LIST)
        self.assertEqual(listing, (SAMPLES / "story.listing").read_text())

    def test_a_run_that_was_changed_by_hand(self):
        """Another start and goal; the steps stay the source's."""
        path = self.file("a.txt")
        out = self.pddl(run_1=("    (f1)\n  )\n  (:goal (and\n    (f0)\n", "  )\n  (:goal (and\n    (f1)\n"))
        told = self.told(path, out, "--show")
        self.assertIn("2 needs are missing; the first of them:\n  step 1, press: needs door-shut, which is absent\n", told)
        self.assertIn(f"\nthe run of {out} with {path}\n", told)

    def test_what_is_repaired_is_written_elsewhere(self):
        path, other = self.file("a.txt"), self.folder / "other"
        out = self.pddl(domain=("   :effect (and\n    (f0)\n", "   :effect (and\n"))
        self.assertIn("To change (1 repair):\n  press should make lamp-on true\n", self.told(path, out, "--pddl", other))
        self.assertEqual(self.content(other), WRITTEN)

    def test_no_list(self):
        """The limit is the file's: none of at most 0."""
        path = self.file("a.txt", GOOD.replace("limit 3", "limit 0"))
        out = self.pddl(domain=("   :effect (and\n    (f0)\n", "   :effect (and\n"))
        self.assertIn("but none of at most 0, which is the limit.", self.told(path, out, status=NO_LIST))

    def test_a_task_file(self):
        path, lender = self.file("a.task", taskfile.file_of(files.source_of("a", GOOD.encode()))), self.file("a.txt")
        out = self.pddl(domain=("   :effect (and\n    (f0)\n", "   :effect (and\n"))
        self.assertIn("\n  action 0 should make fact 0 true\n", self.told(path, out))
        self.assertIn("\n  press should make lamp-on true\n", self.told(path, out, "--names", lender))

    def test_the_legend_is_not_read(self):
        out = self.pddl()
        (out / "names.txt").unlink()
        self.assertIn(VALID, self.told(self.file("a.txt"), out))

    def test_as_many_runs(self):
        out, one = self.pddl(), self.file("one.txt")
        three = self.file("three.txt", GOOD + "run b\nrun c\n")
        error = f"{out}: has run-1.pddl, and {three} has 3 runs"
        self.expect(within(three, "--from-pddl", out), UNABLE, error)
        (out / "run-3.pddl").write_text(PROBLEM)
        for path, runs in ((one, "1 run"), (three, "3 runs")):
            error = f"{out}: has run-1.pddl and run-3.pddl, and {path} has {runs}"
            self.expect(within(path, "--from-pddl", out), UNABLE, error)
        for number in (1, 3):
            (out / f"run-{number}.pddl").unlink()
        (out / "run-01.pddl").write_text(PROBLEM)
        self.expect(within(one, "--from-pddl", out), UNABLE, f"{out}: has no text of a run, and {one} has 1 run")

    def test_as_many_facts_and_actions(self):
        path = self.file("a.txt")
        more = self.pddl("more", domain=("    (f1)\n  )\n", "    (f1)\n    (f2)\n  )\n"))
        error = f"{more}/domain.pddl: has 3 facts and 2 actions, and {path} has 2 and 2"
        self.expect(within(path, "--from-pddl", more), UNABLE, error)
        one = self.pddl("one", domain=(DOMAIN[DOMAIN.index("  (:action a1") : -2], ""))
        error = f"{one}/domain.pddl: has 2 facts and 1 action, and {path} has 2 and 2"
        self.expect(within(path, "--from-pddl", one), UNABLE, error)

    def test_nothing_to_read(self):
        path, out = self.file("a.txt"), self.pddl()
        for folder in (self.folder / "none", self.folder):
            error = f"{folder}/domain.pddl: can't be read: No such file or directory"
            self.expect(within(path, "--from-pddl", folder), UNABLE, error)
        (out / "run-1.pddl").unlink()
        (out / "run-1.pddl").mkdir()
        self.expect(within(path, "--from-pddl", out), UNABLE, f"{out}/run-1.pddl: can't be read: Is a directory")

    def test_a_file_that_is_refused_itself(self):
        """It is told as without the texts, which are then not looked at."""
        for option in ([], ["--numbers"]):
            ran = within(SAMPLES / "damaged.txt", "--from-pddl", self.folder / "none", *option)
            alone = within(SAMPLES / "damaged.txt", *option)
            self.assertEqual((ran.returncode, ran.stdout, ran.stderr), (REFUSED, alone.stdout, alone.stderr))


class Refused(Folders):
    def test_each(self):
        """The file, the line and the column, the line with a mark, and what is the matter. Of the texts of the layout the one
        that was changed is as near as any, so that the byte is the first that differs from it."""
        path = self.file("a.txt")
        for what, (name, changed, line, column, shown) in REFUSALS.items():
            with self.subTest(what=what):
                out = self.pddl(what, **{name.split(".")[0].replace("-", "_"): changed})
                place = len(os.path.commonprefix([WRITTEN[name].encode(), (out / name).read_bytes()]))
                told = [refusal(out / name, line, column, place), "", *shown.splitlines()]
                self.assertEqual(self.expect(within(path, "--from-pddl", out), REFUSED, told), "")

    def test_also_with_numbers_and_before_anything_is_written(self):
        out, path = self.pddl(domain=("a0", "b0")), self.file("a.txt")
        before = sorted(self.folder.iterdir())
        told = within(path, "--from-pddl", out).stderr.splitlines()
        self.assertEqual(told[0], refusal(out / "domain.pddl", 7, 12, DOMAIN.index("a0")))
        ran = within(path, "--from-pddl", out, "--numbers", "--task", self.folder / "x", "--pddl", self.folder / "y")
        self.assertEqual(self.expect(ran, REFUSED, told), "")
        self.assertEqual(sorted(self.folder.iterdir()), before)

    def test_the_mark_is_red_as_well(self):
        out, path = self.pddl(domain=("a0", "b0")), self.file("a.txt")
        plain = mend(path, "--from-pddl", out).stderr
        coloured = in_terminal([path, "--from-pddl", out], "stderr")
        self.assertIn("\033[1;31m^\033[0m\n", coloured)
        self.assertEqual(re.sub("\033\\[[0-9;]*m", "", coloured), plain)

    def test_the_mark_stands_below_each_place(self):
        text = DOMAIN.encode()
        for place in range(len(text) + 1):
            line, column = badtext.position(text, place)
            self.assertEqual(sum(len(each) + 1 for each in text.split(b"\n")[: line - 1]) + column - 1, place)
            *_, above, mark = badtext.rows(text, place, coloured=False)
            self.assertEqual(mark.index("^"), len(mark) - 1)
            letter = text.decode()[place : place + 1].replace("\n", " ") or " "
            self.assertEqual(above.ljust(len(mark))[len(mark) - 1], letter, place)

    def test_the_page_shows_what_is_printed(self):
        """The example in docs/PDDL.md."""
        block = re.search(r"(?m)^    out/domain\.pddl:.*\n(?:(?:    .*)?\n)+", (ROOT / "docs" / "PDDL.md").read_text())[0]
        self.file("a.txt")
        self.pddl(domain=(":effect", ":efect"))
        ran = mend("a.txt", "--from-pddl", "out", cwd=self.folder)
        self.expect(ran, REFUSED, [each[4:] for each in block.rstrip().splitlines()])
