"""The arguments. Every option has one shape, `--WORD` or `--WORD FILE`, where FILE may be a folder, or numbers; a further one is
a further line of OPTIONS."""

import collections
import difflib
import re

from stop import UNABLE, Stop

FOLDER, NUMBERS = "FOLDER", "NUMBERS"
NOUN = {FOLDER: "a folder", NUMBERS: "numbers"}  # all others take a file
OPTIONS = {  # word: (what it takes, what it does)
    "numbers": (None, "print the proved program's listing, unchanged"),
    "show": (None, "draw each run, before and after the correction"),
    "svg": ("OUT", "write the same drawing as a picture"),
    "table": ("OUT", "write the source with the correction made"),
    "part": (NUMBERS, "let --table make only these repairs of the list, counted from 1, such as 1,3"),
    "task": ("OUT", "write the source's task file"),
    "pddl": (FOLDER, "write the repaired table and its runs as PDDL, without locks, and a legend"),
    "force": (None, "let --pddl write over files that stand there"),
    "from-pddl": (FOLDER, "take table, starts and goals from such a folder, not from FILE"),
    "names": ("SOURCE", "take the names for a task file from a source"),
    "help": (None, "print this"),
}

# Options that can't both be given, and why; and those that go with another one only.
APART = [
    ("numbers", "show", "the listing would not be unchanged"),
    ("table", "from-pddl", "the table is then not the source's"),
    ("part", "pddl", "the texts have the whole list made"),
]
BESIDE = [("force", "pddl"), ("part", "table")]

NUMBER = re.compile("[1-9][0-9]*")  # no number has two spellings

HELP = """mend FILE [OPTIONS]: what to change in an action table so that the runs that the bench does are valid ones

FILE is a readable source (docs/SOURCE.md) or a task file; which of the two is seen from its content.

{options}

Exit status:
  0  a list of repairs was found, also the empty one
  1  refused by solving: no list works, or none within the limit
  2  the file is refused: each error is told with its place
  3  wrong use, input that can't be read, or output that can't be written
"""


def help_text():
    heads = {word: f"--{word} {takes}" if takes else f"--{word}" for word, (takes, _) in OPTIONS.items()}
    width = max(map(len, heads.values()))
    return HELP.format(options="\n".join(f"  {heads[word]:{width}}  {does}" for word, (_, does) in OPTIONS.items()))


def wrong_use(what):
    return Stop(UNABLE, f"mend: {what} (mend --help tells how it is used)")


def unknown(word):
    near = difflib.get_close_matches(word, OPTIONS, 1)
    return wrong_use(f"there is no option --{word}" + (f"; did you mean --{near[0]}?" if near else ""))


def parsed(arguments):
    """What was asked: a dictionary from the words of options to what they were given (True where they take nothing), and the
    FILE under "file"."""
    asked, files, rest = {}, [], list(arguments)
    while rest:
        argument = rest.pop(0)
        if argument == "--":
            files += rest
            break
        if not argument.startswith("-") or argument == "-":
            files.append(argument)
            continue
        word, given, value = argument[2:].partition("=") if argument.startswith("--") else (argument, "", "")
        if word not in OPTIONS:
            raise unknown(word.lstrip("-"))
        take(asked, word, value if given else None, rest)
    return judged(asked, files)


def take(asked, word, value, rest):
    takes = OPTIONS[word][0]
    if word in asked:
        raise wrong_use(f"--{word} is given twice")
    if takes and value is None:
        if not rest:
            raise wrong_use(f"--{word} needs {NOUN.get(takes, 'a file')}: --{word} {takes}")
        value = rest.pop(0)
    if not takes and value is not None:
        raise wrong_use(f"--{word} takes nothing")
    if takes == FOLDER:
        value = value.rstrip("/") or value  # it is the same one with a slash at its end
    if takes == NUMBERS:
        value = numbers(word, value)
    asked[word] = value if takes else True


def numbers(word, value):
    """The numbers that an option is given, as they are written; how far they may go is not known yet."""
    given = value.split(",")
    if not all(NUMBER.fullmatch(number) for number in given):
        raise wrong_use(f"--{word} takes numbers from 1, with commas and without spaces, such as 1,3")
    twice = [number for number, many in collections.Counter(given).items() if many > 1]
    if twice:
        raise wrong_use(f"--{word} has the number {twice[0]} twice")
    return given


def judged(asked, files):
    if "help" in asked:
        return asked
    if len(files) != 1:
        raise wrong_use("no FILE is given" if not files else f"one FILE at a time, and not {len(files)}")
    for one, other, why in APART:
        if one in asked and other in asked:
            raise wrong_use(f"--{one} and --{other} can't both be given: {why}")
    for one, other in BESIDE:
        if one in asked and other not in asked:
            raise wrong_use(f"--{one} is for --{other}, which is not given")
    return {**asked, "file": files[0]}
