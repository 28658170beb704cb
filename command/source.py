"""The readable source (docs/SOURCE.md): its statements, with the line and column of every word, and the errors of its form.
Whether its names are known and its numbers inside is judged in judging.py."""

import re
from dataclasses import dataclass, field

from errors import Error, meant, nearest

CELLS = ("needs", "adds", "deletes", "locks")
OF_A_RUN = ("start", "goal", "steps")
DAMAGE = ("byte", "cut", "fill")  # in the order in which it is done
NUMBERS = ("limit", *DAMAGE)
STATEMENTS = ("facts", "action", *CELLS, "run", *OF_A_RUN, *NUMBERS)
FIRST_RUN = "1"  # what a first run without a name is called

RANGE = re.compile(r"([^{}]*)\{([0-9]{1,4})\.\.([0-9]{1,4})\}([^{}]*)")
MOST_SPELT = 64  # no list of names may be longer


@dataclass(frozen=True)
class Word:
    """A word as it is written; with a range in braces it stands for several names."""

    text: str
    line: int
    column: int

    def parts(self):
        """What stands before the range, its first and last number, and what stands after; None without a range."""
        found = RANGE.fullmatch(self.text)
        return found and (found[1], int(found[2]), int(found[3]), found[4])

    def names(self):
        if not self.parts():
            return [Name(self.text, self)]
        before, first, last, after = self.parts()
        return [Name(f"{before}{number}{after}", self) for number in range(first, last + 1)]

    def error(self, what):
        return Error(self.line, self.column, what)

    def errors(self):
        """Those of its form: letters that can't be printed, and braces that are no range."""
        if not self.text.isprintable():
            return [self.error(f"{ascii(self.text)} has a letter that can't be printed")]
        parts = self.parts()
        if parts and parts[1] <= parts[2] < parts[1] + MOST_SPELT or not parts and not set("{}") & set(self.text):
            return []
        rule = f"one is written {{1..3}}, runs upwards, and has at most {MOST_SPELT} numbers"
        return [self.error(f"'{self.text}' is no range: {rule}")]


@dataclass(frozen=True)
class Name:
    text: str
    word: Word

    def error(self, what):
        return self.word.error(what)


@dataclass
class Statement:
    """One line: which statement it is, the word that it opens with, and those after it."""

    kind: str
    word: Word
    words: list

    def names(self):
        return [name for word in self.words for name in word.names()]


@dataclass
class Block:
    """An action statement, and the statements of cells that are said of its actions."""

    statement: Statement
    cells: list = field(default_factory=list)


@dataclass
class Run:
    """A run statement, which the first run may do without, and the statements of start, goal and steps that are said of it."""

    statement: Statement = None
    said: list = field(default_factory=list)

    def name(self):
        """None where its run statement has no name, or nothing is said of it."""
        if self.statement:
            return next(iter(self.statement.names()), None)
        return Name(FIRST_RUN, self.said[0].word) if self.said else None

    def names(self, word):
        return [name for statement in self.said if statement.kind == word for name in statement.names()]

    def texts(self, word):
        return [name.text for name in self.names(word)]


@dataclass
class Source:
    lines: list  # of the text, without their line feeds
    said: dict = field(default_factory=lambda: {word: [] for word in STATEMENTS})
    blocks: list = field(default_factory=list)
    runs: list = field(default_factory=list)  # at least one, once the text is read
    errors: list = field(default_factory=list)

    def names(self, word):
        """The names of all statements that open with this word."""
        return [name for statement in self.said[word] for name in statement.names()]

    def texts(self, word):
        return [name.text for name in self.names(word)]

    def run_texts(self):
        """What the runs are called; None where no run statement is there."""
        return [run.name().text for run in self.runs] if self.said["run"] else None

    def numbers(self, word):
        """The numbers of each statement of `limit`, `byte`, `cut` or `fill`."""
        return [tuple(int(number.text) for number in statement.words) for statement in self.said[word]]


def read(text):
    """The source of a text. The errors that it has then are those of form."""
    source = Source(text.split("\n"))
    for number, line in enumerate(source.lines, 1):
        words = [Word(found[0], number, found.start() + 1) for found in re.finditer(r"\S+", line.split("#")[0])]
        if words:
            take(source, words[0], words[1:])
    source.runs = source.runs or [Run()]
    return source


def take(source, opening, words):
    """Takes a statement in. A misspelt one is taken for the one that was meant, so that it makes no further errors."""
    kind = opening.text if opening.text in STATEMENTS else nearest(opening.text, STATEMENTS)
    if kind != opening.text:
        shown = opening.text if opening.text.isprintable() else ascii(opening.text)[1:-1]
        source.errors.append(opening.error(f"'{shown}' is no statement{meant(opening.text, STATEMENTS)}"))
    source.errors += [error for word in words for error in word.errors()]
    if kind == "action" and not words:
        source.errors.append(opening.error("an action needs a name"))
    if kind:
        place(source, Statement(kind, opening, [word for word in words if not word.errors()]))


def place(source, statement):
    if statement.kind == "action":
        source.blocks.append(Block(statement))
    elif statement.kind in CELLS and source.blocks:
        source.blocks[-1].cells.append(statement)
    elif statement.kind in CELLS:
        source.errors.append(statement.word.error(f"'{statement.kind}' is said of no action: none stands above it"))
    elif statement.kind == "run":
        source.runs.append(Run(statement))
    elif statement.kind in OF_A_RUN:
        source.runs = source.runs or [Run()]
        source.runs[-1].said.append(statement)
    source.said[statement.kind].append(statement)
