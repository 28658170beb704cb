"""A picture in the terminal: steps down, facts across. Colours only repeat what the signs say."""

import textwrap
import unicodedata

from colours import DIM, GREEN, PLAIN, RED
from picture import CHANGED, REJECTED

SIGNS = {(False, False): " . ", (True, False): " + ", (True, True): "[+]", (False, True): "[X]"}  # present, needed
LEGEND = [
    "Each line shows the facts before its step.",
    ".  absent     +  present     [+]  needed and present     [X]  needed and missing",
]
PITCH = 4  # columns of a fact
GAP = "   "  # between the parts of a line
LONGEST_ACTION, LONGEST_FACT = 28, 32


def width(text):
    """How many columns of a terminal the text takes."""
    return sum(0 if unicodedata.combining(c) else 2 if unicodedata.east_asian_width(c) in "WF" else 1 for c in text)


def fit(text, columns):
    """The text in exactly so many columns, cut where it is longer."""
    if width(text) > columns:
        while width(text) > columns - 2:
            text = text[:-1]
        text += ".."
    return text + " " * (columns - width(text))


def short(text, longest):
    return fit(text, longest).rstrip() if width(text) > longest else text


def lines(picture, columns, coloured):
    """The drawing in so many columns: in several parts, one below the other, where the facts are too many."""
    if not picture.facts:
        return [f"{picture.title}: nothing is missing, and nothing is changed"]
    actions = min(LONGEST_ACTION, max(width(row.action) for run in picture.runs for row in run.rows))
    left = width(label(picture.runs[0].rows[0], actions))
    room = (columns - left) // len(picture.sides) - len(GAP)
    drawing = [picture.title]
    for run in picture.runs:
        drawing += ["", *([run.heading] if run.heading else []), *run_lines(picture, run, room, actions, coloured)]
    drawing += ["", *LEGEND, *(f"{sign}  {words}" for sign, words in picture.legend())]
    return drawing + [line for shared in picture.shared() for line in ["", *wrapped(shared, columns)]]


def run_lines(picture, run, room, actions, coloured):
    """A run's part, or parts, in so much room for each side."""
    drawing, facts = [], [short(heading, LONGEST_FACT) for heading in picture.headings()]
    while facts:
        start, many = len(picture.facts) - len(facts), fitting(facts, room)
        drawing += [*([""] if start else []), *part(picture, run, start, facts[:many], actions, coloured)]
        facts = facts[many:]
    return drawing


def wrapped(sentence, columns):
    """The sentence in lines of so many columns, with no name cut."""
    return textwrap.wrap(sentence, columns, break_on_hyphens=False, break_long_words=False)


def side_width(facts):
    """The columns of one side: each fact has its own, and its name stands above and runs on to the right. Behind them is the
    sign of a step that could not run."""
    return max(PITCH * len(facts) + len(REJECTED), *(PITCH * i + 1 + width(fact) for i, fact in enumerate(facts)))


def fitting(facts, room):
    """How many of the facts, from the first on, one side has room for; at least one."""
    many = 1
    while many < len(facts) and side_width(facts[: many + 1]) <= room:
        many += 1
    return many


def part(picture, run, start, facts, actions, coloured):
    across = max(side_width(facts), len("before"))
    drawing = above(picture, facts, across, width(label(run.rows[0], actions)))
    rejected = [run.rejected(side) for side in range(len(run.sides))]
    for number, row in enumerate(run.rows):
        sides = [(cells[number][start : start + len(facts)], is_so[number]) for cells, is_so in zip(run.sides, rejected)]
        drawn = GAP.join(signs(*side, across, coloured) for side in sides)
        drawing.append((label(row, actions) + drawn).rstrip())
    return drawing


def above(picture, facts, across, left):
    """The headings of the sides, and the facts' names."""
    lines = [[" " + heading for heading in picture.sides]]
    lines += [[" |  " * i + " " + fact for _ in picture.sides] for i, fact in enumerate(facts)]
    return [" " * left + GAP.join(fit(text, across) for text in line).rstrip() for line in lines]


def label(row, actions):
    """A step's number and action, with the sign of one that is changed."""
    return f"{row.step:>4}{GAP}{fit(row.action, actions)} {CHANGED if row.changed else ' '} "


def signs(cells, is_rejected, across, coloured):
    """A row of a side; behind its facts the sign of a step that could not run there."""
    drawn = [sign(cell, coloured) + " " for cell in cells]
    drawn.append(painted(REJECTED, RED, coloured) if is_rejected else " " * len(REJECTED))
    return "".join(drawn) + " " * (across - PITCH * len(cells) - len(REJECTED))


def sign(cell, coloured):
    return painted(SIGNS[cell.present, cell.needed], RED if cell.missing else GREEN if cell.present else DIM, coloured)


def painted(text, colour, coloured):
    return colour + text + PLAIN if coloured else text
