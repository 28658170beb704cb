"""The place at which a PDDL text is refused (02, request 4), for whoever has to find it: the line, with a mark below. Which place
it is, is the library's answer; here lines are counted."""

import sys

import colours
import files
import refusals
from stop import REFUSED, Stop
from words import counted

LONGEST = 80  # letters of a line that is shown; the mark is never further to the right
MARK = "^"


def refused(path, text, place, is_whole, facts=None):
    """The end of mend for a refused text, which is whole up to the place or not; a problem is one over so many facts."""
    line, column = position(text, place)
    told = f"{path}:{line}:{column}: refused {refusals.OFF_THE_LAYOUT} at byte {place}: {refusals.told(refusals.OFF_THE_LAYOUT)}"
    return Stop(REFUSED, told, "", *rows(text, place, colours.allowed(sys.stderr)), "", why(text, place, is_whole, facts))


def position(text, place):
    """The line and the column of a place, from 1. Up to there the text is as the layout has it: one byte is one letter."""
    return text.count(b"\n", 0, place) + 1, place - text.rfind(b"\n", 0, place)


def rows(text, place, coloured):
    """The line of the place, with the one before it, and the mark."""
    line, column = position(text, place)
    lines, width = text.split(b"\n"), len(str(line))
    shown = [f"  {number:>{width}}  {readable(lines[number - 1])}".rstrip() for number in (line - 1, line) if number]
    mark = f"{colours.RED}{MARK}{colours.PLAIN}" if coloured else MARK
    return [*shown, " " * (2 + width + 2 + column - 1) + mark]


def readable(line):
    """A line as it can be printed, cut where it is long."""
    text = files.shown(line.decode("utf-8", "backslashreplace"))
    return text if len(text) <= LONGEST else text[: LONGEST - 2] + ".."


def why(text, place, is_whole, facts):
    if is_whole:
        return "here the text has its end, and something stands after it"
    if place == len(text):
        return "here the text ends too early"
    over = f", as a problem over {counted(facts, 'fact')} has it" if facts else ""
    return f"here the text leaves the layout of docs/PDDL.md{over}"
