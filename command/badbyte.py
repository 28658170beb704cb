"""The bad byte of a refused file (02's request 2), for whoever has to find it: the bytes around it, the record that it stands
in, and what that record does not fit. Which byte it is, and why, is the proved program's answer; here bytes are looked at."""

import textwrap

import refusals
from colours import PLAIN, RED
from taskfile import ACTION, ADD, BODY, CELL, DELETE, END, FACT, GOAL, LOCK, NEED, RUN, SIZES, START, STEP, records_in
from words import Names, counted

ROW = 16  # bytes
NO_BYTE = ".."  # where the file ends, and a byte has to come
LONGEST = 100  # letters of a line that could have any number of names

KINDS = {
    SIZES: "the sizes",
    START: "a start",
    GOAL: "a goal",
    NEED: "a need",
    ADD: "an add",
    DELETE: "a delete",
    LOCK: "a lock",
    STEP: "a step",
    END: "the end record",
    RUN: "a further run",
}
NUMBERS = {  # how a number of a body is told, by what it is
    "facts": lambda names, number: counted(number, "fact"),
    "actions": lambda names, number: counted(number, "action"),
    "limit": lambda names, number: f"limit {number}",
    FACT: Names.fact,
    ACTION: Names.action,
}


def lines(data, place, names, coloured, number=None):
    """The byte at a place, shown and told. What its record does not fit is told where the refusal's number is known."""
    return [*rows(data, place, coloured), "", *told(data, place, names, number)]


def rows(data, place, coloured):
    """The row of bytes that the place is in, with the one before it and the one after it."""
    middle = place - place % ROW
    starts = [start for start in (middle - ROW, middle, middle + ROW) if start == middle or 0 <= start < len(data)]
    width = len(str(starts[-1]))
    return [f"  {start:>{width}} {row(data, start, place, coloured)}" for start in starts]


def row(data, start, place, coloured):
    """The bytes of a row, each after a space. The marked one has brackets where the spaces around it would be."""
    digits = [f"{byte:02x}" for byte in data[start : start + ROW]]
    if place == len(data) and place < start + ROW:
        digits.append(NO_BYTE)
    at = place - start
    if not 0 <= at < len(digits):
        return " " + " ".join(digits)
    marked = f"{RED}{digits[at]}{PLAIN}" if coloured else digits[at]
    return "".join(f" {each}" for each in digits[:at]) + f"[{marked}]" + " ".join(digits[at + 1 :])


def told(data, place, names, number):
    """The record that a place stands in, and what it does not fit. After the end record it stands in none."""
    before = []
    for record in records_in(data):
        if place < record.place + max(1, len(record.content)):
            return [described(record, names), *misfit(record, before, place, names, number)]
        before.append(record)
    return [f"this byte stands after the end record, which is at byte {before[-1].place}"]


def described(record, names):
    """A record in words: where it is, its bytes, its kind and its numbers, and whether it is cut; or that it is not there."""
    if not record.content and record.place == 0:
        return f"the file is empty, and its first record has to be {KINDS[SIZES]}, {SIZES:02x}"
    if not record.content:
        return f"the file ends here, where a record has to come; the last one has to be {KINDS[END]}, {END:02x}"
    head = f"the record at byte {record.place}: {record.content.hex(' ')}"
    if record.kind not in BODY:
        return f"{head}, and {refusals.told(refusals.UNKNOWN_KIND)}: kinds are {min(BODY):02x} to {max(BODY):02x}"
    numbers = ", ".join(NUMBERS[what](names, number) for what, number in zip(BODY[record.kind], record.body))
    cut = "" if record.is_whole() else f"; the file ends {counted(record.missing(), 'byte')} too soon"
    return f"{head}, {KINDS[record.kind]}" + (f": {numbers}" if numbers else "") + cut


def misfit(record, before, place, names, number):
    """What a record does not fit: how many facts or actions there are, what its action needs, or what it comes after."""
    if number == refusals.OUTSIDE:
        return [numbered(BODY[record.kind][place - record.place - 1], before[0])]
    if number == refusals.LOCK_WITHOUT_NEED:
        return needs_of(record.body[0], before, names)
    if number != refusals.DISORDERED and record.content:
        return []
    told = [f"after {described(each, names)}" for each in before[-1:]]
    opened = [each for each in before if each.kind == RUN][-1:]
    if record.kind in CELL.values() and opened and opened != before[-1:]:
        told.append(f"and after {described(opened[0], names)}")
    return told


def numbered(what, sizes):
    """How many facts or actions there are by the size record, and how they are numbered."""
    many = dict(zip((FACT, ACTION), sizes.body))[what]
    return f"there is 1 {what}, number 0" if many == 1 else f"there are {many} {what}s, numbered 0 to {many - 1}"


def needs_of(action, records, names):
    """What an action needs by the records."""
    facts = [names.fact(each.body[1]) for each in records if each.kind == NEED and each.body[0] == action]
    told = f"{names.action(action)} needs {', '.join(facts) or 'no fact'}"
    return textwrap.wrap(told, LONGEST, break_on_hyphens=False, break_long_words=False)
