"""The proved program's listing (document 01, "The listing", and 02's request 1), taken apart. A listing that is not whole is
no answer."""

import re
from dataclasses import dataclass

KINDS = ("drop-delete", "add-effect", "drop-need")
LIST_END = r"set (\d+)\n((?:(?:drop-delete|add-effect|drop-need) \d+ \d+\n)*)end\n"
REFUSED = r"refused (\d+) (\d+)\n"
OPEN = r"open \d+ \d+ \d+\n"
WHOLE = re.compile(rf"task (\d+ \d+ \d+ \d+)\n((?:{OPEN})+)(?:{LIST_END}|{REFUSED})|{REFUSED}")


@dataclass(frozen=True)
class Listing:
    text: str
    sizes: tuple = None  # facts, actions, limit, steps of all runs
    opens: list = None  # of each run: total, first step, its lowest fact
    repairs: list = None  # kind, action, fact
    refusal: tuple = None  # number, place


def parsed(text):
    """The listing of a text; None if the text is not the whole of one."""
    found = WHOLE.fullmatch(text)
    if not found:
        return None
    sizes, opens, length, repairs, *refusals = found.groups()
    if not sizes:
        return Listing(text, refusal=numbers(refusals[2:]))
    sizes, opens = numbers(sizes.split()), [numbers(line.split()[1:]) for line in opens.splitlines()]
    if not length:
        return Listing(text, sizes, opens, refusal=numbers(refusals[:2]))
    lines = [line.split() for line in repairs.splitlines()]
    if len(lines) != int(length):
        return None
    return Listing(text, sizes, opens, [(kind, int(action), int(fact)) for kind, action, fact in lines])


def numbers(texts):
    return tuple(int(text) for text in texts)
