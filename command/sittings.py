"""Lists in two sittings (02, request 7): which repairs of the answer are made now, which are left, and what is said of them. That
what is left is the answer for the table as it then stands is proved, and looked at before anything is written (main.py)."""

from stop import UNABLE, Stop
from words import counted


def judge(part, repairs, path):
    """Each number of a part is that of a repair in the list."""
    known = {str(number) for number, _ in enumerate(repairs, 1)}
    for number in part:
        if number not in known:
            has = counted(len(repairs), "repair") if repairs else "none"
            raise Stop(UNABLE, f"{path}: not written: there is no repair {number}: the list has {has}")


def split(part, repairs):
    """The repairs of a list that are made, and those that are left, both in its order. A part has their numbers, from 1, as they
    are written; without one all are made."""
    numbered = [(repair, part is None or str(number) in part) for number, repair in enumerate(repairs, 1)]
    return [repair for repair, is_made in numbered if is_made], [repair for repair, is_made in numbered if not is_made]


def told(path, made, left, names):
    """The lines that say what was made in the source that was written, and what is left."""
    lines = [f"Made in {path} ({len(made)} of {counted(len(made) + len(left), 'repair')}):", *in_words(made, names), ""]
    if not left:
        return [*lines, "Nothing is left for another sitting."]
    heading = f"Left for another sitting ({counted(len(left), 'repair')}); it is what mend answers for {path}:"
    return [*lines, heading, *in_words(left, names)]


def in_words(repairs, names):
    return [f"  {names.repair(repair)}" for repair in repairs]
