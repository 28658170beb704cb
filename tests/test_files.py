"""Many damaged files: where mend itself, before the program is built, finds one wrong, the library refuses it at the same byte;
and that byte can be shown."""

import collections
import random
import re
import unittest

from support import SAMPLES

import badbyte
import library
import taskfile
from taskfile import ADD, BODY, DELETE, GOAL, LOCK, NEED, RANK, RUN, START, STEP
from words import Names

CELLS = (NEED, ADD, DELETE, LOCK)
MANY_RUNS = [b"\1\2\2\0" + b"\11" * 7 + b"\10", b"\1\2\2\0\2\1\4\0\1" + b"\11\2\0\3\1\7\1\7\0" * 7 + b"\10"]
# Runs whose bytes are kinds and numbers alike, so that a changed one is often a cell in a further run.
LIKE_CELLS = b"\1\13\13\0\2\4\4\5\6\5\6\4\7\5" + b"\11\2\4\2\5\2\6\3\4\3\5\3\6\7\4\7\5\7\6\7\12\7\6" * 3 + b"\10"
# The same of locks.
LOCKED = b"\1\13\13\0\4\4\12\4\12\4\4\12\6\6\4\7\12\4\12\12\12\4\12\12\6\7\4\7\12\11\2\12\10"

# All places that 5 and 6 can have (02, request 2): the number, the record's kind, its byte, and what is wrong with it.
PLACES = {
    *((5, kind, 1, "alone") for kind in (START, GOAL, *CELLS, STEP)),
    *((5, kind, 1, "with the fact") for kind in CELLS),
    *((5, kind, 2, "alone") for kind in CELLS),
    *((6, kind, 0, "goes down") for kind in (START, GOAL, *CELLS)),
    *((6, kind, 0, "in a further run") for kind in CELLS),  # and does not go down
    *((6, kind, 1, "first number goes down") for kind in (START, GOAL, *CELLS)),
    *((6, kind, 1, "first numbers are equal") for kind in (START, GOAL, *CELLS)),
}


def place_of(data, number, place):
    """Which of those a refusal is, by what stands in the file."""
    before = []
    for record in taskfile.records_in(data):
        if place < record.place + len(record.content):
            break
        before.append(record)
    at, (facts, _) = place - record.place, taskfile.sizes_of(data)
    if number == 5:
        both = at == 1 and BODY[record.kind][1:] and record.body[1] >= facts
        what = "with the fact" if both else "alone"
    elif at == 0:
        what = "goes down" if RANK[record.kind] < RANK[before[-1].kind] and before[-1].kind != RUN else "in a further run"
    else:
        what = "first numbers are equal" if record.body[0] == before[-1].body[0] else "first number goes down"
    return number, record.kind, at, what


def changed(data, pick):
    """A file with a byte or two changed, one lost, doubled or exchanged, or with its end torn off; or the file itself."""
    data, at, change = bytearray(data), pick.randrange(len(data)), pick.randrange(7)
    if change < 2:
        for place in range(at, min(at + 1 + change, len(data))):
            data[place] = pick.choice([0, 1, 2, 3, 4, 5, 6, 7, 8, 9, 10, 32, 63, 64, 255])
    elif change == 2:
        del data[at]
    elif change == 3:
        data.insert(at, data[at])
    elif change == 4:
        del data[at:]
    elif change == 5:
        other = pick.randrange(len(data))
        data[at], data[other] = data[other], data[at]
    return bytes(data)


class Faults(unittest.TestCase):
    COUNT = 6000

    @classmethod
    def setUpClass(cls):
        """Many files, most of them refused, each with the number and the place that the library gives."""
        pick = random.Random(20262)
        names = ("first", "story", "runs", "locked", "lockout", "pairs", "over", "hopeless")
        small = [(SAMPLES / f"{name}.task").read_bytes() for name in names]
        small += [*MANY_RUNS, LIKE_CELLS, LOCKED]
        full = (SAMPLES / "fullest.task").read_bytes()
        files = [changed(pick.choice(small), pick) for _ in range(cls.COUNT)] + [changed(full, pick) for _ in range(60)]
        files += [b"", full, full + b"\0", full[:-1] + b"\7\0\10", full[:-1] + b"\11\10"]
        told = library.Library().ask([(library.READ, [], data) for data in files])
        cls.files = [(data, *words[:2]) for data, (words, _) in zip(files, told)]

    def test_places_are_the_librarys(self):
        for data, number, place in self.files:
            self.assertEqual(taskfile.fault(data), place if number else None, (number, data[:200].hex()))
        self.assertEqual({number for _, number, _ in self.files}, {*range(9), 16, 18})

    def test_each_place_of_5_and_6_is_reached(self):
        reached = collections.Counter(place_of(*each) for each in self.files if each[1] in (5, 6))
        self.assertEqual(set(reached), PLACES)

    def test_each_can_be_shown(self):
        """The byte is marked, in lines that are short, and the record that is told is the one that it stands in."""
        for data, number, place in self.files:
            if number == 0:
                continue
            shown = badbyte.lines(data, place, Names(), False, number)
            marked = re.findall(r"\[(..)\]", "\n".join(shown))
            self.assertEqual(marked, [data[place : place + 1].hex() or ".."], data[:200].hex())
            self.assertLessEqual(max(map(len, shown)), 100)
            told = re.match(r"the record at byte (\d+): ((?:[0-9a-f]{2} ?)+)", shown[shown.index("") + 1])
            self.assertEqual(bool(told), place < len(data) and number != 8)
            if told:
                start, content = int(told[1]), bytes.fromhex(told[2])
                self.assertEqual(data[start : start + len(content)], content)
                self.assertIn(place, range(start, start + len(content)))
