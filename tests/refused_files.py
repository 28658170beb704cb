"""Refused files, and what mend shows and tells of each below the line that says why (02, request 2)."""

from support import SAMPLES

FIRST = (SAMPLES / "first.task").read_bytes()
FULLEST = (SAMPLES / "fullest.task").read_bytes()


def first(place, new, length=None):
    """The first sample with other bytes from a place on, in the place of as many or of so many."""
    new = bytes.fromhex(new)
    return FIRST[:place] + new + FIRST[place + (len(new) if length is None else length) :]


# What a file is: its bytes, the number and the place of its refusal, and what is shown and told of it.
AT_THE_END = {
    "empty": (b"", 1, 0, """\
  0 [..]

the file is empty, and its first record has to be the sizes, 01
"""),
    "no end record": (FIRST[:35], 1, 35, """\
  16  01 04 02 02 05 00 01 05 02 03 06 01 01 07 00 07
  32  01 07 02[..]

the file ends here, where a record has to come; the last one has to be the end record, 08
after the record at byte 33: 07 02, a step: action 2
"""),
    "no end record, in a new row": (FIRST[:4] + b"\7\0\7\1\7\2\7\0\7\1\7\2", 1, 16, """\
   0  01 04 03 03 07 00 07 01 07 02 07 00 07 01 07 02
  16 [..]

the file ends here, where a record has to come; the last one has to be the end record, 08
after the record at byte 14: 07 02, a step: action 2
"""),
    "sizes alone": (FIRST[:4], 1, 4, """\
  0  01 04 03 03[..]

the file ends here, where a record has to come; the last one has to be the end record, 08
after the record at byte 0: 01 04 03 03, the sizes: 4 facts, 3 actions, limit 3
"""),
    "a cut step": (FIRST[:34], 1, 33, """\
  16  01 04 02 02 05 00 01 05 02 03 06 01 01 07 00 07
  32  01[07]

the record at byte 33: 07, a step; the file ends 1 byte too soon
"""),
    "a need without its fact": (FIRST[:16], 1, 14, """\
  0  01 04 03 03 02 00 03 03 04 00 00 04 01 01[04]02

the record at byte 14: 04 02, a need: action 2; the file ends 1 byte too soon
"""),
    "a lock without its fact": (first(29, "0a 01", 7), 1, 29, """\
   0  01 04 03 03 02 00 03 03 04 00 00 04 01 01 04 02
  16  01 04 02 02 05 00 01 05 02 03 06 01 01[0a]01

the record at byte 29: 0a 01, a lock: action 1; the file ends 1 byte too soon
"""),
    "cut sizes": (FIRST[:2], 1, 0, """\
  0 [01]04

the record at byte 0: 01 04, the sizes: 4 facts; the file ends 2 bytes too soon
"""),
    "a byte after the end": (FIRST + b"\0", 8, 36, """\
  16  01 04 02 02 05 00 01 05 02 03 06 01 01 07 00 07
  32  01 07 02 08[00]

this byte stands after the end record, which is at byte 35
"""),
    "very long": (FULLEST + bytes(2_000_000), 8, 27660, """\
  27632  12 07 13 07 14 07 15 07 16 07 17 07 18 07 19 07
  27648  1a 07 1b 07 1c 07 1d 07 1e 07 1f 08[00]00 00 00
  27664  00 00 00 00 00 00 00 00 00 00 00 00 00 00 00 00

this byte stands after the end record, which is at byte 27659
"""),
}  # fmt: skip
KINDS_AND_SIZES = {
    "an unknown kind": (first(6, "1f"), 2, 6, """\
   0  01 04 03 03 02 00[1f]03 04 00 00 04 01 01 04 02
  16  01 04 02 02 05 00 01 05 02 03 06 01 01 07 00 07

the record at byte 6: 1f, and no record has this kind: kinds are 01 to 0a
"""),
    "kind 0": (first(35, "00"), 2, 35, """\
  16  01 04 02 02 05 00 01 05 02 03 06 01 01 07 00 07
  32  01 07 02[00]

the record at byte 35: 00, and no record has this kind: kinds are 01 to 0a
"""),
    "the sizes again": (first(4, "01 04 03 03", 0), 3, 4, """\
   0  01 04 03 03[01]04 03 03 02 00 03 03 04 00 00 04
  16  01 01 04 02 01 04 02 02 05 00 01 05 02 03 06 01

the record at byte 4: 01 04 03 03, the sizes: 4 facts, 3 actions, limit 3
"""),
    "65 facts": (bytes.fromhex("01 41 01 01 08"), 4, 0, """\
  0 [01]41 01 01 08

the record at byte 0: 01 41 01 01, the sizes: 65 facts, 1 action, limit 1
"""),
    "a 65th step": (b"\1\1\1\1" + b"\7\0" * 65 + b"\10", 7, 132, """\
  112  07 00 07 00 07 00 07 00 07 00 07 00 07 00 07 00
  128  07 00 07 00[07]00 08

the record at byte 132: 07 00, a step: action 0
"""),
    "a ninth run": (b"\1\1\1\1" + b"\11" * 8 + b"\10", 16, 11, """\
  0  01 01 01 01 09 09 09 09 09 09 09[09]08

the record at byte 11: 09, a further run
"""),
}  # fmt: skip
OUTSIDE = {
    "the fact of a start": (first(5, "04"), 5, 5, """\
   0  01 04 03 03 02[04]03 03 04 00 00 04 01 01 04 02
  16  01 04 02 02 05 00 01 05 02 03 06 01 01 07 00 07

the record at byte 4: 02 04, a start: fact 4
there are 4 facts, numbered 0 to 3
"""),
    "the fact of a goal": (first(7, "ff"), 5, 7, """\
   0  01 04 03 03 02 00 03[ff]04 00 00 04 01 01 04 02
  16  01 04 02 02 05 00 01 05 02 03 06 01 01 07 00 07

the record at byte 6: 03 ff, a goal: fact 255
there are 4 facts, numbered 0 to 3
"""),
    "the action of a need, at a row's end": (first(15, "03"), 5, 15, """\
   0  01 04 03 03 02 00 03 03 04 00 00 04 01 01 04[03]
  16  01 04 02 02 05 00 01 05 02 03 06 01 01 07 00 07

the record at byte 14: 04 03 01, a need: action 3, fact 1
there are 3 actions, numbered 0 to 2
"""),
    "the fact of a need, at a row's start": (first(16, "09"), 5, 16, """\
   0  01 04 03 03 02 00 03 03 04 00 00 04 01 01 04 02
  16 [09]04 02 02 05 00 01 05 02 03 06 01 01 07 00 07
  32  01 07 02 08

the record at byte 14: 04 02 09, a need: action 2, fact 9
there are 4 facts, numbered 0 to 3
"""),
    "the action of an add, and its fact": (first(24, "03 04"), 5, 24, """\
   0  01 04 03 03 02 00 03 03 04 00 00 04 01 01 04 02
  16  01 04 02 02 05 00 01 05[03]04 06 01 01 07 00 07
  32  01 07 02 08

the record at byte 23: 05 03 04, an add: action 3, fact 4
there are 3 actions, numbered 0 to 2
"""),
    "the fact of a delete": (first(28, "04"), 5, 28, """\
   0  01 04 03 03 02 00 03 03 04 00 00 04 01 01 04 02
  16  01 04 02 02 05 00 01 05 02 03 06 01[04]07 00 07
  32  01 07 02 08

the record at byte 26: 06 01 04, a delete: action 1, fact 4
there are 4 facts, numbered 0 to 3
"""),
    "the action of a lock, and its fact": (first(29, "0a 03 04", 0), 5, 30, """\
   0  01 04 03 03 02 00 03 03 04 00 00 04 01 01 04 02
  16  01 04 02 02 05 00 01 05 02 03 06 01 01 0a[03]04
  32  07 00 07 01 07 02 08

the record at byte 29: 0a 03 04, a lock: action 3, fact 4
there are 3 actions, numbered 0 to 2
"""),
    "the fact of a lock": (first(29, "0a 02 04", 0), 5, 31, """\
   0  01 04 03 03 02 00 03 03 04 00 00 04 01 01 04 02
  16  01 04 02 02 05 00 01 05 02 03 06 01 01 0a 02[04]
  32  07 00 07 01 07 02 08

the record at byte 29: 0a 02 04, a lock: action 2, fact 4
there are 4 facts, numbered 0 to 3
"""),
    "the action of a step": (first(34, "03"), 5, 34, """\
  16  01 04 02 02 05 00 01 05 02 03 06 01 01 07 00 07
  32  01 07[03]08

the record at byte 33: 07 03, a step: action 3
there are 3 actions, numbered 0 to 2
"""),
    "where there is one": (bytes.fromhex("01 01 01 01 07 01 08"), 5, 5, """\
  0  01 01 01 01 07[01]08

the record at byte 4: 07 01, a step: action 1
there is 1 action, number 0
"""),
}  # fmt: skip
DISORDERED = {
    "a kind goes down": (first(8, "02 01", 0), 6, 8, """\
   0  01 04 03 03 02 00 03 03[02]01 04 00 00 04 01 01
  16  04 02 01 04 02 02 05 00 01 05 02 03 06 01 01 07

the record at byte 8: 02 01, a start: fact 1
after the record at byte 6: 03 03, a goal: fact 3
"""),
    "a need opens a further run": (first(35, "09 04 00 00 08"), 6, 36, """\
  16  01 04 02 02 05 00 01 05 02 03 06 01 01 07 00 07
  32  01 07 02 09[04]00 00 08

the record at byte 36: 04 00 00, a need: action 0, fact 0
after the record at byte 35: 09, a further run
"""),
    "a delete in a further run": (first(35, "09 09 02 00 06 00 00 08"), 6, 39, """\
  16  01 04 02 02 05 00 01 05 02 03 06 01 01 07 00 07
  32  01 07 02 09 09 02 00[06]00 00 08

the record at byte 39: 06 00 00, a delete: action 0, fact 0
after the record at byte 37: 02 00, a start: fact 0
and after the record at byte 36: 09, a further run
"""),
    "a lock in a further run": (first(35, "09 0a 00 00 08"), 6, 36, """\
  16  01 04 02 02 05 00 01 05 02 03 06 01 01 07 00 07
  32  01 07 02 09[0a]00 00 08

the record at byte 36: 0a 00 00, a lock: action 0, fact 0
after the record at byte 35: 09, a further run
"""),
    "a lock after a step": (first(31, "0a 00 00", 0), 6, 31, """\
   0  01 04 03 03 02 00 03 03 04 00 00 04 01 01 04 02
  16  01 04 02 02 05 00 01 05 02 03 06 01 01 07 00[0a]
  32  00 00 07 01 07 02 08

the record at byte 31: 0a 00 00, a lock: action 0, fact 0
after the record at byte 29: 07 00, a step: action 0
"""),
    "a delete after a lock": (first(26, "0a 00 00", 0), 6, 29, """\
   0  01 04 03 03 02 00 03 03 04 00 00 04 01 01 04 02
  16  01 04 02 02 05 00 01 05 02 03 0a 00 00[06]01 01
  32  07 00 07 01 07 02 08

the record at byte 29: 06 01 01, a delete: action 1, fact 1
after the record at byte 26: 0a 00 00, a lock: action 0, fact 0
"""),
    "a lock twice": (first(29, "0a 01 01 0a 01 01", 0), 6, 33, """\
  16  01 04 02 02 05 00 01 05 02 03 06 01 01 0a 01 01
  32  0a[01]01 07 00 07 01 07 02 08

the record at byte 32: 0a 01 01, a lock: action 1, fact 1
after the record at byte 29: 0a 01 01, a lock: action 1, fact 1
"""),
    "a kind goes down in a further run": (first(35, "09 03 01 02 00 08"), 6, 38, """\
  16  01 04 02 02 05 00 01 05 02 03 06 01 01 07 00 07
  32  01 07 02 09 03 01[02]00 08

the record at byte 38: 02 00, a start: fact 0
after the record at byte 36: 03 01, a goal: fact 1
"""),
    "a body goes down": (bytes.fromhex("01 02 01 01 02 01 02 00 08"), 6, 7, """\
  0  01 02 01 01 02 01 02[00]08

the record at byte 6: 02 00, a start: fact 0
after the record at byte 4: 02 01, a start: fact 1
"""),
    "a body with an equal first number": (first(19, "01"), 6, 18, """\
   0  01 04 03 03 02 00 03 03 04 00 00 04 01 01 04 02
  16  01 04[02]01 05 00 01 05 02 03 06 01 01 07 00 07
  32  01 07 02 08

the record at byte 17: 04 02 01, a need: action 2, fact 1
after the record at byte 14: 04 02 01, a need: action 2, fact 1
"""),
}  # fmt: skip
LOCK_WITHOUT_NEED = {  # a lock on a fact that the action does not need
    "a lock on an add": (first(29, "0a 02 03", 0), 18, 29, """\
   0  01 04 03 03 02 00 03 03 04 00 00 04 01 01 04 02
  16  01 04 02 02 05 00 01 05 02 03 06 01 01[0a]02 03
  32  07 00 07 01 07 02 08

the record at byte 29: 0a 02 03, a lock: action 2, fact 3
action 2 needs fact 1, fact 2
"""),
    "a lock of an action without needs": (bytes.fromhex("01 02 02 01 04 00 01 0a 00 01 0a 01 01 08"), 18, 10, """\
  0  01 02 02 01 04 00 01 0a 00 01[0a]01 01 08

the record at byte 10: 0a 01 01, a lock: action 1, fact 1
action 1 needs no fact
"""),
}  # fmt: skip
NO_SIZES = {  # the same of files that don't begin with the sizes
    "a picture": (b"\x89PNG\r\n\x1a\n", 2, 0, """\
  0 [89]50 4e 47 0d 0a 1a 0a

the record at byte 0: 89, and no record has this kind: kinds are 01 to 0a
"""),
    "a text in UTF-16": ("limit".encode("utf-16-be"), 2, 0, """\
  0 [00]6c 00 69 00 6d 00 69 00 74

the record at byte 0: 00, and no record has this kind: kinds are 01 to 0a
"""),
    "a start stands first": (bytes.fromhex("02 00 08"), 3, 0, """\
  0 [02]00 08

the record at byte 0: 02 00, a start: fact 0
"""),
    "a cut need stands first": (bytes.fromhex("04 01"), 3, 0, """\
  0 [04]01

the record at byte 0: 04 01, a need: action 1; the file ends 1 byte too soon
"""),
    "the end alone": (bytes.fromhex("08"), 3, 0, """\
  0 [08]

the record at byte 0: 08, the end record
"""),
}  # fmt: skip
FILES = {**AT_THE_END, **KINDS_AND_SIZES, **OUTSIDE, **DISORDERED, **LOCK_WITHOUT_NEED, **NO_SIZES}
