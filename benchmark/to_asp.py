#!/usr/bin/env python3
"""to_asp.py < TASK-FILE: the task as facts for encoding.lp. The file must be a good one: nothing is judged here."""

import sys

START, GOAL, STEP, END, RUN, LOCK = 2, 3, 7, 8, 9, 10
CELLS = {4: "need", 5: "add", 6: "del", LOCK: "lock"}
BODY = {1: 3, START: 1, GOAL: 1, STEP: 1, END: 0, RUN: 0, **dict.fromkeys(CELLS, 2)}
ENDS = {START: "start", GOAL: "goal"}


def facts_of(file):
    at, steps, lines = 0, [0], []  # how many steps each run has
    while file[at] != END:
        kind, body = file[at], file[at + 1 : at + 1 + BODY[file[at]]]
        at += 1 + BODY[kind]
        run = len(steps) - 1
        if kind in CELLS:
            lines.append(f"{CELLS[kind]}({body[0]},{body[1]}).")
        elif kind in ENDS:
            lines.append(f"{ENDS[kind]}({run},{body[0]}).")
        elif kind == STEP:
            steps[run] += 1
            lines.append(f"step({run},{steps[run]},{body[0]}).")
        elif kind == RUN:
            steps.append(0)
    return "\n".join(lines + [f"steps({run},{count})." for run, count in enumerate(steps)] + [""])


if __name__ == "__main__":
    sys.stdout.write(facts_of(sys.stdin.buffer.read()))
