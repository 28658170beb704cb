"""The tasks that are timed: made by the second program and here, stored in benchmark/hard, or climbed to."""

import collections
import re
import shutil

from times import CLIMB, HERE, LIMIT, OUT, SECOND, library_times, said
from to_asp import BODY, CELLS, GOAL, LOCK, START

TASKS = OUT / "tasks"
CLIMBED = OUT / "climbed"
STORED = HERE / "hard"
KEPT = 8  # how many are stored of each sort: of one run, and of eight
RUNS = 8  # the most that there can be


def tasks_in(folder):
    return sorted(folder.glob("*.task"))


def made(seed):
    shutil.rmtree(TASKS, ignore_errors=True)
    said(SECOND, "hard", "--seed", seed, TASKS)
    hardest = max(TASKS.glob("deep-*"), key=tree)
    (TASKS / f"worst-64-facts-tree-{tree(hardest)}.task").write_bytes(on_all_facts(hardest.read_bytes()))
    (TASKS / "worst-file.task").write_bytes(largest_file(RUNS, CELLS))
    (TASKS / "worst-one-run.task").write_bytes(largest_file(1, [kind for kind in CELLS if kind != LOCK]))
    return tasks_in(TASKS)


def forget_climbed():
    shutil.rmtree(CLIMBED, ignore_errors=True)
    CLIMBED.mkdir()


def climbed(seconds, seed, runs):
    """Looks so many seconds for single facts, in tasks of so many runs, that the library is slow on. Gives what climb.c
    prints: a line for each, the slowest first, and how much was tried."""
    lines = said(CLIMB, "--seconds", seconds, "--seed", seed, "--runs", runs, CLIMBED).decode().splitlines()
    (CLIMBED / f"listing-{runs}.txt").write_text("\n".join(lines) + "\n")
    return lines


def store_hardest():
    """The hardest of the stored and the climbed tasks of each sort become the stored ones; of two from one start, the
    harder."""
    STORED.mkdir(exist_ok=True)
    paths = tasks_in(STORED) + tasks_in(CLIMBED)
    library = library_times(paths)
    paths.sort(key=lambda p: library[p]["solve"])
    files = {p.name: p.read_bytes() for p in paths}
    sorts = collections.defaultdict(list)
    for name in dict.fromkeys(p.name for p in reversed(paths)):
        sorts[name.split("climb")[0]].append(name)
    for p in tasks_in(STORED):
        p.unlink()
    for name in (name for names in sorts.values() for name in names[:KEPT]):
        (STORED / name).write_bytes(files[name])


def of_one_run(hard):
    return [p for p in hard if p.stem.startswith("climb")]


def of_eight_runs(hard):
    return [p for p in hard if not p.stem.startswith("climb")]


def on_all_facts(file):
    """A task of one fact, with that fact's cells for each of 64 facts: each row is as hard as the one."""
    at, out = 0, b""
    while at < len(file):
        record = file[at : at + 1 + BODY[file[at]]]
        at += len(record)
        if record[0] == 1:
            out += bytes([1, 64]) + record[2:]
        elif record[0] in (START, GOAL, *CELLS):
            out += b"".join(record[:-1] + bytes([fact]) for fact in range(64))
        else:
            out += record
    return out


def largest_file(runs, kinds):
    """All cells of these kinds present, 64 steps a run: 27,660 bytes with eight runs and locks, 18,821 with one and none."""
    ends = b"".join(bytes([kind, f]) for kind in (2, 3) for f in range(64))
    cells = b"".join(bytes([kind, a, f]) for kind in kinds for a in range(32) for f in range(64))
    steps = bytes([7, 31]) * 64
    return bytes([1, 64, 32, LIMIT]) + ends + cells + steps + (b"\x09" + ends + steps) * (runs - 1) + b"\x08"


def tree(path):
    found = re.search(r"tree-(\d+)", path.name)
    return int(found[1]) if found else 0


def title(path):
    """How the tables name a task."""
    return re.sub(r"-tree-\d+", "", path.stem) + (" (not stored)" if path.parent == CLIMBED else "")
