"""Times and answers of the library, of Algorithm 1 and of gringo with clasp. Times are in nanoseconds."""

import collections
import pathlib
import re
import struct
import subprocess
import time

from to_asp import facts_of

HERE = pathlib.Path(__file__).resolve().parent
ROOT = HERE.parent
OUT = ROOT / "target" / "benchmark"
BENCH, CLIMB = OUT / "bench", OUT / "climb"
SECOND = ROOT / "second" / "target" / "release" / "second"
LIMIT = 6  # the limit of all tasks here
GIVE_UP = 20  # seconds after which Algorithm 1 is stopped

Asp = collections.namedtuple("Asp", "gringo clasp optimum outcome")


class Times:
    """All times of one run, by task."""

    def __init__(self, paths):
        self.library = library_times(paths)
        self.first = {p: algorithm1_time(p) for p in paths}
        self.asp = {p: asp_times(facts_of(p.read_bytes()), HERE / "encoding.lp") for p in paths}
        nothing = asp_times("")
        self.empty = nothing.gringo + nothing.clasp

    def both(self, path):
        """gringo and clasp together, their start included."""
        return self.asp[path].gringo + self.asp[path].clasp

    def work(self, path):
        """gringo and clasp less what they take for an empty program."""
        return max(0, self.both(path) - self.empty)


def said(*words, **more):
    return subprocess.run([str(word) for word in words], check=True, stdout=subprocess.PIPE, **more).stdout


def library_times(paths):
    """What bench.c prints, by file: the outcome, then numbers in its order."""
    lines = said(BENCH, *paths).decode().splitlines()[1:]
    (OUT / "library.txt").write_text("\n".join(lines) + "\n")
    rows = [line.split() for line in lines]
    names = ["read", "read_median", "check", "check_median", "solve", "solve_median", "open", "open_median", "edit",
             "edit_worst", "list", "list_median", "ratio", "facts", "wrong"]
    return {pathlib.Path(row[0]): dict(zip(names, map(float, row[2:])), outcome=row[1]) for row in rows}


def algorithm1_time(path):
    """The least of many mean times; nothing if it does not end in time."""

    def least(repeat, copies, **more):
        text = said(SECOND, "algorithm1", "--repeat", repeat, *[path] * copies, **more).decode()
        return min(int(ns) for ns in re.findall(r" (\d+) ns ", text))

    try:
        once = least(1, 1, timeout=GIVE_UP)
    except subprocess.TimeoutExpired:
        return None
    repeat = max(1, int(1e6 / once))
    return least(repeat, max(2, min(100, int(1e9 / (once * repeat)))))


def least_time(words):
    """The least wall time of a command, its start included."""
    times = []
    while len(times) < 5 or (len(times) < 40 and sum(times) < 1e9):
        begun = time.perf_counter_ns()
        subprocess.run(words, stdout=subprocess.DEVNULL, close_fds=False)
        times.append(time.perf_counter_ns() - begun)
    return min(times)


def asp_times(facts, *encoding):
    """Times of gringo and of clasp on a task's facts; the least number of repairs, and the outcome under L."""
    source, ground = OUT / "task.lp", OUT / "task.aspif"
    source.write_text(facts)
    gringo = ["gringo", source, *encoding]
    ground.write_bytes(said(*gringo))
    clasp = ["clasp", "--opt-strategy=usc", "--quiet=1", ground]
    text = subprocess.run([*clasp, "--stats"], stdout=subprocess.PIPE).stdout.decode()
    optimum = least_repairs(text)
    outcome = "refused-9" if optimum is None else f"set-{optimum}" if optimum <= LIMIT else "refused-10"
    return Asp(least_time(gringo), least_time(clasp), optimum, outcome)


def least_repairs(text):
    """What clasp says is the least number of repairs, if there is one; it names none where none could be chosen."""
    found = re.search(r"^Optimization : (\d+)", text, re.M)
    if found:
        return int(found[1])
    return None if "UNSATISFIABLE" in text else 0


def driver_listings(paths):
    """The listings of the x86-64 archive, by the driver's call 10 (docs/BOUNDARY.md)."""
    requests = b"".join(struct.pack("<BII", 10, 0, len(p.read_bytes())) + p.read_bytes() for p in paths)
    reply = said(ROOT / "c" / "run.sh", ROOT / "target" / "c" / "driver", input=requests)
    listings, at = {}, 0
    for p in paths:
        length = struct.unpack_from("<II", reply, at)[1]
        listings[p] = reply[at + 8 : at + 8 + length].decode()
        at += 8 + length
    return listings


def differences(paths, times):
    """The tasks whose outcome is not the same for all, or whose listing is not Algorithm 1's."""
    listings, differ = driver_listings(paths), []
    for p in paths:
        outcome = "-".join(re.search(r"^(set|refused) (\d+)", listings[p], re.M).groups())
        same = times.library[p]["outcome"] == outcome == times.asp[p].outcome
        if times.first[p] is not None:
            same = same and said(SECOND, "algorithm1", p).decode() == listings[p]
        if not same:
            differ.append(p.stem)
    return differ
