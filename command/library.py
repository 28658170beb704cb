"""The proved library's calls, through the driver over a pipe (docs/BOUNDARY.md, "The driver")."""

import struct

import refusals
from program import started
from ready import ROOT, make_ready
from stop import UNABLE, Stop

DRIVER = ROOT / "target" / "c" / "driver"

READ, WRITE, CHECK, APPLY, SOLVE = 2, 3, 4, 5, 6
WRITE_DOMAIN, WRITE_PROBLEM, READ_DOMAIN, READ_PROBLEM, ADD_RUN = 11, 12, 13, 14, 15

# The places of a task's words (c/zernoplysk.h).
AT_FACTS, AT_ACTIONS, AT_LIMIT, AT_MANY, AT_GOALS, AT_COUNTS, AT_STEPS = 0, 1, 2, 131, 140, 148, 156
STEPS, LONGEST_FILE, LONGEST_LIST, LONGEST_DOMAIN, LONGEST_PROBLEM = 64, 27660, 6, 76178, 1334


class Library:
    def __init__(self):
        sources = ["crates", "crates.txt", "c/driver.c", "c/zernoplysk.h"]
        make_ready("boundary_c", [str(ROOT / "c" / "build.sh")], [DRIVER], sources)

    def ask(self, requests):
        """Makes calls, each (call, words, bytes), and gives what came back of each, (words, bytes)."""
        sent = b"".join(packed(*request) for request in requests)
        ran = started(DRIVER, sent)
        if ran.returncode != 0:
            raise Stop(UNABLE, f"mend: the library's driver ended with status {ran.returncode}")
        return unpacked(ran.stdout, len(requests))

    def call(self, call, words, data=b""):
        """Makes one call that the library has to accept, and gives the words after number and place, and the bytes."""
        words, data = self.ask([(call, words, data)])[0]
        return accepted(words), data

    def task(self, data):
        return self.call(READ, [], data)[0]

    def solved(self, task):
        """The task's own answer: the numbers of its repairs."""
        (length,), room = self.call(SOLVE, task, bytes(2 * LONGEST_LIST))
        return list(struct.unpack_from(f"<{length}H", room))

    def applied(self, task, repairs):
        """The task with these repairs made, by their numbers."""
        return self.call(APPLY, task, struct.pack(f"<{len(repairs)}H", *repairs))[0]

    def mended(self, task):
        """The task with its own answer applied."""
        return self.applied(task, self.solved(task))

    def file(self, task):
        (length,), room = self.call(WRITE, task, bytes(LONGEST_FILE))
        return room[:length]

    def texts(self, task):
        """The task as PDDL (02, request 4): its domain text, and the problem text of each run."""
        asked = [(WRITE_DOMAIN, task, bytes(LONGEST_DOMAIN))]
        asked += [(WRITE_PROBLEM, [*task, run], bytes(LONGEST_PROBLEM)) for run in range(task[AT_MANY])]
        return [data[: accepted(words)[0]] for words, data in self.ask(asked)]

    def with_run(self, task, start, goal, steps):
        """The task with one more run: its start and goal as masks, its steps one byte each."""
        return self.call(ADD_RUN, [*task, start, goal], steps)[0]

    def presence(self, task, facts):
        """For each run, and each number of its steps from none to all, the facts of these that are present after so many: those
        that the controller then has (02, request 3). It is the run check that says so, of the run cut there: with these facts
        as its goals it counts more than without goals, by as many as are absent."""
        states = [[set() for _ in range(task[AT_COUNTS + run] + 1)] for run in range(task[AT_MANY])]
        places = [(run, done) for run, each in enumerate(states) for done in range(len(each))]
        in_steps = dict(zip(places, self.totals(task, [(*place, []) for place in places])))
        asked = [(*place, list(facts)) for place in places]
        while asked:
            totals = self.totals(task, asked)
            absent = [total - in_steps[run, done] for (run, done, _), total in zip(asked, totals)]
            asked = halves(states, asked, absent)
        return states

    def totals(self, task, asked):
        """For each that is asked, (run, steps done, goals), the run check's total."""
        requests = [(CHECK, [*cut(task, run, done, goals), run], b"") for run, done, goals in asked]
        return [accepted(words)[0] for words, _ in self.ask(requests)]


def halves(states, asked, absent):
    """Takes the goals of which none is absent into their states. Those of which some are absent and not all are to be asked
    again, each half by itself."""
    further = []
    for (run, done, goals), many in zip(asked, absent):
        if many == 0:
            states[run][done].update(goals)
        elif many < len(goals):
            half = len(goals) // 2
            further += [(run, done, goals[:half]), (run, done, goals[half:])]
    return further


def accepted(words):
    """What a call gave, after number and place; the library has to have accepted it."""
    if words[0] != 0:
        raise Stop(UNABLE, f"mend: the library refuses with {words[0]} what the program accepts: {refusals.told(words[0])}")
    return words[2:]


def steps_of(task, run):
    at = AT_STEPS + STEPS * run
    return bytes(task[at : at + task[AT_COUNTS + run]])


def cut(task, run, done, goals):
    """The task with this run cut after so many steps and with these goals."""
    words, at = list(task), AT_STEPS + STEPS * run
    words[AT_GOALS + run] = sum(1 << fact for fact in goals)
    words[AT_COUNTS + run] = done
    words[at + done : at + STEPS] = [0] * (STEPS - done)
    return words


def packed(call, words, data):
    return struct.pack(f"<BI{len(words)}QI", call, len(words), *words, len(data)) + data


def unpacked(data, count):
    """The responses of the driver; fewer than were asked for are no answer."""
    responses, at = [], 0
    try:
        for _ in range(count):
            (length,) = struct.unpack_from("<I", data, at)
            *words, size = struct.unpack_from(f"<{length}QI", data, at + 4)
            at += 8 + 8 * length + size
            responses.append((words, data[at - size : at]))
    except struct.error:
        at = -1
    if at != len(data):
        raise Stop(UNABLE, "mend: the library's driver did not answer every call")
    return responses
