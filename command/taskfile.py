"""The task file (document 01, "The task file", and 02's requests 1 and 6): made from a judged source, and taken apart into its
records."""

from dataclasses import dataclass, field

SIZES, START, GOAL, NEED, ADD, DELETE, STEP, END, RUN, LOCK = range(1, 11)
CELL = {"needs": NEED, "adds": ADD, "deletes": DELETE, "locks": LOCK}
FACT, ACTION = "fact", "action"
BODY = {  # what the numbers after the kind are; the kinds in the order of a file
    SIZES: ("facts", "actions", "limit"),
    START: (FACT,),
    GOAL: (FACT,),
    NEED: (ACTION, FACT),
    ADD: (ACTION, FACT),
    DELETE: (ACTION, FACT),
    LOCK: (ACTION, FACT),
    STEP: (ACTION,),
    END: (),
    RUN: (),
}
RANK = {kind: rank for rank, kind in enumerate(BODY)}
MOST_FACTS, MOST_ACTIONS, MOST_LIMIT, MOST_STEPS, MOST_RUNS = 64, 32, 6, 64, 8


def file_of(source):
    """The task file of a source without errors, with its damage where it asks for some."""
    made = bytearray(whole_file(source))
    for place, value in source.numbers("byte"):
        made[place] = value
    for (length,) in source.numbers("cut"):
        made = made[:length]
    for (length,) in source.numbers("fill"):
        made = made.ljust(length, b"\0")
    return bytes(made)


def whole_file(source):
    """The task file without damage."""
    return bytes(number for record in records(source) for number in record)


def records(source):
    """The records in the order of the file: kinds never go back, and the bodies of starts, goals and cells ascend. A further run
    begins that anew, and has no cells."""
    fact = {name: number for number, name in enumerate(source.texts("facts"))}
    action = {name: number for number, name in enumerate(source.texts("action"))}
    cells = []
    for block in source.blocks:
        for statement in block.cells:
            facts = [fact[name.text] for name in statement.names()]
            cells += [(CELL[statement.kind], action[name.text], f) for name in block.statement.names() for f in facts]
    made = [(SIZES, len(fact), len(action), *source.numbers("limit")[0])]
    for number, run in enumerate(source.runs):
        starts, goals = ([fact[name] for name in run.texts(word)] for word in ("start", "goal"))
        sets = [(START, f) for f in starts] + [(GOAL, f) for f in goals]
        steps = [(STEP, action[name]) for name in run.texts("steps")]
        made += [(RUN,), *in_order(sets), *steps] if number else [*in_order(sets + cells), *steps]
    return [*made, (END,)]


def in_order(records):
    return sorted(records, key=lambda record: (RANK[record[0]], record))


@dataclass
class Run:
    """What a task file says of a run, in numbers."""

    starts: set = field(default_factory=set)
    goals: set = field(default_factory=set)
    steps: list = field(default_factory=list)


@dataclass
class Task:
    """What a task file says, in numbers."""

    facts: int = 0
    actions: int = 0
    limit: int = 0
    cells: set = field(default_factory=set)  # the records of needs, adds, deletes and locks
    runs: list = field(default_factory=lambda: [Run()])

    def locks(self):
        """The locked needs, each (action, fact), in the order of the file."""
        return sorted((action, fact) for kind, action, fact in self.cells if kind == LOCK)

    def take(self, record):
        """Takes in what a record says, whole and where it may stand."""
        if record.kind == SIZES:
            self.facts, self.actions, self.limit = record.body
        elif record.kind == RUN:
            self.runs.append(Run())
        elif record.kind == START:
            self.runs[-1].starts |= set(record.body)
        elif record.kind == GOAL:
            self.runs[-1].goals |= set(record.body)
        elif record.kind == STEP:
            self.runs[-1].steps += record.body
        elif record.kind in CELL.values():
            self.cells.add((record.kind, *record.body))


@dataclass(frozen=True)
class Record:
    """A record as it stands in a file, or as much of it as is there: none of it at the file's end."""

    place: int
    content: bytes

    @property
    def kind(self):
        return self.content[0] if self.content else None

    @property
    def body(self):
        return tuple(self.content[1:])

    def missing(self):
        """How many of its bytes are not there; of an unknown kind that can't be said."""
        return 1 + len(BODY[self.kind]) - len(self.content)

    def is_whole(self):
        return self.kind in BODY and self.missing() == 0


def records_in(data):
    """The records of a file, up to the end record or to the first that is not whole."""
    at, go_on = 0, True
    while go_on:
        record = Record(at, data[at : at + 1 + len(BODY.get(kind_at(data, at), ()))])
        at, go_on = at + len(record.content), record.is_whole() and record.kind != END
        yield record


def kind_at(data, place):
    return data[place] if place < len(data) else None


def sizes_of(data):
    """How many facts and actions a file has by its first record; None where that does not tell it."""
    first = next(records_in(data))
    return first.body[:2] if first.kind == SIZES and first.is_whole() else None


def task_of(data):
    """The task of a file that the proved program has accepted."""
    task = Task()
    for record in records_in(data):
        task.take(record)
    return task


def without_locks(data):
    """A file that the proved program has accepted, with nothing locked."""
    return b"".join(record.content for record in records_in(data) if record.kind != LOCK)


def fault(data):
    """The byte that is wrong in a file that is not as 01 and 02 have it, or None. The verdict is the proved program's; this is
    looked at only where the program would have to be proved first."""
    task, before = Task(), None
    for record in records_in(data):
        wrong = wrong_byte(record, before, task)
        if wrong is not None:
            return record.place + wrong
        task.take(record)
        before = record
    return None if len(data) == before.place + 1 else before.place + 1


def wrong_byte(record, before, task):
    """Which byte of a record is wrong where it follows another, and the task is that of all before it: counted from its kind
    byte (02's request 2, in 01's order of the refusals); None where the record is good."""
    kind, is_cell = record.kind, record.kind in CELL.values()
    if not record.is_whole() or (kind == SIZES) != (before is None):
        return 0  # 1, 2, 3
    if kind == SIZES:
        facts, actions, limit = record.body
        return None if 1 <= facts <= MOST_FACTS and 1 <= actions <= MOST_ACTIONS and limit <= MOST_LIMIT else 0  # 4
    for at, (what, number) in enumerate(zip(BODY[kind], record.body), 1):
        if number >= (task.facts if what == FACT else task.actions):
            return at  # 5
    if RANK[kind] < RANK[before.kind] and before.kind != RUN or is_cell and len(task.runs) > 1:
        return 0  # 6
    if kind == before.kind and kind not in (STEP, RUN) and record.body <= before.body:
        return 1  # 6
    if kind == LOCK and (NEED, *record.body) not in task.cells:
        return 0  # 18
    is_ninth, is_65th = len(task.runs) == MOST_RUNS, len(task.runs[-1].steps) == MOST_STEPS
    return 0 if kind == RUN and is_ninth or kind == STEP and is_65th else None  # 16, 7
