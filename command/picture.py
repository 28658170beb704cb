"""What there is to draw of the runs: for each step and fact whether it is present, needed, or both, before and after the
correction. Whether a fact is present is the library's answer (Library.presence); what is needed stands in the table. A step
with a need that is missing could not run: the controller rejects it and keeps the state (02, request 3)."""

from dataclasses import dataclass

from stop import UNABLE, Stop
from taskfile import NEED, task_of


@dataclass(frozen=True)
class Cell:
    present: bool
    needed: bool

    @property
    def missing(self):
        return self.needed and not self.present


@dataclass(frozen=True)
class Row:
    """A step, by its number and its action's name; the last row is the end, where the goals are needed."""

    step: str
    action: str
    changed: bool


MANY = 12  # with more facts than these, those that run alike share a column
REJECTED, CHANGED = "!", "*"  # behind the facts of a step that could not run; beside an action that the correction changes


@dataclass(frozen=True)
class Run:
    heading: str  # None for a single run without a name
    rows: list
    sides: list  # for before, and for after where there is a correction: for each row a list of cells

    def rejected(self, side):
        """Of each row of a side, whether its step could not run there. Whatever is missing somewhere has a column; the end is no
        step."""
        *steps, _ = self.sides[side]
        return [*(any(cell.missing for cell in row) for row in steps), False]


@dataclass(frozen=True)
class Picture:
    title: str
    facts: list  # the names of those that matter, a list for each column: missing somewhere in a run, or changed
    sides: list  # the headings: before, and after where there is a correction
    runs: list
    changes: list  # the repairs in words

    def headings(self):
        return [names[0] if len(names) == 1 else f"{names[0]} and {len(names) - 1} more" for names in self.facts]

    def shared(self):
        """For each column that facts share, the sentence that names them."""
        return [f"{heading}: {', '.join(names)}" for heading, names in zip(self.headings(), self.facts) if len(names) > 1]

    def legend(self):
        """What the signs at a step say, each with its words; of those that are there."""
        rejected = any(is_so for run in self.runs for side in range(len(self.sides)) for is_so in run.rejected(side))
        told = [(REJECTED, "could not run, did nothing")] if rejected else []
        return told + [(CHANGED, f"changed: {change}") for change in self.changes]


def drawn(file, data, found, names, library):
    """The picture of a task file for which the program gave this listing."""
    before = library.task(data)
    tables = [(data, before)]
    if found.repairs is not None:
        after = library.mended(before)
        tables.append((library.file(after), after))
    task, repairs = task_of(data), found.repairs or []
    sides = [cells_of(task_of(file_), library.presence(words, range(task.facts))) for file_, words in tables]
    hold_to_listing(found, sides)
    columns = columns_of(sides, task.facts, {fact for _, _, fact in repairs})
    changed = {action for _, action, _ in repairs}
    runs = [
        Run(heading, rows_of(run, names, changed), [narrowed(rows, columns) for rows in of_run])
        for heading, run, of_run in zip(names.headings(len(task.runs)), task.runs, zip(*sides))
    ]
    return Picture(
        f"the {'run' if len(runs) == 1 else 'runs'} of {file}",
        [[names.fact(f) for f in column] for column in columns],
        ["before", "after"][: len(sides)],
        runs,
        [names.repair(repair) for repair in repairs],
    )


def rows_of(run, names, changed):
    steps = [Row(str(number), names.action(action), action in changed) for number, action in enumerate(run.steps, 1)]
    return [*steps, Row("", "(the end)", False)]


def narrowed(rows, columns):
    """Of the cells of all facts one for each column."""
    return [[row[column[0]] for column in columns] for row in rows]


def columns_of(sides, facts, changed):
    """The facts that matter, a list of them for each column; every run is drawn with the same columns."""
    course = {f: tuple(row[f] for runs in sides for rows in runs for row in rows) for f in range(facts)}
    matter = [f for f in course if f in changed or any(cell.missing for cell in course[f])]
    if len(matter) <= MANY:
        return [[f] for f in matter]
    alike = {}
    for f in matter:
        alike.setdefault(course[f], []).append(f)
    return list(alike.values())


def cells_of(task, presence):
    """For each run, each of its steps, and the end, the cells of all facts: what is present before the step, and what its
    action needs."""
    return [run_cells(task, run, states) for run, states in zip(task.runs, presence)]


def run_cells(task, run, states):
    needs = [{fact for fact in range(task.facts) if (NEED, action, fact) in task.cells} for action in run.steps]
    return [[Cell(f in state, f in needed) for f in range(task.facts)] for state, needed in zip(states, [*needs, run.goals])]


def hold_to_listing(found, sides):
    """A drawing that does not show each run's total, first step and its lowest fact of the listing is not shown."""
    told = [found.opens, [(0, 0, 0)] * len(found.opens)][: len(sides)]
    if [[missing_in(rows) for rows in runs] for runs in sides] != told:
        raise Stop(UNABLE, "mend: the drawing does not show what the listing says, and is not shown")


def missing_in(rows):
    """The total, the first step and its lowest fact of what a drawing shows as missing."""
    missing = [(step, f) for step, row in enumerate(rows, 1) for f, cell in enumerate(row) if cell.missing]
    return (len(missing), *(missing[0] if missing else (0, 0)))
