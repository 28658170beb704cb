"""What mend says of locks (02, request 6): whether they are why no list works, and that PDDL does not carry them. That no list
works with the locks, and that one works without them, is the proved program's answer; which lock it is then stands in the task."""

import refusals
import taskfile
from program import listing_of
from words import counted

HELD = "which is locked, and absent at the start"
RULE = "No repair drops a locked need or changes a start."


def why(data, found, names):
    """Where no list of any length works, and one works with nothing locked: the lines that say so. A lock is in the way only at a
    run's first step: before a later one some step can make its need true."""
    task = taskfile.task_of(data)
    if not found.refusal or found.refusal[0] != refusals.HOPELESS or not task.locks():
        return []
    unlocked = listing_of(taskfile.without_locks(data))
    if unlocked.refusal == found.refusal:
        return []
    each = zip(names.headings(len(task.runs)), task.runs)
    held = [line for heading, run in each for line in held_in(heading, run, task, names)]
    return ["A lock is why:" if len(held) == 1 else "Locks are why:", *held, f"{RULE} {otherwise(unlocked)}"]


def held_in(heading, run, task, names):
    """The locked needs of a run's first step that its start lacks."""
    where = f"{heading}, step 1" if heading else "step 1"
    absent = [(action, fact) for action, fact in task.locks() if [action] == run.steps[:1] and fact not in run.starts]
    return [f"  {where}, {names.action(action)}: needs {names.fact(fact)}, {HELD}" for action, fact in absent]


def otherwise(unlocked):
    """What the answer is with nothing locked."""
    if unlocked.refusal:
        return f"With nothing locked a list would do, but none of at most {unlocked.sizes[2]}."
    return f"With nothing locked, {counted(len(unlocked.repairs), 'repair')} would do."


def not_written(folder, legend, many):
    """That so many locks are not in the texts that were written, and where they are told."""
    return f"The texts in {folder} carry no locks; {legend} lists the {one_or(many, 'locked need')}."


def not_read(folder, path, many):
    """That the answer is of texts, and not of so many locks of the file that they go with."""
    are = "is" if many == 1 else "are"
    return f"The texts in {folder} carry no locks: the {one_or(many, 'lock')} of {path} {are} not in this answer."


def one_or(many, noun):
    return noun if many == 1 else counted(many, noun)
