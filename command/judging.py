"""Judges a source by the rules of docs/SOURCE.md: every name known and said once, every number inside. It tells all errors."""

from errors import Error, meant
from source import CELLS, NUMBERS
from taskfile import MOST_ACTIONS, MOST_FACTS, MOST_LIMIT, MOST_RUNS, MOST_STEPS, whole_file

MOST = {"facts": MOST_FACTS, "action": MOST_ACTIONS, "run": MOST_RUNS, "steps": MOST_STEPS}
LONGEST = 1_000_000  # bytes of a damaged file
TAKES = {  # how far the numbers of a statement go, and how that is said
    "limit": ([MOST_LIMIT], f"one number from 0 to {MOST_LIMIT}"),
    "byte": ([LONGEST, 255], "two numbers: a place in the task file, and a value from 0 to 255"),
    "cut": ([LONGEST], f"one number from 0 to {LONGEST}"),
    "fill": ([LONGEST], f"one number from 0 to {LONGEST}"),
}
NOUN = {"facts": "fact", "action": "action", "run": "run", "steps": "step"}


def errors(source):
    """All errors of the source, in the order of its lines."""
    found = list(source.errors)
    known = {word: source.texts(word) for word in ("facts", "action")}
    for word in NUMBERS:
        found += number_errors(source, word)
    for word in ("facts", "action"):
        found += declaration_errors(word, source.names(word)) + none_errors(source, word)
    for block in source.blocks:
        found += [error for word in CELLS for error in use_errors(known, word, cell_names(block, word))]
        found += lock_errors(source, block, known["facts"])
    found += opening_errors(source)
    for run in source.runs:
        found += [error for word in ("start", "goal") for error in use_errors(known, word, run.names(word))]
        found += [unknown(known, name, "action", "facts") for name in run.names("steps")]
        found += too_many("steps", run.names("steps"))
    return sorted({error for error in found if error} or set(place_errors(source)))


def cell_names(block, word):
    return [name for statement in block.cells if statement.kind == word for name in statement.names()]


def lock_errors(source, block, facts):
    """Of `locks`: each fact is one that the actions above need, which may be said below it. Where there is an error in what they
    need, that one is enough."""
    needs, bad = {name.text for name in cell_names(block, "needs")}, {error.line for error in source.errors}
    lines = {statement.word.line for statement in block.cells if statement.kind == "needs"}
    if lines & bad or not needs <= set(facts):
        return []
    idle = [name for name in cell_names(block, "locks") if name.text in facts and name.text not in needs]
    actions = block.statement.names()[:1]  # all of them need the same
    rule = "so that there is nothing to lock"
    return [name.error(f"'{action.text}' does not need '{name.text}', {rule}") for action in actions for name in idle]


def number_errors(source, word):
    """Of `limit`, `byte`, `cut` and `fill`: said once, with as many numbers as it takes, each inside its bounds."""
    said, (most, takes) = source.said[word], TAKES[word]
    found = [statement.word.error(f"'{word}' is said twice: first on line {said[0].word.line}") for statement in said[1:]]
    wrong = [wrong_number(statement, most) for statement in said]
    found += [at.error(f"'{word}' takes {takes}") for at in wrong if at]
    if word == "limit" and not said:
        found.append(missing(source, "there is no limit: write 'limit 6' for at most six repairs"))
    return found


def wrong_number(statement, most):
    """The word at which a statement has not the numbers that it takes; None where it has them."""
    for word, bound in zip(statement.words, most):
        if not (word.text.isascii() and word.text.isdigit() and len(word.text) <= 9 and int(word.text) <= bound):
            return word
    if len(statement.words) == len(most):
        return None
    return statement.words[0] if statement.words else statement.word


def place_errors(source):
    """Of `byte`: its place is one of the file's, which is there to be looked at where nothing else is wrong."""
    places = [statement.words[0] for statement in source.said["byte"]]
    last = len(whole_file(source)) - 1 if places else 0
    beyond = [at for at in places if int(at.text) > last]
    return [at.error(f"there is no byte {at.text}: the task file's last is byte {last}") for at in beyond]


def missing(source, what):
    """An error of what is not there: its place is the file's last line."""
    last = max((number for number, line in enumerate(source.lines, 1) if line.strip()), default=1)
    return Error(last, 1, what)


def declaration_errors(word, names):
    """Of the names of facts, actions or runs: each once, and not too many."""
    first, found = {}, too_many(word, names)
    for name in names:
        before = first.setdefault(name.text, name)
        if before is not name:
            found.append(name.error(f"the {NOUN[word]} '{name.text}' is declared twice: first on line {before.word.line}"))
    return found


def none_errors(source, word):
    """Of `facts` and `action`: at least one name. Where a line of theirs has an error already, that one is enough."""
    lines = {statement.word.line for statement in source.said[word]}
    if source.names(word) or any(error.line in lines for error in source.errors):
        return []
    return [missing(source, f"there is no {NOUN[word]}")]


def opening_errors(source):
    """Of `run`: one name, each once, and not too many. What stands above every `run` is the first run if it has steps; a start
    or a goal is not shared by runs."""
    bad = {error.line for error in source.errors}
    found = [one_name(statement) for statement in source.said["run"] if statement.word.line not in bad]
    first, *further = source.runs
    if further and not first.statement and not any(statement.kind == "steps" for statement in first.said):
        rule = "is said of no run: it stands above every 'run', where no steps are, and each run says its own"
        found += [statement.word.error(f"'{statement.kind}' {rule}") for statement in first.said]
    return found + declaration_errors("run", [run.name() for run in source.runs if run.name()])


def one_name(statement):
    """The error that a run statement has no name, or more than one; else None."""
    at = statement.words[0] if statement.words else statement.word
    return at.error("'run' takes one name") if len(statement.names()) != 1 else None


def too_many(word, names):
    most = MOST[word]
    if len(names) <= most:
        return []
    return [names[most].error(f"'{names[most].text}' is {NOUN[word]} number {most + 1}, and there may be {most}")]


def use_errors(known, word, names):
    """Of facts that are used: each known, and said once."""
    found, seen = [], {}
    for name in names:
        found.append(unknown(known, name, "facts", "action"))
        before = seen.setdefault(name.text, name)
        if before is not name:
            found.append(name.error(f"'{name.text}' is said twice under '{word}': first on line {before.word.line}"))
    return found


def unknown(known, name, word, other):
    """The error that a name is not declared, or None; where it is one of the other sort, that is said."""
    if name.text in known[word]:
        return None
    if name.text in known[other]:
        return name.error(f"'{name.text}' is no {NOUN[word]}, but a{'n action' if other == 'action' else ' fact'}")
    return name.error(f"there is no {NOUN[word]} '{name.text}'{meant(name.text, known[word])}")
