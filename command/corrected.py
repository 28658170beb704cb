"""The source with the correction made: only the words that the repairs name are changed; comments and order are kept.

A repair is of one action. Where an action statement names several, and they are not all repaired alike, the statement and its
cells are said once for each part of the names that is."""

import itertools

ADDED = "add-effect"
DROPPED = {"drop-delete": "deletes", "drop-need": "needs"}


def text(source, repairs):
    facts, actions = source.texts("facts"), source.texts("action")
    asked = {name: frozenset((kind, facts[f]) for kind, a, f in repairs if actions[a] == name) for name in actions}
    lines = {number: [line] for number, line in enumerate(source.lines, 1)}  # a line of the source: the lines it becomes
    for block in source.blocks:
        correct(source, block, asked, lines)
    return "\n".join(line for number in sorted(lines) for line in lines[number])


def correct(source, block, asked, lines):
    names = [name.text for name in block.statement.names()]
    parts = [(set(part), repairs) for repairs, part in itertools.groupby(names, asked.get)]
    if len(parts) == 1 and not parts[0][1]:
        return
    last = (block.cells or [block.statement])[-1].word.line
    for number, (part, repairs) in enumerate(parts):
        made = block_lines(source, block, part, repairs)
        if number == 0:
            for line, becomes in made.items():
                lines[line] = becomes
        else:
            copies = [uncommented(line) for line in itertools.chain(*made.values())]
            lines[last] = lines[last] + [line for line in copies if line.strip()]


def block_lines(source, block, part, repairs):
    """The lines of a block, said of these names alone and with these repairs made: line by line what it becomes."""
    made = {block.statement.word.line: [with_names(source, block.statement, part)]}
    for statement in block.cells:
        dropped = {fact for kind, fact in repairs if DROPPED.get(kind) == statement.kind}
        made[statement.word.line] = without(source, statement, dropped)
    added = [fact for fact in source.texts("facts") if (ADDED, fact) in repairs]
    if added:
        add(source, block, added, made)
    return made


def line_of(source, statement):
    return source.lines[statement.word.line - 1]


def uncommented(line):
    return line.split("#")[0].rstrip(" \t") + ("\r" if line.endswith("\r") and "#" in line else "")


def with_names(source, statement, part):
    """An action statement with only the names of the part."""
    if part == {name.text for name in statement.names()}:
        return line_of(source, statement)
    return respelt(line_of(source, statement), statement.words, part)


def without(source, statement, dropped):
    """A statement of cells without these facts; without any left, its comment alone, or no line."""
    left = {name.text for name in statement.names()} - dropped
    line = line_of(source, statement)
    if not dropped & {name.text for name in statement.names()}:
        return [line]
    if left:
        return [respelt(line, statement.words, left)]
    head, mark, comment = line.partition("#")
    return [head[: len(head) - len(head.lstrip())] + mark + comment] if mark else []


def respelt(line, words, kept):
    """The line with only the kept names of its words, each word that stays with the space that stands before it."""
    made, at = line[: words[0].column - 1], words[0].column - 1
    opening = made
    for word in words:
        start, spelt = word.column - 1, " ".join(spellings(word, kept))
        if spelt:
            made += (line[at:start] if made != opening else "") + spelt
        at = start + len(word.text)
    return made + line[at:]


def spellings(word, kept):
    """A word for each part of its kept names: a range, or a single name."""
    spelt = []
    for is_kept, part in itertools.groupby(word.names(), lambda name: name.text in kept):
        names = [name.text for name in part]
        if not is_kept:
            continue
        if len(names) == 1 or not word.parts():
            spelt += names
        else:
            before, _, _, after = word.parts()
            numbers = [name[len(before) : len(name) - len(after)] for name in (names[0], names[-1])]
            spelt.append(f"{before}{{{numbers[0]}..{numbers[1]}}}{after}")
    return spelt


def add(source, block, added, made):
    """Adds effects: to the block's last statement of them, or on a line of their own below the block."""
    said = [statement for statement in block.cells if statement.kind == "adds"]
    if said:
        statement = said[-1]
        words = [statement.word, *statement.words]
        end = words[-1].column - 1 + len(words[-1].text)
        line = line_of(source, statement)
        made[statement.word.line] = [line[:end] + "".join(f" {fact}" for fact in added) + line[end:]]
        return
    last = (block.cells or [block.statement])[-1]
    end = "\r" if line_of(source, last).endswith("\r") else ""
    made[last.word.line] = made[last.word.line] + [adds_line(block, added) + end]


def adds_line(block, added):
    """Set as the block's other cells are: their indent, and their facts' column."""
    other = block.cells[0] if block.cells else None
    indent = other.word.column - 1 if other else block.statement.word.column + 1
    facts = other.words[0].column - 1 if other and other.words else 0
    return (" " * indent + "adds ").ljust(facts) + " ".join(added)
