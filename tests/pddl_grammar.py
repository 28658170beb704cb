"""A strict parser of PDDL 2.1 as far as `:strips` goes (docs/PDDL-GRAMMAR.md), and of what a planner's parser checks beside the
grammar. It is apart from the proved reader and from mend, and knows nothing of the layout of our texts: any white space and
comments, upper and lower case."""

import re
from dataclasses import dataclass

TOKEN = re.compile(r"(?P<blank>\s+|;[^\n]*)|[()]|[:?]?[a-z][a-z0-9_-]*(?=[\s();]|\Z)", re.ASCII | re.IGNORECASE)
RESERVED = ("and", "not")  # a predicate of this name would be taken for the connective


class Outside(Exception):
    """The text is not PDDL, or no planner would take it."""


@dataclass(frozen=True)
class Action:
    """Atoms are tuples: the predicate, and the variables that it is said of."""

    name: str
    parameters: list
    needs: list
    adds: list
    deletes: list


@dataclass(frozen=True)
class Domain:
    name: str
    requirements: list
    predicates: dict  # how many arguments each has
    actions: list


@dataclass(frozen=True)
class Problem:
    name: str
    domain: str
    requirements: list
    init: list
    goal: list


def domain(text):
    """The domain that a text says."""
    parts = Parts(expression(text))
    name = parts.definition("domain")
    requirements = parts.requirements()
    found = Domain(name, requirements, predicates(parts), [])
    while parts:
        found.actions.append(action(Parts(parts.section(":action")), found.predicates))
    distinct([each.name for each in found.actions], "action")
    return found


def problem(text, of):
    """The problem that a text says, over a domain."""
    parts = Parts(expression(text))
    name, (named,) = parts.definition("problem"), exactly(1, parts.section(":domain"))
    if named != of.name:
        raise Outside(f"a problem of the domain {named!r}, and the domain is {of.name!r}")
    requirements, literals = parts.requirements(), parts.section(":init")
    init = [fact for is_so, fact in (literal(each, of.predicates, []) for each in literals) if is_so]
    (goal,) = exactly(1, parts.section(":goal"))
    parts.hold_to_end()
    return Problem(name, named, requirements, init, condition(goal, of.predicates, []))


def tokens(text):
    """Parentheses, names, :words and ?variables, in lower case; blanks and comments only part them."""
    at = 0
    while at < len(text):
        found = TOKEN.match(text, at)
        if not found:
            raise Outside(f"no token at {at}: {text[at : at + 10]!r}")
        at = found.end()
        if found["blank"] is None:
            yield found[0].lower()


def expression(text):
    """The one expression that a text is: lists for what stands in parentheses, words for the rest."""
    opened = [[]]
    for token in tokens(text):
        if token == "(":
            opened.append([])
        elif token == ")":
            closed = opened.pop()
            if not opened:
                raise Outside("a parenthesis is closed that was not opened")
            opened[-1].append(closed)
        else:
            opened[-1].append(token)
    if len(opened) > 1:
        raise Outside("a parenthesis is not closed")
    (whole,) = exactly(1, opened[0])
    return listed(whole)


class Parts:
    """The parts of a list, taken one after the other."""

    def __init__(self, parts):
        self.parts = list(parts)

    def __bool__(self):
        return bool(self.parts)

    def next(self):
        if not self.parts:
            raise Outside("a part is missing")
        return self.parts.pop(0)

    def comes(self, keyword):
        """Whether the next part is this word, or a section that it opens."""
        return bool(self.parts) and keyword in (self.parts[0], *self.parts[0][:1])

    def section(self, keyword):
        """What stands in the section (:keyword ..) that has to come next."""
        head, *rest = listed(self.next()) or [None]
        if head != keyword:
            raise Outside(f"{keyword} has to come, and not {head}")
        return rest

    def value(self, keyword):
        """What stands after a word that has to come next."""
        if self.next() != keyword:
            raise Outside(f"{keyword} has to come")
        return self.next()

    def definition(self, what):
        """The name in `define (what name)`."""
        kind, called = exactly(2, listed(self.value("define")))
        if kind != what:
            raise Outside(f"defines no {what}")
        return name(called)

    def requirements(self):
        if not self.comes(":requirements"):
            return []
        keys = self.section(":requirements")
        if not keys or set(map(str, keys)) != {":strips"}:
            raise Outside(f"the requirements are {keys}, and not :strips alone")
        return keys

    def hold_to_end(self):
        if self.parts:
            raise Outside(f"more than there may be: {self.parts[0]}")


def predicates(parts):
    if not parts.comes(":predicates"):
        return {}
    skeletons = [listed(each) for each in parts.section(":predicates")]
    if not skeletons or not all(skeletons):
        raise Outside("a predicate has no name, or there is none")
    names = [name(each[0]) for each in skeletons]
    distinct(names, "predicate")
    if set(names) & set(RESERVED):
        raise Outside("a predicate with the name of a connective")
    return {called: len(variables(each[1:])) for called, each in zip(names, skeletons)}


def action(parts, known):
    called = name(parts.next())
    parameters = variables(listed(parts.value(":parameters")))
    needs = condition(parts.value(":precondition"), known, parameters) if parts.comes(":precondition") else []
    effects = effect(parts.value(":effect"), known, parameters) if parts.comes(":effect") else []
    parts.hold_to_end()
    adds, deletes = ([fact for is_so, fact in effects if is_so == kind] for kind in (True, False))
    return Action(called, parameters, needs, adds, deletes)


def condition(part, known, parameters):
    """The atoms of a GD: none, one, or a conjunction of others."""
    if listed(part)[:1] == ["and"]:
        return [each for inner in part[1:] for each in condition(inner, known, parameters)]
    return [atom(part, known, parameters)] if part else []


def effect(part, known, parameters):
    """The literals of an effect. A conjunction holds no other one."""
    if listed(part)[:1] == ["and"]:
        return [literal(each, known, parameters) for each in part[1:]]
    return [literal(part, known, parameters)] if part else []


def literal(part, known, parameters):
    """Whether a literal is positive, and its atom."""
    if listed(part)[:1] == ["not"]:
        (inner,) = exactly(1, part[1:])
        return False, atom(inner, known, parameters)
    return True, atom(part, known, parameters)


def atom(part, known, parameters):
    """A declared predicate, said of as many of the parameters as it has arguments."""
    predicate, *arguments = listed(part) or [""]
    if name(predicate) not in known:
        raise Outside(f"the predicate {predicate} is not declared")
    if len(arguments) != known[predicate]:
        raise Outside(f"{predicate} has {known[predicate]} arguments, and not {len(arguments)}")
    if not all(each in parameters for each in arguments):
        raise Outside(f"{predicate} is said of what is no parameter: {arguments}")
    return (predicate, *arguments)


def variables(parts):
    if not all(isinstance(each, str) and each[0] == "?" for each in parts):
        raise Outside(f"not variables alone: {parts}")
    distinct(parts, "variable")
    return list(parts)


def name(part):
    if not isinstance(part, str) or part[:1] in (":", "?", ""):
        raise Outside(f"no name: {part}")
    return part


def listed(part):
    if not isinstance(part, list):
        raise Outside(f"not in parentheses: {part}")
    return part


def exactly(many, parts):
    if len(parts) != many:
        raise Outside(f"{len(parts)} parts, and not {many}")
    return parts


def distinct(names, what):
    if len(set(names)) < len(names):
        raise Outside(f"a {what} is there twice")
