"""The answer in plain words."""

from dataclasses import dataclass

import refusals

REPAIRS = {
    "drop-delete": "{action} should not end {fact}",
    "add-effect": "{action} should make {fact} true",
    "drop-need": "{action} should not need {fact}",
}


@dataclass(frozen=True)
class Names:
    """What facts, actions and runs are called: by a source's names, or where there are none by their numbers."""

    facts: list = ()
    actions: list = ()
    runs: list = None

    def fact(self, number):
        return self.facts[number] if number < len(self.facts) else f"fact {number}"

    def action(self, number):
        return self.actions[number] if number < len(self.actions) else f"action {number}"

    def headings(self, many):
        """What each of so many runs is headed by; a single one without a name by nothing."""
        if many == 1 and not self.runs:
            return [None]
        return [f"run {name}" for name in self.runs or range(1, many + 1)]

    def repair(self, repair):
        kind, action, fact = repair
        return REPAIRS[kind].format(action=self.action(action), fact=self.fact(fact))


def counted(number, noun):
    return f"{number} {noun}{'' if number == 1 else 's'}"


def answer(file, found, names, runs, why=()):
    """The lines of the answer: what the table and the runs are, what is missing in each, and what to change; where there is no
    list, why, if that is known."""
    facts, actions, limit, length = found.sizes
    steps = counted(length, "step") if len(runs) == 1 else f"{len(runs)} runs of {counted(length, 'step')} in all"
    sizes = ", ".join([counted(facts, "fact"), counted(actions, "action"), steps, f"at most {counted(limit, 'repair')}"])
    each = zip(names.headings(len(runs)), found.opens, runs)
    missing = [line for heading, told, run in each for line in needs(heading, told, names, run.steps)]
    return [f"{file}: {sizes}", "", *missing, *rejected(found, runs), "", *change(found, names), *why]


def needs(heading, told, names, steps):
    """What is missing in a run, by its line of the listing."""
    total, step, fact = told
    where = f" in {heading}" if heading else ""
    if total == 0:
        return [f"Nothing is missing{where}: the run is valid as the table stands."]
    if step > len(steps):
        first = f"  at the end: the goal {names.fact(fact)} is absent"
    else:
        first = f"  step {step}, {names.action(steps[step - 1])}: needs {names.fact(fact)}, which is absent"
    if total == 1:
        return [f"One need is missing{where}:", first]
    return [f"{total} needs are missing{where}; the first of them:", first]


def rejected(found, runs):
    """Where a step of some run can't run: what the totals are counted by (02, request 3)."""
    if any(0 < step <= len(run.steps) for (_, step, _), run in zip(found.opens, runs)):
        return ["A step that can't run does nothing, and the next one is tried."]
    return []


def all_of_them(found):
    return "the run" if len(found.opens) == 1 else "every run"


def change(found, names):
    if found.refusal:
        return [no_list(found)]
    if not found.repairs:
        return ["Nothing to change: the shortest list of repairs is the empty one."]
    heading = f"To change ({counted(len(found.repairs), 'repair')}):"
    lines = [f"  {names.repair(repair)}" for repair in found.repairs]
    least = f"No shorter list makes {all_of_them(found)} valid, and of those as short this is the first in order."
    return [heading, *lines, "", least]


def no_list(found):
    told = refusals.told(found.refusal[0], all_of_them(found), found.sizes[2])
    return f"{told[0].upper()}{told[1:]}."


def refusal(found):
    number, place = found.refusal
    return f"refused {number} at byte {place}: {refusals.told(number)}"
