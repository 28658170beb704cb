"""The repaired table as PDDL, in a folder (02, request 4): a domain text, a problem text for each run, and a legend of the names.
What the texts say and how they are laid out is the library's, written and read; here they are only files."""

import os
import re

import badtext
import files
import refusals
from library import AT_ACTIONS, AT_FACTS, AT_LIMIT, READ_DOMAIN, READ_PROBLEM, accepted, steps_of
from stop import UNABLE, Stop
from words import counted

DOMAIN, LEGEND = "domain.pddl", "names.txt"
RUN = re.compile(r"run-([1-9][0-9]{0,8})\.pddl")


def run_file(number):
    return f"run-{number}.pddl"


def text_files(many):
    """The names of the texts of a table with so many runs, which are counted from 1."""
    return [DOMAIN, *(run_file(number) for number in range(1, many + 1))]


def paths(folder, many):
    """All that is written for a table with so many runs."""
    return [os.path.join(folder, name) for name in (*text_files(many), LEGEND)]


def runs_in(folder):
    """The numbers of the runs whose texts stand in a folder."""
    try:
        names = os.listdir(folder) if os.path.isdir(folder) else []
    except OSError as error:
        raise Stop(UNABLE, f"{files.shown(folder)}: can't be read: {files.reason(error)}") from None
    return sorted(int(found[1]) for found in map(RUN.fullmatch, names) if found)


def listed(names):
    return " and ".join([", ".join(names[:-1]), names[-1]] if names[1:] else names)


def stand(names):
    return f"{listed(names)} {'stand' if names[1:] else 'stands'} there"


def judge(folder, path, many, is_forced):
    """What can be known before there is anything to write for the runs of a file: the folder is one or can be made, and nothing
    stands in the way. A text of a run that the file has not would be read back with the others, and is not ours to remove."""
    files.judge_place(folder)
    if os.path.lexists(folder) and not os.path.isdir(folder):
        raise Stop(UNABLE, f"{files.shown(folder)}: can't be written: it is no folder")
    standing = [each for each in paths(folder, many) if os.path.lexists(each)]
    if standing and not is_forced:
        names = [os.path.basename(each) for each in standing]
        raise Stop(UNABLE, nothing_written(folder, f"{stand(names)} already, and --force is not given"))
    for each in standing:
        if not os.path.isfile(each):
            raise Stop(UNABLE, f"{files.shown(each)}: can't be written: it is no plain file")
    further = [run_file(number) for number in runs_in(folder) if number > many]
    if further:
        raise Stop(UNABLE, nothing_written(folder, f"{stand(further)}, and {path} has {counted(many, 'run')}"))


def nothing_written(folder, why):
    return f"{files.shown(folder)}: nothing is written: {why}"


def write(folder, texts, legend):
    """Writes the texts, the domain's first, and the legend."""
    contents = dict(zip(text_files(len(texts) - 1), texts))
    files.write_in(folder, {**contents, LEGEND: legend.encode()})


def legend(names, facts, actions, runs, locks=()):
    """Which fact, action and run each name of the texts stands for; and the locked needs, which no text carries."""
    groups = [
        [(f"f{number}", names.fact(number)) for number in range(facts)],
        [(f"a{number}", names.action(number)) for number in range(actions)],
        [(run_file(number), heading or "the run") for number, heading in enumerate(names.headings(runs), 1)],
    ]
    told = ["# What f0, a0 and on stand for in domain.pddl, and which run each other text is of."]
    for group in groups:
        width = max(len(name) for name, _ in group)
        told += ["", *(f"{name:{width}}  {called}" for name, called in group)]
    if locks:
        told += ["", "# The texts carry no locks. Locked are these needs:", ""]
        told += [f"a{action} f{fact}  {names.action(action)} needs {names.fact(fact)}" for action, fact in locks]
    return "\n".join(told) + "\n"


def texts_in(folder, path, many):
    """The texts in a folder, path by path, the domain's first; there is one for each run of the file whose steps they go with."""
    domain, *runs = (os.path.join(folder, name) for name in text_files(many))
    texts, found = {domain: files.content(domain)}, runs_in(folder)
    if found != list(range(1, many + 1)):
        has = listed([run_file(number) for number in found]) if found else "no text of a run"
        raise Stop(UNABLE, f"{files.shown(folder)}: has {has}, and {path} has {counted(many, 'run')}")
    return texts | {run: files.content(run) for run in runs}


def task_file(texts, path, data, library):
    """The task file of the texts, with the limit and the steps of the task file that they go with."""
    beside, (domain, *runs) = library.task(data), texts.items()
    (task,) = read(library, READ_DOMAIN, beside[AT_LIMIT], [domain])
    sizes, others = ((each[AT_FACTS], each[AT_ACTIONS]) for each in (task, beside))
    if sizes != others:
        has = f"has {counted(sizes[0], 'fact')} and {counted(sizes[1], 'action')}"
        raise Stop(UNABLE, f"{files.shown(domain[0])}: {has}, and {path} has {others[0]} and {others[1]}")
    for number, (start, goal) in enumerate(read(library, READ_PROBLEM, task[AT_FACTS], runs)):
        task = library.with_run(task, start, goal, steps_of(beside, number))
    return library.file(task)


def read(library, call, number, texts):
    """What the library reads in texts, each (path, text). The first that is refused ends mend, with the place; whether a good
    text ends there, and has a tail, is the library's answer too."""
    answers = [words for words, _ in library.ask([(call, [number], text) for _, text in texts])]
    for (path, text), (refusal, place, *_) in zip(texts, answers):
        if refusal == refusals.OFF_THE_LAYOUT:
            ((of_beginning, *_), _) = library.ask([(call, [number], text[:place])])[0]
            facts = number if call == READ_PROBLEM else None
            raise badtext.refused(files.shown(path), text, place, of_beginning == 0, facts)
    return [accepted(words) for words in answers]
