"""What mend is given: a source or a task file, the source that lends names, and the PDDL texts that take the place of its table.
All that can be judged before the program is asked is judged here."""

import files
import options
import pddl
import words
from source import DAMAGE
from stop import UNABLE, Stop
from taskfile import SIZES, fault, file_of, sizes_of, task_of

FOR_A_SOURCE, FOR_A_TASK_FILE = ("task", "table"), ("names",)


class Given:
    def __init__(self, asked):
        self.path = files.shown(asked["file"])
        content = files.content(asked["file"])
        is_task_file = files.is_task_file(content)
        for word in FOR_A_SOURCE if is_task_file else FOR_A_TASK_FILE:
            if word in asked:
                kind = "a task file" if is_task_file else "a source"
                raise options.wrong_use(f"--{word} is not for {kind}, and {self.path} is one")
        self.source = None if is_task_file else files.source_of(self.path, content)
        self.data = content if is_task_file else file_of(self.source)  # the task file
        self.fault = fault(self.data)
        self.locks = self.task().locks() if self.fault is None else []  # of the file itself
        self.notes = []  # what else is to be said of a refused file
        self.lender = self.lender_of(asked["names"]) if "names" in asked else self.source
        self.called, self.texts = self.path, {}  # what the answer is headed by; the PDDL texts, path by path
        if "from-pddl" in asked and self.fault is None:
            self.called = f"{files.shown(asked['from-pddl'])} with {self.path}"
            self.texts = pddl.texts_in(asked["from-pddl"], self.path, len(self.task().runs))

    def lender_of(self, path):
        """The source that lends names; it has to have as many as there are facts and actions. A refused file is told all the
        same, without them."""
        content = files.content(path)
        if files.is_task_file(content):
            raise options.wrong_use(f"--names takes a source, and {files.shown(path)} is none")
        lender = files.source_of(path, content)
        has, sizes = (len(lender.texts("facts")), len(lender.texts("action"))), sizes_of(self.data)
        if has == sizes:
            return lender
        if sizes:
            needed = f"{self.path} has {sizes[0]} and {sizes[1]}"
            self.notes.append(f"{files.shown(path)}: has names for {has[0]} facts and {has[1]} actions, and {needed}")
        if self.fault is None:
            raise Stop(UNABLE, *self.notes)
        return None

    def task(self):
        return task_of(self.data)

    def take_texts(self, library):
        """Puts the task of the PDDL texts in the place of the file's own."""
        self.data = pddl.task_file(self.texts, self.path, self.data, library)

    def names(self, runs=None):
        """The lender's names of the facts and actions that the file has; those of its runs if it has so many."""
        if not self.lender:
            return words.Names()
        facts, actions = sizes_of(self.data) or (0, 0)
        called = self.lender.run_texts() if len(self.lender.runs) == runs else None
        return words.Names(self.lender.texts("facts")[:facts], self.lender.texts("action")[:actions], called)

    def refusal(self, what):
        """The line that tells a refusal. In a source its place is the statement that damages the file."""
        damage = [said.word for word in DAMAGE for said in self.source.said[word]] if self.source else []
        place = f":{damage[0].line}:{damage[0].column}" if damage else ""
        is_neither = not self.source and self.data[:1] not in (b"", bytes([SIZES]))
        return f"{self.path}{place}: {what}" + (" (nor is this a source: it is no text in UTF-8)" if is_neither else "")
