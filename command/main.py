"""mend: takes a readable table or a task file, and tells in names and words what to change (mend --help)."""

import signal

signal.signal(signal.SIGINT, signal.SIG_DFL)  # until there is a way to tell of it

import io
import os
import shutil
import sys

import badbyte
import colours
import corrected
import draw_svg
import draw_text
import files
import judging
import locks
import options
import pddl
import picture
import sittings
import source
import words
from given import Given
from library import Library
from program import is_built, listing_of
from stop import LIST, NO_LIST, REFUSED, UNABLE, Stop
from taskfile import file_of

INPUTS, OUTPUTS = ("file", "names"), ("task", "table", "svg")


def mend(arguments, out):
    """Answers on `out`, and gives the exit status."""
    asked = options.parsed(arguments)
    if "help" in asked:
        out.write(options.help_text())
        return LIST
    given = Given(asked)
    judge_outputs(asked, given)
    if given.fault is not None and not is_built():
        raise refused(given, f"refused at byte {given.fault}, before the program is proved and built", given.fault)
    if given.texts:
        given.take_texts(Library())
    if "task" in asked:
        files.write(asked["task"], given.data)
    found = listing_of(given.data)
    if "numbers" in asked:
        out.write(found.text)
    if found.sizes is None:
        if "numbers" in asked:
            return REFUSED
        number, place = found.refusal
        raise refused(given, words.refusal(found), place, number)
    names = given.names(len(found.opens))
    if "numbers" not in asked:
        out.write("\n".join(answer(asked, given, found, names)) + "\n")
    if "part" in asked and not found.refusal:
        sittings.judge(asked["part"], found.repairs, files.shown(asked["table"]))
    if "show" in asked or "svg" in asked:
        draw(asked, given, found, names, out)
    if "table" in asked:
        write_table(asked, given, found, names, out)
    if "pddl" in asked:
        write_pddl(asked, given, found, names, out)
    return LIST if found.refusal is None else NO_LIST


def judge_outputs(asked, given):
    """All outputs, before there is anything to write. With a file that is refused, PDDL is not."""
    read = [*(asked[word] for word in INPUTS if word in asked), *given.texts]
    written = [(word, asked[word]) for word in OUTPUTS if word in asked]
    many = len(given.task().runs) if "pddl" in asked and given.fault is None else 0
    folder = [asked["pddl"], *pddl.paths(asked["pddl"], many)] if many else []
    files.judge_apart(read, written + [("pddl", path) for path in folder])
    for _, path in written:
        files.judge_output(path)
    if many:
        pddl.judge(asked["pddl"], given.path, many, "force" in asked)


def refused(given, what, place, number=None):
    """The end of mend for a refused file: why, and which byte it is."""
    shown = badbyte.lines(given.data, place, given.names(), colours.allowed(sys.stderr), number)
    return Stop(REFUSED, given.refusal(what), "", *shown, *(line for note in given.notes for line in ("", note)))


def answer(asked, given, found, names):
    """The lines of the answer. Of PDDL texts it also says whether the file that they go with has locks."""
    why = locks.why(given.data, found, names)
    lines = words.answer(given.called, found, names, given.task().runs, why)
    if given.texts and given.locks:
        lines += ["", locks.not_read(files.shown(asked["from-pddl"]), given.path, len(given.locks))]
    return lines


def draw(asked, given, found, names, out):
    drawn = picture.drawn(given.called, given.data, found, names, Library())
    if "show" in asked:
        columns = shutil.get_terminal_size((100, 24)).columns
        out.write("\n" + "\n".join(draw_text.lines(drawn, columns, colours.allowed(sys.stdout))) + "\n")
    if "svg" in asked:
        files.write(asked["svg"], draw_svg.svg(drawn).encode("utf-8", "backslashreplace"))


def write_table(asked, given, found, names, out):
    """The source with the correction made, or with a part of it; what is then left is told."""
    path, part = files.shown(asked["table"]), asked.get("part")
    if found.refusal:
        raise Stop(NO_LIST, f"{path}: not written: there is no correction to make")
    made, left = sittings.split(part, found.repairs)
    text = corrected.text(given.source, made)
    wrong = differs(text, part, given.data)
    if wrong:
        raise Stop(UNABLE, f"{path}: not written: {wrong}")
    files.write(asked["table"], text.encode())
    if part and "numbers" not in asked:
        out.write("\n" + "\n".join(sittings.told(path, made, left, names)) + "\n")


def differs(text, part, data):
    """How a corrected source differs from what the library's apply gives, or what is left from what its solve then answers; None
    where both are as they are proved to be."""
    again, library = source.read(text), Library()
    task = library.task(data)
    made, left = sittings.split(part, library.solved(task))
    applied = library.applied(task, made)
    if judging.errors(again) or file_of(again) != library.file(applied):
        return "the corrected source is not what the library's apply gives"
    if library.solved(applied) != left:
        return "what is left is not what the library's solve answers for the corrected source"
    return None


def write_pddl(asked, given, found, names, out):
    """The repaired table and its runs as PDDL, with a legend; the texts are the library's. What they don't carry is told."""
    folder, (facts, actions, *_), many = asked["pddl"], found.sizes, len(found.opens)
    if found.refusal:
        raise Stop(NO_LIST, pddl.nothing_written(folder, "there is no correction to make"))
    library = Library()
    texts = library.texts(library.mended(library.task(given.data)))
    pddl.judge(folder, given.path, many, "force" in asked)  # once more: proving may have taken minutes
    locked = given.task().locks()
    pddl.write(folder, texts, pddl.legend(names, facts, actions, many, locked))
    if locked and "numbers" not in asked:
        out.write(f"\n{locks.not_written(files.shown(folder), pddl.LEGEND, len(locked))}\n")


def told(lines):
    try:
        for line in lines if sys.stderr else []:
            print(line, file=sys.stderr, flush=True)
    except OSError:
        let_go(sys.stderr)


def let_go(stream):
    """What could not be written is let go, so that ending does not try once more."""
    os.dup2(os.open(os.devnull, os.O_WRONLY), stream.fileno())


def main(arguments):
    if sys.stdout is None:
        told(["mend: standard output can't be written: it is closed"])
        return UNABLE
    out = io.StringIO()
    try:
        signal.signal(signal.SIGINT, signal.default_int_handler)
        status, lines = mend(arguments, out), []
    except Stop as stop:
        status, lines = stop.status, stop.lines
    except KeyboardInterrupt:
        status, lines = UNABLE, ["mend: interrupted"]
    except Exception as error:  # never a traceback
        status, lines = UNABLE, [f"mend: an error of its own: {type(error).__name__}: {error}"]
    signal.signal(signal.SIGINT, signal.SIG_DFL)
    failure = unwritten(out.getvalue())
    told([*lines, *failure])
    return UNABLE if failure else status


def unwritten(text):
    """Writes the answer; what failed, if anything did, as the lines that tell it."""
    try:
        sys.stdout.reconfigure(errors="backslashreplace")
        sys.stdout.write(text)
        sys.stdout.flush()
        return []
    except OSError as error:
        let_go(sys.stdout)
        return [f"mend: standard output can't be written: {error.strerror}"]


if __name__ == "__main__":
    sys.exit(main(sys.argv[1:]))
