"""The proved program: every answer that mend gives is one of its listings."""

import contextlib
import subprocess

import listing
from ready import ROOT, is_ready, make_ready
from stop import UNABLE, Stop
from taskfile import task_of

RUN, MAKE = ROOT / "c" / "run.sh", ROOT / "tools" / "programs"
PROGRAM = ROOT / "target" / "bin" / "zernoplysk"
CHECKED = ROOT / "target" / "mend-checked"  # when the program was last seen to be proved
MADE, SOURCES = [PROGRAM, CHECKED], ["crates", "crates.txt"]


def started(command, data):
    """Runs an x86-64 program of ours on standard input."""
    try:
        return subprocess.run([str(RUN), str(command)], input=data, capture_output=True, check=False)
    except OSError as error:
        raise Stop(UNABLE, f"mend: {command} can't be started: {error.strerror}") from None


def is_built():
    return is_ready(MADE, SOURCES)


def listing_of(data):
    """The program's listing of an input. What it says on standard error, or a listing that is not whole, is no answer."""
    if make_ready("zernoplysk", [str(MAKE), "zernoplysk"], MADE, SOURCES):
        with contextlib.suppress(OSError):  # where that can't be noted, it is looked at again the next time
            CHECKED.touch()
    ran = started(PROGRAM, data)
    found = listing.parsed(ran.stdout.decode("ascii", "replace"))
    if ran.returncode != 0 or ran.stderr or not found or not tells_each_run(found, data):
        said = ran.stderr.decode("utf-8", "replace").strip().splitlines()
        raise Stop(UNABLE, f"mend: the program's listing is not whole{': ' + said[-1] if said else ''}")
    return found


def tells_each_run(found, data):
    """Whether the listing has an open line for each run; that of a refused file has none."""
    return found.sizes is None or len(found.opens) == len(task_of(data).runs)
