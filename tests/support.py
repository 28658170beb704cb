"""What the tests of mend share: the command itself, started as a user starts it, on real files in a folder of its own."""

import os
import pathlib
import pty
import subprocess
import sys
import tempfile
import unittest

ROOT = pathlib.Path(__file__).resolve().parent.parent
SAMPLES = ROOT / "samples"
sys.path.insert(0, str(ROOT / "command"))

# mend starts the first python3 of the path; here that is the one that runs the tests.
os.environ["PATH"] = f"{pathlib.Path(sys.executable).parent}{os.pathsep}{os.environ['PATH']}"

LIST, NO_LIST, REFUSED, UNABLE = range(4)

GOOD = """\
limit 3
facts lamp-on door-shut
start door-shut
goal  lamp-on

action press           # the switch
  needs door-shut
action open-door
  deletes door-shut

steps press
"""


# What the tests ask is proved and built before the first of them.
subprocess.run([ROOT / "mend", SAMPLES / "story.txt", "--show"], stdout=subprocess.DEVNULL, check=True)


def mend(*arguments, command=ROOT / "mend", **how):
    """Runs mend; its output is text, and what it got from nowhere is nothing."""
    settings = {"stdout": subprocess.PIPE, "stderr": subprocess.PIPE, "stdin": subprocess.DEVNULL, **how}
    return subprocess.run([str(word) for word in (command, *arguments)], check=False, encoding="utf-8", **settings)


def in_terminal(arguments, stream="stdout", command=ROOT / "mend", **environment):
    """What mend writes to a terminal on one of its streams; the other one is let go."""
    ours, theirs = pty.openpty()
    plain = {word: value for word, value in os.environ.items() if word not in ("NO_COLOR", "COLUMNS")}
    environment = {**plain, "TERM": "xterm", "COLUMNS": "100", **environment}
    streams = {"stdout": subprocess.DEVNULL, "stderr": subprocess.DEVNULL, stream: theirs}
    with subprocess.Popen([command, *arguments], env=environment, cwd=ROOT, **streams):
        os.close(theirs)
        written = b""
        try:
            while part := os.read(ours, 65536):
                written += part
        except OSError:  # the end of a terminal whose other side is closed
            pass
    os.close(ours)
    return written.decode().replace("\r\n", "\n")


class Case(unittest.TestCase):
    maxDiff = None

    def setUp(self):
        folder = tempfile.TemporaryDirectory(prefix="mend tests ")
        self.addCleanup(folder.cleanup)
        self.folder = pathlib.Path(folder.name)

    def file(self, name, content=GOOD):
        path = self.folder / name
        path.write_bytes(content if isinstance(content, bytes) else content.encode())
        return path

    def expect(self, ran, status, error=None):
        """The status, no traceback, and on standard error exactly this line, these lines, or nothing."""
        lines = [] if error is None else [error] if isinstance(error, str) else list(error)
        self.assertEqual((ran.returncode, ran.stderr.splitlines()), (status, lines), ran.stdout)
        return ran.stdout
