"""Proves and builds the program and the library where that is needed, and says which crate of how many is proved."""

import contextlib
import errno
import os
import pathlib
import re
import shutil
import subprocess
import sys

from stop import UNABLE, Stop

ROOT = pathlib.Path(__file__).resolve().parent.parent
# What is said as a crate is begun, and where it is proved. Of a crate that is built already, nothing is said.
BEGUN, PROVED = re.compile(r"rt: chose --jobs \d+ for (\w+)"), "logic=proved "


def say(what):
    with contextlib.suppress(OSError):
        print(f"mend: {what}", file=sys.stderr or open(os.devnull, "w"), flush=True)


def stood_on(crate):
    """The crate and all of ours that it stands on (crates.txt)."""
    lines = (ROOT / "crates.txt").read_text().splitlines()
    under = {name.split()[0]: below.split() for name, colon, below in (line.partition(":") for line in lines) if colon}
    return {crate, *under[crate]} & set(under)


def is_ready(made, sources):
    """Whether what is made is there, and none of its sources is newer."""
    if not made[0].exists():
        return False
    last = max(path.stat().st_mtime for path in made if path.exists())
    return all(path.stat().st_mtime <= last for source in sources for path in parts(ROOT / source))


def parts(source):
    """A source and all that is in it; but of the crates not what rt makes, in crates/NAME/out, nor crates/NAME itself, whose time
    that changes."""
    folders = [path for path in source.iterdir() if path.is_dir()] if source.is_dir() else []
    inner = [path for folder in folders for path in folder.iterdir() if path.name != "out"]
    return [source, *inner, *(path for each in inner for path in each.rglob("*"))]


def make_ready(crate, command, made, sources):
    """Sees that what is made is there and not older than its sources, where it is not by the command, and tells whether that
    was needed."""
    if is_ready(made, sources):
        return False
    crates, done, begun, last = stood_on(crate), set(), None, ""
    say(f"proving and building first, {len(crates)} crates; from nothing that takes some minutes")
    if not shutil.which("rt"):
        raise Stop(UNABLE, f"mend: rt (the Rattle kit) can't be started: {os.strerror(errno.ENOENT)}")
    how = {"stdout": subprocess.PIPE, "stderr": subprocess.STDOUT, "text": True, "errors": "replace"}
    try:
        making = subprocess.Popen(command, cwd=ROOT, **how)
    except OSError as error:
        raise Stop(UNABLE, f"mend: {command[0]} can't be started: {error.strerror}") from None
    with making:
        for last in making.stdout:
            found = BEGUN.match(last)
            begun = found[1] if found else begun
            if last.startswith(PROVED) and begun in crates - done:
                done |= stood_on(begun)
                say(f"crate {len(done)} of {len(crates)} is proved: {begun}")
    if making.returncode != 0 or not made[0].exists():
        raise Stop(UNABLE, f"mend: {' '.join(map(str, command))} failed: {last.strip()}")
    return True
