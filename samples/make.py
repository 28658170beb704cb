#!/usr/bin/env python3
"""Turns each readable source samples/NAME.txt into its task file samples/NAME.task (docs/SOURCE.md).

    python3 samples/make.py            write all task files
    python3 samples/make.py --check    write nothing; fail if a task file is not what its source makes
"""

import pathlib
import sys

FOLDER = pathlib.Path(__file__).resolve().parent
sys.dont_write_bytecode = True
sys.path.insert(0, str(FOLDER.parent / "command"))

import files  # noqa: E402 (the language is mend's)
import taskfile  # noqa: E402
from stop import Stop  # noqa: E402


def make(path, check):
    made, target = taskfile.file_of(files.source_of(path.name, files.content(path))), path.with_suffix(".task")
    if not check:
        files.write(target, made)
    elif files.content(target) != made:
        raise Stop(1, f"{target.name} is not what {path.name} makes: run samples/make.py")
    print(f"{target.name}: {len(made)} bytes")


def main():
    if sys.argv[1:] not in ([], ["--check"]):
        sys.exit(__doc__)
    try:
        for path in sorted(FOLDER.glob("*.txt")):
            make(path, check=bool(sys.argv[1:]))
    except Stop as stop:
        sys.exit("\n".join(stop.lines))


if __name__ == "__main__":
    main()
