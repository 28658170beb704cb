"""Reading what is given and writing what is asked for. What fails is told with the file's name, and ends mend."""

import contextlib
import os
import stat
import tempfile

import judging
import source
from stop import REFUSED, UNABLE, Stop

TEXT_CONTROLS = b"\t\n\r\f"
MOST_READ = 1_000_000  # bytes: no source is near that, and of a task file only the first 28,000 count


def shown(path):
    """A path as it is printed: on one line, whatever its letters are."""
    return "".join(letter if letter.isprintable() else ascii(letter)[1:-1] for letter in str(path))


def content(path):
    try:
        with open(path, "rb") as file:
            return file.read(MOST_READ)
    except (OSError, ValueError) as error:
        raise Stop(UNABLE, f"{shown(path)}: can't be read: {reason(error)}") from None


def reason(error):
    return getattr(error, "strerror", None) or str(error)


def is_task_file(data):
    """A task file opens with the byte 1, so it has a control byte, and a text has none but tabs and line ends. A file of no
    bytes, and whatever else is no text, is judged by the proved program too."""
    return not data or any(byte < 32 and byte not in TEXT_CONTROLS for byte in data)


def source_of(path, data):
    """The source in a file's content, judged: all its errors are told, one a line."""
    if len(data) == MOST_READ:
        raise Stop(REFUSED, f"{shown(path)}: is longer than any source: {MOST_READ:,} bytes and more")
    try:
        text = data.decode("utf-8-sig")
    except UnicodeDecodeError as error:
        good = data[: error.start].decode("utf-8-sig")
        line, column = good.count("\n") + 1, len(good) - good.rfind("\n")
        raise Stop(REFUSED, f"{shown(path)}:{line}:{column}: the byte {data[error.start]} is no text in UTF-8") from None
    found = source.read(text)
    errors = judging.errors(found)
    if errors:
        raise Stop(REFUSED, *(f"{shown(path)}:{error.line}:{error.column}: {error.what}" for error in errors))
    return found


def judge_apart(read, written):
    """Each path that is to be written, (the option's word, path), is one of its own, and none that is read."""
    seen = {os.path.realpath(path): path for path in read}
    for word, path in written:
        real = os.path.realpath(path)
        if real in seen:
            raise Stop(UNABLE, f"{shown(path)}: --{word} would write over {shown(seen[real])}")
        seen[real] = path


def judge_output(path):
    """What can be known of an output before there is anything to write: it is no folder, and in one that is there."""
    if os.path.isdir(path):
        raise Stop(UNABLE, f"{shown(path)}: can't be written: it is a folder")
    judge_place(path)


def judge_place(path):
    """What is written stands in a folder that is there."""
    if not os.path.isdir(os.path.dirname(os.path.realpath(path))):
        raise Stop(UNABLE, f"{shown(path)}: can't be written: there is no folder {shown(os.path.dirname(path))}")


def write(path, data):
    """Writes a file whole or not at all: a plain file is replaced once all of it is written."""
    real = os.path.realpath(path)
    try:
        if os.path.exists(real) and not stat.S_ISREG(os.stat(real).st_mode):
            with open(real, "wb") as out:
                out.write(data)
            return
        replace({real: data})
    except (OSError, ValueError) as error:
        raise Stop(UNABLE, f"{shown(path)}: can't be written: {reason(error)}") from None


def write_in(folder, contents):
    """Writes plain files, by their names, into a folder, which is made where it is not there: all of them, or none."""
    is_new = not os.path.isdir(folder)
    try:
        if is_new:
            os.mkdir(folder)
        replace({os.path.realpath(os.path.join(folder, name)): data for name, data in contents.items()})
    except (OSError, ValueError) as error:
        if is_new:
            with contextlib.suppress(OSError):
                os.rmdir(folder)
        raise Stop(UNABLE, f"{shown(folder)}: can't be written: {reason(error)}") from None


def replace(contents):
    """Puts plain files in their places once all of them are written."""
    scratches = {}
    try:
        for real, data in contents.items():
            mode = os.stat(real).st_mode & 0o777 if os.path.exists(real) else 0o666 & ~umask()
            handle, scratches[real] = tempfile.mkstemp(dir=os.path.dirname(real), prefix=".mend-")
            with os.fdopen(handle, "wb") as out:
                out.write(data)
            os.chmod(scratches[real], mode)
        for real, scratch in scratches.items():
            os.replace(scratch, real)
    except BaseException:
        for scratch in scratches.values():
            with contextlib.suppress(OSError):
                os.unlink(scratch)
        raise


def umask():
    mask = os.umask(0)
    os.umask(mask)
    return mask
