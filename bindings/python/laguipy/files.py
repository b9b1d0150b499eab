"""The files that a program reads and writes: read up to a limit, so that none fills the memory, and written whole or
not at all. `-` is standard input or output."""
import os
import stat
import sys
import tempfile

from .errors import InputError, UsageError
from .limits import READ_BYTES
from .output import RunError

STANDARD = "-"


def named(path):
    """A file that is read, for a reader."""
    return "standard input" if path == STANDARD else path or "''"


def of(path, action):
    """The action's result; its trouble is one of this file."""
    try:
        return action()
    except InputError as trouble:
        raise trouble.at(named(path)) from None


def at_most_one_standard(*paths):
    """Refuses words that would read standard input twice."""
    if paths.count(STANDARD) > 1:
        raise UsageError("only one file can be standard input")


def why(error):
    """What went wrong with a file: a path with a NUL byte is a ValueError."""
    return getattr(error, "strerror", None) or error


# ---- reading


def read_some(path, most):
    """The bytes of a file or of standard input; where there are more than `most`, one more than these."""
    try:
        if path != STANDARD:
            with open(path, "rb") as file:
                return file.read(most + 1)
        if sys.stdin is None:
            raise InputError("cannot be read: it is closed")
        return sys.stdin.buffer.read(most + 1)
    except (OSError, ValueError) as error:
        raise InputError(f"cannot be read: {why(error)}") from None


def read_bytes(path):
    """All bytes of a file or of standard input."""
    data = read_some(path, READ_BYTES)
    if len(data) > READ_BYTES:
        raise InputError(f"it has over {READ_BYTES} bytes, which is too long for a text or a folder")
    return data


def load(path):
    """All bytes of a file or of standard input; what is wrong with it is told of this file."""
    return of(path, lambda: read_bytes(path))


def load_text(path):
    """The text of a file or of standard input."""
    return of(path, lambda: decoded(read_bytes(path)))


def decoded(data):
    """The text of these bytes."""
    try:
        text = data.decode("utf-8-sig")
    except UnicodeDecodeError:
        text = "\0"
    if "\0" in text:
        raise InputError("this is not UTF-8 text, or it is a folder")
    return text


def passing(path):
    """Whether a file's bytes come only once, as those of standard input, a pipe or a terminal do."""
    try:
        mode = None if path == STANDARD else os.stat(path).st_mode
    except (OSError, ValueError):
        return False
    return mode is None or not (stat.S_ISREG(mode) or stat.S_ISDIR(mode))


# ---- writing


def save(path, data, sources):
    """Writes a file, whole or not at all, so that nothing is lost where there is no room."""
    try:
        real = os.path.realpath(path)
        if real in [os.path.realpath(source) for source in sources if source != STANDARD]:
            raise UsageError(f"{path} would be written over its own source")
        if os.path.exists(real) and not os.path.isfile(real):
            with open(real, "wb") as file:
                file.write(data)
        else:
            replace(real, data)
    except (OSError, ValueError) as error:
        raise RunError(f"{named(path)}: cannot be written: {why(error)}") from None


def replace(path, data):
    """Puts a new file in the place of an old one, if there is one."""
    handle, new = tempfile.mkstemp(dir=os.path.dirname(path), prefix=".laguipy-")
    try:
        with os.fdopen(handle, "wb") as file:
            file.write(data)
        os.chmod(new, permissions(path))
        os.replace(new, path)
    except BaseException:
        os.unlink(new)
        raise


def permissions(path):
    """Those of the file that is replaced, or a new file's."""
    try:
        return stat.S_IMODE(os.stat(path).st_mode)
    except OSError:
        mask = os.umask(0)
        os.umask(mask)
        return 0o666 & ~mask
