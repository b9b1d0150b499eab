"""How a program of this package ends: what it writes, what it says when something is wrong, and its exit status."""
import errno
import os
import sys
import time
import traceback

from .errors import InputError, UsageError

# Exit statuses.
DONE = 0  # accepted, or done
REFUSED = 1  # refused, or an input cannot be read
USAGE = 2
FAILED = 3  # not proved, could not run, or the output cannot be written
INTERRUPTED = 130
CLOSED = 141  # whoever read the output has gone, as `head` does


class OutputError(Exception):
    """Standard output cannot be written."""

    def __init__(self, error):
        super().__init__(error.strerror)
        self.quiet = isinstance(error, BrokenPipeError)


class RunError(Exception):
    """The program cannot do its work: not proved, or a part of it is missing."""


def emit(*pieces):
    """Writes pieces of text or bytes to standard output, at once. An interrupt cuts no piece that the buffer holds."""
    try:
        if sys.stdout is None:
            raise OSError(errno.EBADF, os.strerror(errno.EBADF))
        stream = getattr(sys.stdout, "buffer", None)
        for data in pieces:
            if stream is None:
                sys.stdout.write(data if isinstance(data, str) else data.decode())
            else:
                stream.write(data.encode() if isinstance(data, str) else data)
        if stream is not None:
            stream.flush()
    except OSError as error:
        raise OutputError(error) from None


def plain(text):
    """Text in one line. What is no letter or sign, as the name of a file may have it, stands as Python writes it."""
    return "".join(c if c.isprintable() else c.encode("unicode_escape").decode() for c in str(text))


def say(program, message):
    """A line for whoever started the program. Where even that cannot be written, the status tells."""
    if sys.stderr is None:  # closed; print would take standard output
        return
    try:
        print(plain(f"{program}: {message}" if program else message), file=sys.stderr, flush=True)
    except (OSError, ValueError):
        pass


def say_error(program, error):
    """What is wrong with an input: FILE:LINE: first, as editors read it, where it is of a file."""
    say("" if error.placed else program, error.message)


def discard_output():
    """What is left in standard output's buffer goes nowhere, so that nothing is said of it at exit."""
    try:
        null = os.open(os.devnull, os.O_WRONLY)
        os.dup2(null, 1)
        os.close(null)
    except OSError:
        pass


def guarded(program, action):
    """The exit status of an action. Whatever goes wrong is told in a line; no input gives a traceback."""
    try:
        return action()
    except InputError as error:
        say_error(program, error)
        return REFUSED
    except UsageError as error:
        say(program, error)
        return USAGE
    except RunError as error:
        say(program, error)
        return FAILED
    except OutputError as error:
        discard_output()
        if error.quiet:
            return CLOSED
        say(program, f"the output cannot be written: {error}")
        return FAILED
    except KeyboardInterrupt:
        return INTERRUPTED
    except Exception as error:  # a fault of this package, not of the input
        if os.environ.get("LAGUIPY_DEBUG"):
            traceback.print_exc()
        say(program, f"a fault of this program: {type(error).__name__}: {error} (LAGUIPY_DEBUG=1 shows where)")
        return FAILED


def is_terminal(stream):
    return stream is not None and stream.isatty()


class Ticker:
    """How far a long work has come, on standard error: on a terminal a line each second, which is gone at the end;
    elsewhere a line each half minute. Nothing where output comes meanwhile and is seen to."""

    SECONDS = {True: 1, False: 30}

    def __init__(self, program="laguipy", output=True):
        self.program = program
        self.live = is_terminal(sys.stderr)
        self.silent = output and is_terminal(sys.stdout)
        self.last = time.monotonic()
        self.shown = False

    def due(self):
        """Whether it is time to tell."""
        return not self.silent and time.monotonic() - self.last >= self.SECONDS[self.live]

    def tell(self, words):
        self.last, self.shown = time.monotonic(), True
        if self.live:
            self.show(f"\r{self.program}: {words} \033[K")
        else:
            say(self.program, words)

    def __enter__(self):
        return self

    def __exit__(self, *_):
        if self.live and self.shown:
            self.show("\r\033[K")

    def show(self, text):
        try:
            print(text, end="", file=sys.stderr, flush=True)
        except (OSError, ValueError):
            pass
