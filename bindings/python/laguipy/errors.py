"""What is wrong with an input that is not a folder of the right form, or not text of the right form."""


class InputError(Exception):
    """What is wrong, and at which line of the text, if it is text."""

    placed = False  # whether the message starts with the file, and the line

    def __init__(self, message, line=None):
        super().__init__(message)
        self.message = message
        self.line = line

    def at(self, path):
        """The same, told of this file; one that names its file stays as it is."""
        if self.placed:
            return self
        where = f"{path}:{self.line}" if self.line else str(path)
        found = InputError(f"{where}: {self.message}")
        found.placed = True
        return found


class UsageError(Exception):
    """The words that a command was given do not fit it."""


def counted(count, word):
    """So many of these: `1 branch`, `2 branches`."""
    return f"{count} {word}" + ("" if count == 1 else "es" if word == "branch" else "s")


def length_told(length, most):
    """So many bytes; one that is too long may have been read in part."""
    return f"over {most} bytes" if length > most else counted(length, "byte")
