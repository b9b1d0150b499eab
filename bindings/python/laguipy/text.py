"""What the text forms of models and graphs have in common: lines, tokens, names, and what may be written raw."""
import re
import struct

from .errors import InputError
from .folder import signed, unsigned

WORD = "[0-9][0-9_]*|[A-Za-z_][A-Za-z0-9_]*"
SLIP = "==|&&?|[|]{1,2}|[!./%\u2264\u2265\u2260]"
TOKEN = re.compile(rf"\s*(?:{WORD}|\.\.|<=|>=|!=|{SLIP}|[-+*=<>(),:@'])")
NAME = re.compile(r"[A-Za-z_][A-Za-z0-9_]*\Z")

# What other notations have, and what to write here.
CONJUNCTION = "write 'and', or a comma between new values"
FRACTION = "numbers are whole; weights are out of 'total', values are units of S"
SLIPS = {
    "==": "write '='",
    "&&": CONJUNCTION,
    "&": CONJUNCTION,
    "||": "write 'or'",
    "|": "write 'or'",
    "!": "write 'not'",
    ".": FRACTION,
    "/": FRACTION,
    "%": FRACTION,
    "\u2264": "write '<='",
    "\u2265": "write '>='",
    "\u2260": "write '!='",
}

CLAUSES = {"by", "value", "tracks", "state", "edges", "set", "label"}
RESERVED = (
    {"if", "then", "else", "and", "or", "not", "true", "false", "smaller", "larger", "raw", "branches", "none", "S"}
    | CLAUSES
    | {"total", "variable", "variables", "let", "entries", "target", "command", "node", "edge", "bytes", "contents"}
)

DIGITS = 20  # of the longest number that is read


class Line:
    """The tokens of a line, read from left to right. One that goes on comes as several pieces, (number, text)."""

    def __init__(self, pieces):
        self.text = pieces[0][1]
        self.tokens = []
        self.numbers = []  # the line of each token
        self.at = 0
        for number, text in pieces:
            self.split(number, text.rstrip())

    def split(self, number, text):
        at = 0
        while at < len(text):
            match = TOKEN.match(text, at)
            if match is None:
                raise InputError(f"unexpected character {text[at:].lstrip()[0]!r}", number)
            token = match.group().strip()
            if token in SLIPS:
                raise InputError(f"{token!r} is not known: {SLIPS[token]}", number)
            self.tokens.append(token)
            self.numbers.append(number)
            at = match.end()

    @property
    def first(self):
        """The number of the line, or of the first piece of one that goes on."""
        return self.numbers[0]

    @property
    def number(self):
        return self.numbers[min(self.at, len(self.numbers) - 1)]

    def joined(self, at):
        """Says so where the token there is the first of a line that continues another."""
        if 0 < at < len(self.tokens) and self.numbers[at - 1] != self.numbers[at]:
            return f"; line {self.numbers[at - 1]} ends in a comma, so this line continues it"
        return ""

    def next(self):
        """The token after the one that is next."""
        return self.tokens[self.at + 1] if self.at + 1 < len(self.tokens) else ""

    def peek(self):
        return self.tokens[self.at] if self.at < len(self.tokens) else ""

    def take(self):
        token = self.peek()
        self.at += 1
        return token

    def has(self, *tokens):
        """Takes the next token if it is one of these, and returns it."""
        return self.take() if self.peek() in tokens and self.peek() else ""

    def fail(self, wanted):
        found = f"and here is {self.peek()!r}" if self.peek() else "and the line ends"
        raise InputError(f"{wanted} is wanted, {found}{self.joined(self.at)}", self.number)

    def expect(self, token):
        if not self.has(token):
            self.fail(repr(token))

    def end(self):
        if self.peek():
            self.fail("the end of the line")

    def at_number(self):
        return self.peek()[:1].isdigit()

    def number_here(self, what):
        """A whole number, perhaps negative."""
        minus = self.has("-")
        if not self.at_number():
            self.fail(what)
        digits = self.take().replace("_", "")
        if len(digits) > DIGITS:
            raise InputError(f"{what} is too large", self.number)
        return -int(digits) if minus else int(digits)

    def field(self, what, size=2, rule=None):
        """An unsigned field."""
        value = self.number_here(what)
        unsigned(value, size, what, rule)
        return value

    def signed_field(self, what, rule=None):
        value = self.number_here(what)
        signed(value, what, rule)
        return value

    def at_name(self):
        return NAME.match(self.peek()) is not None

    def name(self, what):
        if not self.at_name():
            self.fail(what)
        return self.take()

    def new_name(self, what, taken):
        name = self.name(what)
        if name in RESERVED:
            raise InputError(f"{name!r} is a word of the text form: choose another name", self.number)
        if name in taken:
            raise InputError(f"there is a {name!r} already", self.number)
        return name


def lines_of(text):
    """The lines that say something, without comments, each as its pieces; one that ends in a comma goes on."""
    held = []
    for number, line in enumerate(re.split("\r\n?|\n", text.replace("\u2212", "-")), 1):
        line = line.split("#", 1)[0].rstrip()
        if not line.strip():
            continue
        held.append((number, line))
        if not line.endswith(","):
            yield held
            held = []
    if held:
        raise InputError("the text ends after a comma", held[-1][0])


class Reader:
    """A text form: lines by their first word, raw bytes, contents as given."""

    def __init__(self, bodies, words):
        self.extra = {name: b"" for name in bodies}
        self.given = set()
        self.contents = {}
        self.bodies = bodies
        self.words = words

    def read(self, text):
        for pieces in lines_of(text):
            line, words = None, " ".join(text for _, text in pieces).split()
            try:
                if words[0] == "bytes":
                    self.bytes(words[1:])
                    continue
                line = Line(pieces)
                if line.has("contents"):
                    self.entry(line)
                else:
                    self.line(line)
                line.end()
            except (InputError, RecursionError) as error:
                trouble = error if isinstance(error, InputError) else InputError("the expression is nested too deep")
                number = trouble.line or (line.number if line else pieces[0][0])
                raise InputError(trouble.message, number) from None

    def bytes(self, words):
        if not words or words[0] not in self.extra:
            raise InputError("'bytes' wants a body: " + ", ".join(self.bodies))
        self.given.add(words[0])
        digits = "".join(words[1:])
        if len(digits) % 2 or not re.fullmatch("[0-9a-fA-F]*", digits):
            raise InputError("bytes are pairs of hexadecimal digits")
        self.extra[words[0]] += bytes.fromhex(digits)

    def entry(self, line):
        number = line.number_here("the number of a contents entry")
        if not 0 <= number < len(self.bodies):
            raise InputError(f"there is no contents entry {number}: they are 0 to {len(self.bodies) - 1}")
        self.contents[number] = struct.pack("<II", line.field("the start", 4), line.field("the length", 4))

    def unknown(self, line):
        first = line.peek() or line.text.strip()
        raise InputError(f"a line may not start with {first!r}: it starts with one of " + ", ".join(self.words))


# ---- printing

# A line is broken after a comma past this.
WIDEST = 100


def commented(line, comment):
    return f"{line:<40}  # {comment}"


def wrapped(head, items, indent):
    """The head and the items with commas between, over as many lines as it takes."""
    lines, now = [], head
    for i, item in enumerate(items):
        word = item + ("," if i + 1 < len(items) else "")
        if now != head and len(now) + 1 + len(word) > WIDEST:
            lines.append(now)
            now = indent + word
        else:
            now += " " + word
    return lines + [now]


def hex_lines(name, body, needed=False):
    lines = [f"bytes {name} {body[at : at + 24].hex(' ')}" for at in range(0, len(body), 24)]
    return lines or ([f"bytes {name}"] if needed else [])
