"""Expressions: text to entries, entries to text, and the range, sort and depth of each."""
from .errors import InputError
from .folder import as_signed, two
from .limits import FARTHEST
from .text import NAME, RESERVED

NUMBER, TRUTH = "a number", "a truth"

(CONSTANT, VARIABLE, ADD, SUBTRACT, MULTIPLY, SMALLER, LARGER, IF, EQUAL, LESS, AT_MOST, NOT, AND, OR, TRUE) = range(15)
ARITHMETIC = (ADD, SUBTRACT, MULTIPLY, SMALLER, LARGER)

SUMS = {"+": ADD, "-": SUBTRACT}
CALLS = {"smaller": SMALLER, "larger": LARGER}
# The operation, and whether the sides change places.
COMPARISONS = {
    "=": (EQUAL, False),
    "<": (LESS, False),
    "<=": (AT_MOST, False),
    ">": (LESS, True),
    ">=": (AT_MOST, True),
    "!=": (EQUAL, False),
}
OTHER_CALLS = {"min": "smaller", "max": "larger"}


def sort_of(operation):
    """The sort of an operation, by its number; None for an unknown one."""
    return NUMBER if operation <= IF else TRUTH if operation <= TRUE else None


def parts_of(operation):
    """The sorts of an operation's parts; none for an operation whose fields are no entries."""
    if operation in ARITHMETIC or operation in (EQUAL, LESS, AT_MOST):
        return (NUMBER, NUMBER)
    return {IF: (TRUTH, NUMBER, NUMBER), NOT: (TRUTH,), AND: (TRUTH, TRUTH), OR: (TRUTH, TRUTH)}.get(operation, ())


def used_fields(operation):
    """How many of an entry's three fields its operation uses."""
    return len(parts_of(operation)) or (1 if operation in (CONSTANT, VARIABLE) else 0)


# ---- text to entries


class Entries:
    """The entries of a model, each an operation and three fields, and the line that each was made for."""

    def __init__(self):
        self.all = []
        self.lines = []
        self.first = {}

    def add(self, line, *fields):
        for field in fields:
            two(field, "an entry's number")
        number = len(self.all)
        self.all.append(fields)
        self.lines.append(line)
        self.first.setdefault(fields, number)
        return number

    def share(self, line, operation, a=0, b=0, c=0):
        """The lowest entry with these fields, made if there is none."""
        fields = (operation, a, b, c)
        return self.first[fields] if fields in self.first else self.add(line, *fields)


class Expressions:
    """Reads expressions off a line. Each comes as its entry and its sort; one that is written raw has no sort."""

    def __init__(self, entries, variables, named, line):
        self.entries = entries
        self.variables = variables
        self.named = named
        self.line = line

    def share(self, *fields):
        return self.entries.share(self.line.number, *fields)

    def of_sort(self, part, sort, what):
        if part[1] not in (sort, None):
            raise InputError(f"{what} must be {sort}, and is {part[1]}", self.line.number)
        return part[0]

    def number(self, what):
        return self.of_sort(self.whole(), NUMBER, what)

    def truth(self, what):
        return self.of_sort(self.whole(), TRUTH, what)

    def whole(self):
        if not self.line.has("if"):
            return self.disjunction()
        condition = self.truth("the condition of 'if'")
        self.line.expect("then")
        yes = self.number("what follows 'then'")
        self.line.expect("else")
        no = self.number("what follows 'else'")
        return self.share(IF, condition, yes, no), NUMBER

    def disjunction(self):
        return self.chain({"or": OR}, TRUTH, self.conjunction)

    def conjunction(self):
        return self.chain({"and": AND}, TRUTH, self.negation)

    def negation(self):
        if not self.line.has("not"):
            return self.comparison()
        return self.share(NOT, self.of_sort(self.negation(), TRUTH, "what follows 'not'")), TRUTH

    def comparison(self):
        left = self.sum()
        sign = self.line.has(*COMPARISONS)
        if not sign:
            return left
        operation, turned = COMPARISONS[sign]
        a = self.of_sort(left, NUMBER, f"the left side of {sign!r}")
        b = self.of_sort(self.sum(), NUMBER, f"the right side of {sign!r}")
        if self.line.peek() in COMPARISONS:
            raise InputError(
                "comparisons do not chain: join them with 'and', as in 0 <= x and x <= 2", self.line.number
            )
        compared = self.share(operation, *((b, a) if turned else (a, b)))
        return (self.share(NOT, compared) if sign == "!=" else compared), TRUTH

    def sum(self):
        return self.chain(SUMS, NUMBER, self.product)

    def product(self):
        return self.chain({"*": MULTIPLY}, NUMBER, self.atom)

    def chain(self, operations, sort, part):
        """Parts joined by these operations, from left to right."""
        left = part()
        while True:
            sign = self.line.has(*operations)
            if not sign:
                return left
            a = self.of_sort(left, sort, f"the left side of {sign!r}")
            b = self.of_sort(part(), sort, f"the right side of {sign!r}")
            left = self.share(operations[sign], a, b), sort

    def atom(self):
        line = self.line
        if line.peek() == "-" and not line.next()[:1].isdigit():
            part = line.next() if NAME.match(line.next()) else "x"
            raise InputError(f"only a number has a sign: write (0 - {part}) for -{part}", line.number)
        if line.at_number() or line.peek() == "-":
            return self.share(CONSTANT, line.signed_field("a constant") % 65536), NUMBER
        if line.has("("):
            inner = self.whole()
            line.expect(")")
            return inner
        if line.has("@"):
            return line.field("an entry's number"), None
        if line.has("true"):
            return self.share(TRUE), TRUTH
        if line.has("false"):
            return self.share(NOT, self.share(TRUE)), TRUTH
        if line.has("raw"):
            return self.entries.add(line.number, *self.arguments(4, self.raw_field)), None
        call = line.has(*CALLS)
        if call:
            parts = self.arguments(2, lambda: self.number(f"a part of {call!r}"))
            return self.share(CALLS[call], *parts), NUMBER
        return self.named_part()

    def named_part(self):
        line = self.line
        if line.peek() == "if":
            raise InputError("an 'if' inside an expression stands in brackets: (if t then x else y)", line.number)
        if line.peek() in RESERVED or not line.at_name():
            line.fail("an expression")
        name = line.peek()
        if name in self.named:
            line.take()
            return self.named[name]
        if name not in self.variables:
            hint = f": write {OTHER_CALLS[name]!r}" if name in OTHER_CALLS and line.next() == "(" else ""
            raise InputError(f"there is no variable {name!r}{hint}", line.number)
        line.take()
        return self.share(VARIABLE, self.variables[name]), NUMBER

    def arguments(self, count, part):
        self.line.expect("(")
        parts = [part()]
        while len(parts) < count:
            self.line.expect(",")
            parts.append(part())
        self.line.expect(")")
        return parts

    def raw_field(self):
        if self.line.peek() == "-":
            return self.line.signed_field("a field") % 65536
        return self.line.field("a field")


# ---- entries to text

# An expression that is longer than this is referred to by its number.
LONGEST = 40
# How tight an operation binds, and its sign.
SIGNS = {
    ADD: (5, "+"),
    SUBTRACT: (5, "-"),
    MULTIPLY: (6, "*"),
    EQUAL: (4, "="),
    LESS: (4, "<"),
    AT_MOST: (4, "<="),
    AND: (2, "and"),
    OR: (1, "or"),
}
COMPARED = 4  # how tight a comparison binds: its own sides must bind tighter
ATOM = 7


class EntryTexts:
    """For each entry its text and how tight it binds; None where it can only be written raw."""

    def __init__(self, entries, names):
        self.entries = entries
        self.names = names
        self.all = []
        first = {}
        for k, entry in enumerate(entries):
            self.all.append(self.text(k, entry) if first.setdefault(entry, k) == k else None)

    def part(self, p, tightness):
        text, own = self.all[p] or ("", 0)
        if not text or len(text) > LONGEST:
            return f"@{p}"
        return text if own >= tightness else f"({text})"

    def text(self, k, entry):
        operation, fields = entry[0], entry[1:]
        sorts = parts_of(operation)
        if any(fields[used_fields(operation) :]):
            return None
        if any(p >= k or sort_of(self.entries[p][0]) != sort for p, sort in zip(fields, sorts)):
            return None
        if operation == VARIABLE:
            return (self.names[fields[0]], ATOM) if fields[0] < len(self.names) else None
        return self.operation_text(operation, *fields)

    def operation_text(self, operation, a, b, c):
        if operation == CONSTANT:
            return str(as_signed(a)), ATOM
        if operation in (SMALLER, LARGER):
            return f"{'smaller' if operation == SMALLER else 'larger'}({self.part(a, 0)}, {self.part(b, 0)})", ATOM
        if operation == IF:
            return f"if {self.part(a, 1)} then {self.part(b, 1)} else {self.part(c, 1)}", 0
        if operation == NOT:
            return f"not {self.part(a, 3)}", 3
        if operation == TRUE:
            return "true", ATOM
        if operation not in SIGNS:
            return None
        tightness, sign = SIGNS[operation]
        return f"{self.part(a, tightness + (tightness == COMPARED))} {sign} {self.part(b, tightness + 1)}", tightness

    def use(self, k, sort):
        """Entry k where one of this sort is wanted: its text if it is short and of that sort, else its number."""
        fits = k < len(self.entries) and self.all[k] and sort_of(self.entries[k][0]) == sort
        return self.all[k][0] if fits and len(self.all[k][0]) <= LONGEST else f"@{k}"

    def told(self, k):
        """Entry k for a reader: its text, whatever its sort, or its number."""
        return self.all[k][0] if k < len(self.all) and self.all[k] else f"expression {k}"


# ---- depth and range


def depths(entries):
    """The depth of each entry: a leaf has 1. Parts that are not lower count as 0."""
    found = []
    for k, entry in enumerate(entries):
        parts = entry[1 : 1 + len(parts_of(entry[0]))]
        found.append(1 + max((found[p] for p in parts if p < k), default=0))
    return found


def ranges(entries, variables):
    """The range of each entry, worked out from those of its parts, which are lower and right; a truth has none. They
    end with the first that leaves the limits, so that no number grows far past them."""
    found = []
    for operation, a, b, c in entries:
        if operation == CONSTANT:
            found.append((as_signed(a), as_signed(a)))
        elif operation == VARIABLE:
            found.append((variables[a].low, variables[a].high))
        elif operation in ARITHMETIC:
            found.append(combined(operation, found[a], found[b]))
        elif operation == IF:
            found.append((min(found[b][0], found[c][0]), max(found[b][1], found[c][1])))
        else:
            found.append(None)
        if found[-1] and not -FARTHEST <= found[-1][0] <= found[-1][1] <= FARTHEST:
            break
    return found


def combined(operation, left, right):
    """The range of an operation on two ranges."""
    (a, b), (c, d) = left, right
    if operation == ADD:
        return a + c, b + d
    if operation == SUBTRACT:
        return a - d, b - c
    if operation == MULTIPLY:
        ends = (a * c, a * d, b * c, b * d)
        return min(ends), max(ends)
    pick = min if operation == SMALLER else max
    return pick(a, c), pick(b, d)
