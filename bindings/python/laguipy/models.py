"""Models: text to folder, and folder to text. `TEXT` has the text form."""
import struct

from .errors import InputError, counted
from .expressions import NUMBER, TRUTH, VARIABLE, Entries, EntryTexts, Expressions
from .folder import MODEL_BODIES, folder, read_model, two
from .limits import LEAST_BOUND, MOST_BOUND, MOST_BRANCHES
from .names import Names, names_for
from .text import RESERVED, Reader, commented, hex_lines, wrapped

TEXT = """\
THE MODEL

  total 10                        D: the weights of each command total it
  variable a 0..3 = 0             range and initial value; variables stand before the first command
  variable d 0..1 = 0
  target a = 2                    a state is a target where this holds
  command scan: a < 2             a name if you like, a guard, and below it the branches: the weight, then new values
    9: a' = 3, d' = d
    1: a' = smaller(a + 1, 2)     a variable that is not assigned keeps its value
  command a = 0
    10: d' = 1 - d                the right sides read the old state

  Numbers    17  -4  a  x + y  x - y  x * y  smaller(x, y)  larger(x, y)  if t then x else y
  Truths     x = y  x < y  x <= y  not t  t and u  t or u  true
             x > y is y < x, x >= y is y <= x, x != y is not x = y, false is not true
  From loose to tight: if, or, and, not, comparisons, + and -, *. Brackets as usual.

  let near = a + 1                a name for an expression
  entries a, d, 2, a < 2          give these expressions their entries now, in this order

An expression becomes one entry for each of its operations, parts first; one that is there already is shared. A line
that ends in a comma goes on in the next.
"""

# What the rules allow, where a field has room for more.
BOUND = (LEAST_BOUND, MOST_BOUND)
WEIGHT = (1, 65_535)
BRANCHES = (1, MOST_BRANCHES)


# ---- text to folder


class Lines:
    """At which line of a model's text each thing stands."""

    def __init__(self):
        self.total = self.target = None
        self.variables, self.commands, self.branches = [], [], []
        self.expressions = []

    def of(self, subject):
        """The line of a subject, as ('variable', 2); None where the text has none."""
        kind, *number = subject or ("",)
        if kind in ("total", "target"):
            return getattr(self, kind)
        found = {"variable": self.variables, "command": self.commands, "branch": self.branches}
        listed = found.get(kind, self.expressions if kind == "expression" else [])
        return listed[number[0]] if number and number[0] < len(listed) else None


class ModelText(Reader):
    WORDS = ("total", "variable", "target", "command", "a branch's weight", "let", "entries", "bytes", "contents")

    def __init__(self):
        super().__init__(MODEL_BODIES, self.WORDS)
        self.total = self.target = None
        self.variables = {}
        self.bounds = []
        self.entries = Entries()
        self.named = {}
        self.command_names = []  # a name, or None
        self.guards = []
        self.counts = []  # as given, or None
        self.below = []  # branches below each command
        self.branches = []
        self.lines = Lines()
        self.lines.expressions = self.entries.lines

    def expressions(self, line):
        return Expressions(self.entries, self.variables, self.named, line)

    def line(self, line):
        if line.at_number():
            self.branch(line)
        elif line.has("total"):
            self.once(self.total, "total")
            self.lines.total = line.first
            self.total = line.field("the total", rule=WEIGHT)
        elif line.has("target"):
            self.once(self.target, "target")
            self.lines.target = line.first
            self.target = self.expressions(line).truth("the target")
        elif line.has("variable"):
            self.variable(line)
        elif line.has("command"):
            self.command(line)
        elif line.has("let"):
            name = line.new_name("a name", {*self.variables, *self.named})
            line.expect("=")
            self.named[name] = self.expressions(line).whole()
        elif line.has("entries"):
            self.expressions(line).whole()
            while line.has(","):
                self.expressions(line).whole()
        else:
            self.unknown(line)

    def once(self, held, word):
        if held is not None:
            raise InputError(f"there is a {word!r} line already")

    def command(self, line):
        name = None
        if line.next() == ":":
            name = line.new_name("a command's name", self.command_names)
            line.expect(":")
        self.guards.append(self.expressions(line).truth("a guard"))
        self.counts.append(line.field("the branch count", rule=BRANCHES) if line.has("branches") else None)
        self.command_names.append(name)
        self.lines.commands.append(line.first)
        self.below.append(0)

    def variable(self, line):
        if self.guards:
            raise InputError("variables stand before the first command")
        name = line.new_name("a variable's name", {*self.variables, *self.named})
        low = line.signed_field("the low bound", BOUND)
        line.expect("..")
        high = line.signed_field("the high bound", BOUND)
        line.expect("=")
        self.variables[name] = len(self.variables)
        self.bounds.append(struct.pack("<3h", low, high, line.signed_field("the initial value", BOUND)))
        self.lines.variables.append(line.first)

    def branch(self, line):
        if not self.guards:
            raise InputError("a branch stands below its command")
        weight = two(line.field("the weight", rule=WEIGHT), "the weight")
        line.expect(":")
        assigned = self.assignments(line)
        for name, index in self.variables.items():
            if name not in assigned:
                assigned[name] = self.entries.share(line.first, VARIABLE, index)
        self.below[-1] += 1
        self.branches.append(weight + b"".join(two(assigned[name], "an entry's number") for name in self.variables))
        self.lines.branches.append(line.first)

    def assignments(self, line):
        """The new values that a branch gives, by the variable's name."""
        assigned = {}
        while line.at_name() or assigned:
            name = line.name("a variable's name")
            if name not in self.variables:
                joined = line.joined(line.at - 1) if name in RESERVED else ""
                raise InputError(f"there is no variable {name!r}{joined}")
            if name in assigned:
                raise InputError(f"{name!r} is assigned twice")
            if not line.has("'"):
                line.fail(f"a new value, {name}' = ...,")
            line.expect("=")
            assigned[name] = self.expressions(line).number(f"the new value of {name!r}")
            if not line.has(","):
                break
        return assigned

    def bodies_written(self):
        terms = [field for field in (self.total, self.target) if field is not None]
        if len(terms) < 2 and (terms or "terms" not in self.given):
            raise InputError(f"there is no {'total' if self.total is None else 'target'!r} line")
        commands = [
            two(guard, "the guard's entry") + two(below if count is None else count, "the branch count")
            for guard, count, below in zip(self.guards, self.counts, self.below)
        ]
        written = [
            [two(field, "the target's entry") for field in terms],
            self.bounds,
            [struct.pack("<4H", *entry) for entry in self.entries.all],
            commands,
            self.branches,
        ]
        return [b"".join(body) + self.extra[name] for name, body in zip(MODEL_BODIES, written)]


class WrittenModel:
    """What a model's text gives: the folder, the names, and at which line each thing stands."""

    def __init__(self, reader):
        self.data = folder(reader.bodies_written(), reader.contents)
        self.names = Names(list(reader.variables), reader.command_names)
        self.lines = reader.lines
        self.counts = [(len(reader.variables), "variable"), (len(reader.entries.all), "expression")]
        self.counts += [(len(reader.guards), "command"), (len(reader.branches), "branch")]

    @property
    def told(self):
        """What is in it, for a reader."""
        return ", ".join(counted(*pair) for pair in self.counts) + f"; {counted(len(self.data), 'byte')}"


def write_model(text):
    """The model of a text."""
    reader = ModelText()
    reader.read(text)
    return WrittenModel(reader)


# ---- folder to text


def entries_lines(entries, texts):
    """The entries in their order, some to a line, with their numbers."""
    rows, width = [], 0
    for k, entry in enumerate(entries):
        item = texts[k][0] if texts[k] else "raw({}, {}, {}, {})".format(*entry)
        if not rows or width + len(item) > 56:
            rows.append((k, []))
            width = 0
        rows[-1][1].append(item)
        width += len(item) + 2
    lines = []
    for start, items in rows:
        end = start + len(items) - 1
        numbers = f"entry {start}" if start == end else f"entries {start} to {end}"
        lines.append(commented("entries " + ", ".join(items), numbers))
    return lines


def variable_lines(variables, names):
    lines = []
    for v, (low, high, initial) in enumerate(variables):
        lines.append(commented(f"variable {names.variables[v]} {low}..{high} = {initial}", f"variable {v}"))
    return lines


def command_lines(model, names, texts):
    """The commands, each with its branches below it; the last one has all that are left."""
    found, at = [], 0
    for c, (guard, count) in enumerate(model.commands):
        last = c + 1 == len(model.commands)
        there = len(model.branches) - at if last else min(count, len(model.branches) - at)
        name = f" {names.commands[c]}:" if names.commands[c] else ""
        given = f" branches {count}" if there != count else ""
        found.append(commented(f"command{name} {texts.use(guard, TRUTH)}{given}", f"command {c}"))
        for r in range(at, at + there):
            branch = model.branches[r]
            items = [f"{names.variables[v]}' = {texts.use(e, NUMBER)}" for v, e in enumerate(branch.assigned)]
            lines = wrapped(f"  {branch.weight}:", items, "    ")
            found += lines[:-1] + [commented(lines[-1], f"branch record {r}")]
        at += there
    return found


def show_model(data, names=None, entries_too=False):
    """The text of a model folder whose table of contents is right; it gives the same bytes again."""
    model = read_model(data)
    if model.branches and not model.commands:
        # No command has them: they are left as bytes.
        loose = b"".join(struct.pack(f"<{1 + len(b.assigned)}H", b.weight, *b.assigned) for b in model.branches)
        model = model._replace(branches=[], rest=model.rest[:4] + [loose + model.rest[4]])
    names = names_for(model, names)
    texts = EntryTexts(model.entries, names.variables)
    head = [f"total {total}" for total, _ in model.terms] + variable_lines(model.variables, names)
    rest = [f"target {texts.use(target, TRUTH)}" for _, target in model.terms]
    rest += command_lines(model, names, texts)
    for name, left in zip(MODEL_BODIES, model.rest):
        rest += hex_lines(name, left, name == "terms" and not model.terms)

    short = "\n".join(head + rest) + "\n"
    if not entries_too and "@" not in short and write_model(short).data == data:
        return short
    return "\n".join(head + entries_lines(model.entries, texts.all) + rest) + "\n"
