"""The rules of a model folder, rows 1 to 11 of the refusals, for explaining: what is there and what is asked."""
from .errors import counted, length_told
from .expressions import (
    CONSTANT,
    NUMBER,
    TRUE,
    TRUTH,
    VARIABLE,
    EntryTexts,
    depths,
    parts_of,
    ranges,
    sort_of,
    used_fields,
)
from .findings import Finding
from .folder import (
    COMMAND_SIZE,
    ENTRY_SIZE,
    MODEL_BODIES,
    TERMS_SIZE,
    VARIABLE_SIZE,
    bodies_of,
    branch_size,
    contents_fault,
    read_model,
)
from .limits import (
    DEEPEST,
    FARTHEST,
    LEAST_BOUND,
    LEAST_MODEL_BYTES,
    MODEL_BYTES,
    MOST_BOUND,
    MOST_BRANCHES,
    MOST_COMMANDS,
    MOST_EXPRESSIONS,
    MOST_RECORDS,
    MOST_VARIABLES,
)
from .names import plain_names

SUBJECTS = ("total", "variable", "expression", "command", "branch")  # what a body's record is called


def folder_finding(data):
    """Rows 1 to 3."""
    if not LEAST_MODEL_BYTES <= len(data) <= MODEL_BYTES:
        there = length_told(len(data), MODEL_BYTES)
        return Finding(1, 0, f"the model has {there}, and a model folder has {LEAST_MODEL_BYTES} to {MODEL_BYTES}")
    fault = contents_fault(data, MODEL_BODIES, "model")
    if fault:
        return Finding(2, fault.entry, fault.text, advice=fault.advice)
    lengths = [len(body) for body in bodies_of(data, MODEL_BODIES, "model")]
    sizes = (TERMS_SIZE, VARIABLE_SIZE, ENTRY_SIZE, COMMAND_SIZE, branch_size(lengths[1] // VARIABLE_SIZE))
    most = (1, MOST_VARIABLES, MOST_EXPRESSIONS, MOST_COMMANDS, MOST_RECORDS)
    for e, (length, size) in enumerate(zip(lengths, sizes)):
        if length % size:
            text = f"the {MODEL_BODIES[e]} have {length} bytes, which is no whole number of records of {size}"
            return Finding(3, e, text)
        if not 1 <= length // size <= most[e]:
            allowed = "exactly 1 record" if e == 0 else f"1 to {most[e]}"
            subject = (SUBJECTS[e], most[e]) if e else ()
            return Finding(3, e, f"there are {length // size} {MODEL_BODIES[e]}, and {allowed} may be", subject)
    return None


class ModelRules:
    """Rows 4 to 11 of a model that keeps rows 1 to 3."""

    def __init__(self, data, names=None):
        self.model = read_model(data)
        self.names = names or plain_names(self.model)
        self.texts = EntryTexts(self.model.entries, self.names.variables)

    def finding(self):
        """The first broken rule, or None."""
        for row in (self.variables, self.entries, self.ranges, self.terms, self.commands, self.count, self.branches):
            found = row()
            if found:
                return found
        return self.weights()

    def variables(self):
        for v, (low, high, initial) in enumerate(self.model.variables):
            name = self.names.variables[v]
            why = None
            if low > high:
                why = f"its range {low}..{high} has its bounds crossed"
            elif low < LEAST_BOUND or high > MOST_BOUND:
                why = f"its range {low}..{high} leaves {LEAST_BOUND}..{MOST_BOUND}"
            elif not low <= initial <= high:
                why = f"its initial value {initial} is outside its range {low}..{high}"
            if why:
                return Finding(4, v, f"variable {name}: {why}", ("variable", v))
        return None

    def entries(self):
        deep = depths(self.model.entries)
        for e, entry in enumerate(self.model.entries):
            why = self.entry_fault(e, entry)
            if not why and deep[e] > DEEPEST:
                why = f"it is {deep[e]} deep, and {DEEPEST} is the most"
            if why:
                return Finding(5, e, f"{self.told(e)}: {why}", ("expression", e))
        return None

    def told(self, e):
        text = self.texts.told(e)
        return text if text.startswith("expression") else f"expression {e}, {text}"

    def entry_fault(self, e, entry):
        operation, fields = entry[0], entry[1:]
        if sort_of(operation) is None:
            return f"operation {operation} is not known: they are 0 to {TRUE}"
        if operation == VARIABLE and fields[0] >= len(self.model.variables):
            return f"there is no variable {fields[0]}: they are 0 to {len(self.model.variables) - 1}"
        for part, sort in zip(fields, parts_of(operation)):
            if part >= e:
                return f"its part {part} is not a lower-numbered expression"
            if sort_of(self.model.entries[part][0]) != sort:
                return f"its part {part}, {self.texts.told(part)}, must be {sort}"
        used = used_fields(operation)
        for k, field in enumerate(fields[used:], used):
            if field:
                return f"field {k} is {field}, and its operation does not use it: write 0"
        return None

    def ranges(self):
        found = ranges(self.model.entries, self.model.variables)
        low, high = found[-1] if found and found[-1] else (0, 0)
        if -FARTHEST <= low and high <= FARTHEST:
            self.found = found
            return None
        e = len(found) - 1
        text = f"{self.texts.told(e)} lies in {low}..{high}, and numbers stay in {-FARTHEST}..{FARTHEST}"
        return Finding(6, e, text, ("expression", e), at=f"expression {e}")

    def is_sort(self, e, sort):
        return e < len(self.model.entries) and sort_of(self.model.entries[e][0]) == sort

    def no_sort(self, e, sort):
        """Why expression e cannot stand where one of this sort is due."""
        if e >= len(self.model.entries):
            return f"expression {e} is not there: they are 0 to {len(self.model.entries) - 1}"
        return f"{self.texts.told(e)} is not {sort}"

    def terms(self):
        if self.model.total == 0:
            return Finding(7, 0, "D is 0: it is what the weights of each command total", ("total",))
        if not self.is_sort(self.model.target, TRUTH):
            return Finding(7, 1, f"the target: {self.no_sort(self.model.target, TRUTH)}", ("target",))
        return None

    def commands(self):
        for c, (guard, branches) in enumerate(self.model.commands):
            why = None
            if not self.is_sort(guard, TRUTH):
                why = f"its guard: {self.no_sort(guard, TRUTH)}"
            elif not 1 <= branches <= MOST_BRANCHES:
                why = f"it has {counted(branches, 'branch')}, and a command has 1 to {MOST_BRANCHES}"
            if why:
                return Finding(8, c, f"{self.names.command(c)}: {why}", ("command", c))
        return None

    def count(self):
        there, due = len(self.model.branches), sum(command.branches for command in self.model.commands)
        if there != due:
            return Finding(9, 0, f"there are {there} branch records, and the commands' branch counts add up to {due}")
        return None

    def branches(self):
        for r, branch in enumerate(self.model.branches):
            faults = (self.assigned_fault(v, e) for v, e in enumerate(branch.assigned))
            why = next(filter(None, faults), None) if branch.weight else "the weight is 0: leave the branch out"
            if why:
                return Finding(10, r, why, ("branch", r), at=self.branch_told(r))
        return None

    def branch_told(self, r):
        """A branch record, and whose it is: there are as many as the commands' counts add up to."""
        c = next(c for c in range(len(self.model.commands)) if r in self.model.branches_of(c))
        return f"branch record {r}, branch {r - self.model.first_record(c)} of {self.names.command(c)}"

    def assigned_fault(self, v, e):
        name, variable = self.names.variables[v], self.model.variables[v]
        if not self.is_sort(e, NUMBER):
            return f"the new value of {name}: {self.no_sort(e, NUMBER)}"
        low, high = self.found[e]
        if variable.low <= low and high <= variable.high:
            return None
        text = self.texts.told(e)
        told = f"{text} lies in {low}..{high}, {name} in {variable.low}..{variable.high}"
        if self.model.entries[e][0] == CONSTANT:
            return f"{name}' = {text}, and {name} lies in {variable.low}..{variable.high}"
        cut = text if high <= variable.high else f"smaller({text}, {variable.high})"
        cut = cut if variable.low <= low else f"larger({cut}, {variable.low})"
        return f"{told}: write {cut}"

    def weights(self):
        for c in range(len(self.model.commands)):
            total = sum(self.model.branches[r].weight for r in self.model.branches_of(c))
            if total != self.model.total:
                text = f"{self.names.command(c)}: the weights total {total}, D is {self.model.total}"
                return Finding(11, c, text, ("command", c))
        return None


def model_finding(data, names=None):
    """The first broken rule of a model folder, or None."""
    return folder_finding(data) or ModelRules(data, names).finding()
