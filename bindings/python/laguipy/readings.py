"""How expressions read in a label, where some variables have a value and others are unknown; for explaining.

An expression is known if it has one value in all states of the label. Its combinations are those of the values of the
variables that it mentions and the label does not track. Where these are too many to try, its parts decide: that is
the three-way reading, which is settled first for all, since what it knows has that value in all states.
"""
import itertools
import math
import operator
from typing import NamedTuple, Tuple

from .expressions import (
    ADD,
    AND,
    AT_MOST,
    CONSTANT,
    EQUAL,
    IF,
    LARGER,
    LESS,
    MULTIPLY,
    NOT,
    OR,
    SMALLER,
    SUBTRACT,
    TRUE,
    VARIABLE,
    parts_of,
)
from .folder import as_signed

TABLE = {
    ADD: operator.add,
    SUBTRACT: operator.sub,
    MULTIPLY: operator.mul,
    SMALLER: min,
    LARGER: max,
    IF: lambda t, a, b: a if t else b,
    EQUAL: operator.eq,
    LESS: operator.lt,
    AT_MOST: operator.le,
    NOT: operator.not_,
    AND: operator.and_,
    OR: operator.or_,
}

BLOCK = 256  # combinations that are worked out at once


class Readings:
    """The three-way reading of each entry: a number, a truth, or None where it is unknown. `look` says what is known
    of a variable. Each entry is read once."""

    def __init__(self, entries, look):
        self.entries = entries
        self.look = look
        self.found = {}

    def read(self, e):
        if e not in self.found:
            self.found[e] = self.settle(*self.entries[e])
        return self.found[e]

    def settle(self, operation, a, b, c):
        if operation == CONSTANT:
            return as_signed(a)
        if operation == VARIABLE:
            return self.look(a)
        if operation == TRUE:
            return True
        parts = [self.read(part) for part in (a, b, c)[: len(parts_of(operation))]]
        # One part may settle `and` and `or`, whatever the other is.
        if operation in (AND, OR):
            settles = operation == OR
            return settles if settles in parts else None if None in parts else not settles
        return None if None in parts else TABLE[operation](*parts)


def used(entries, e):
    """The entries that an expression uses, itself among them, parts first."""
    found, waiting = set(), [e]
    while waiting:
        k = waiting.pop()
        if k not in found:
            found.add(k)
            operation, *fields = entries[k]
            waiting += fields[: len(parts_of(operation))]
    return sorted(found)


def mentioned(entries, e):
    """The variables that an expression mentions."""
    return {entries[k][1] for k in used(entries, e) if entries[k][0] == VARIABLE}


class Tried(NamedTuple):
    """What an expression is in all combinations: one value, or two of them that differ, each with its value."""

    value: object
    differing: Tuple = ()


class States:
    """The readings by all states of a model's expressions. What two labels say alike of an expression is tried once."""

    def __init__(self, model):
        self.entries, self.variables = model.entries, model.variables
        self.mentions, self.tried = {}, {}

    def mentioned(self, e):
        """The variables that an expression mentions, lowest first."""
        if e not in self.mentions:
            self.mentions[e] = sorted(mentioned(self.entries, e))
        return self.mentions[e]

    def combinations(self, free):
        """How many values the variables have together."""
        return math.prod(self.variables[v].high - self.variables[v].low + 1 for v in free)

    def read(self, e, free, state):
        """Of an expression, in all combinations of these variables, where the others are as in the state."""
        fixed = {v: state[v] for v in self.mentioned(e) if v not in free}
        key = e, tuple(sorted(fixed.items()))
        if key not in self.tried:
            self.tried[key] = self.all_values(e, free, fixed)
        return self.tried[key]

    def all_values(self, e, free, fixed):
        needed, first = used(self.entries, e), None
        ranges = (range(self.variables[v].low, self.variables[v].high + 1) for v in free)
        combinations = itertools.product(*ranges)
        while True:
            block = list(itertools.islice(combinations, BLOCK))
            if not block:
                return Tried(first[1])
            for found in zip(block, self.column(e, needed, block, free, fixed)):
                first = first or found
                if found[1] != first[1]:
                    return Tried(None, (first, found))

    def column(self, e, needed, block, free, fixed):
        """The values of an expression in a block of combinations, from those of what it needs."""
        there = dict(zip(free, zip(*block)))
        columns = {}
        for k in needed:
            operation, *fields = self.entries[k]
            if operation == VARIABLE:
                columns[k] = there.get(fields[0]) or [fixed[fields[0]]] * len(block)
            elif operation in (CONSTANT, TRUE):
                columns[k] = [as_signed(fields[0]) if operation == CONSTANT else True] * len(block)
            else:
                parts = fields[: len(parts_of(operation))]
                columns[k] = list(map(TABLE[operation], *(columns[part] for part in parts)))
        return columns[e]
