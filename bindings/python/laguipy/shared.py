"""`laguipy index`: which nodes share a concrete state, and which node has a given one."""
import re
from typing import Dict, List, NamedTuple, Optional

from . import native
from .errors import InputError, UsageError, counted
from .files import load_text
from .folder import COVERED, read_graph, shape_of
from .limits import NO_NODE
from .series import shown

LEAST, MOST = -32_768, 32_767  # what a value of a state can be
DIGITS = 5  # of such a value, but for zeros in front


class Twin(NamedTuple):
    """A node that shares its concrete state with a lower node, both uncovered."""

    node: int
    state: List[int]
    first: int  # the lowest uncovered node with that state


class Found(NamedTuple):
    """A state that was asked for, and the lowest node with it."""

    state: List[int]
    node: Optional[int]


# ---- states as text


def value_of(word, what):
    """A value of a state; what is too large is told, of any length."""
    if not re.fullmatch("[+-]?[0-9]+", word):
        raise UsageError(f"{what} is a whole number, and this is {shown(word)}")
    digits = word.lstrip("+-").lstrip("0")
    value = int(word) if len(digits) <= DIGITS else MOST + 1
    if not LEAST <= value <= MOST:
        raise UsageError(f"{what} is {LEAST} to {MOST}, and this is {shown(word)}")
    return value


def state_of(text, names):
    """A state from text: `a=0 d=1`, in any order, or `0 1`, in the order of the variables; commas part too, and spaces
    may stand around `=`, as where other commands print a state."""
    words = re.sub(r"\s*=\s*", "=", text).replace(",", " ").split()
    if not any("=" in word for word in words):
        if len(words) != len(names):
            wanted = counted(len(names), "value")
            raise UsageError(f"a state has {wanted} ({' '.join(names)}), and {shown(text)} has {len(words)}")
        return [value_of(word, f"the value of {name}") for word, name in zip(words, names)]
    found: Dict[str, int] = {}
    for word in words:
        name, equals, value = word.partition("=")
        if not equals:
            raise UsageError(f"{shown(word)} has no '=': write each variable with its value, as in a=0, or none")
        if name not in names:
            raise UsageError(f"there is no variable {shown(name)}: the names are {', '.join(names)}")
        if name in found:
            raise UsageError(f"{name!r} stands twice in {shown(text)}")
        found[name] = value_of(value, f"the value of {name}")
    missing = [name for name in names if name not in found]
    if missing:
        raise UsageError(f"{shown(text)} says nothing of {', '.join(missing)}")
    return [found[name] for name in names]


def states_in(path, names):
    """The states of a file, one to a line; what stands after # is none of them."""
    found = []
    for number, line in enumerate(load_text(path).split("\n"), 1):
        text = line.partition("#")[0].strip()
        if text:
            try:
                found.append(state_of(text, names))
            except UsageError as error:
                raise InputError(str(error), number) from None
    return found


def told_state(state, names):
    return " ".join(f"{name}={value}" for name, value in zip(names, state))


# ---- what the call finds


def look_up(model, graph, states):
    """The twins of an accepted graph, and the node of each state. Which nodes they are is the proved call's answer; the
    node that a twin shares its state with is looked up here."""
    shared = native.index(model, graph, [value for state in states for value in state])
    nodes = read_graph(graph, shape_of(model)).nodes
    first = {}
    for number, node in enumerate(nodes):
        if node.kind != COVERED:
            first.setdefault(tuple(node.concrete), number)
    twins = [Twin(n, list(nodes[n].concrete), first[tuple(nodes[n].concrete)]) for n in shared.listed]
    found = [Found(state, None if n == NO_NODE else n) for state, n in zip(states, shared.answers)]
    return twins, found


def lines(twins, found, names):
    yield f"shared {len(twins)}"
    for twin in twins:
        yield f"node {twin.node} has the state of node {twin.first}: {told_state(twin.state, names)}"
    for state, node in found:
        yield f"state {told_state(state, names)}: {'no node' if node is None else f'node {node}'}"


def data(twins, found, names):
    return {
        "answer": "accepted",
        "shared": [
            {"node": twin.node, "first": twin.first, "state": dict(zip(names, twin.state))} for twin in twins
        ],
        "states": [{"state": dict(zip(names, state)), "node": node} for state, node in found],
    }
