"""`laguipy build`: a graph that the proved library builds of a model, and what is worth knowing of it."""
import os
import shlex
import threading
import time
from collections import defaultdict
from typing import List, NamedTuple

from . import native
from .advice import runs
from .errors import InputError, UsageError, counted
from .files import STANDARD, named, of, read_some
from .folder import (
    CONTENTS_ENTRY,
    COVERED,
    EXPANDED,
    GRAPH_BODIES,
    KINDS,
    TARGET,
    WAITING,
    node_size,
    read_graph,
    read_model,
    shape_of,
)
from .limits import CERTAIN, GRAPH_BYTES, MODEL_BYTES, MOST_NODES, MOST_ROUNDS
from .output import RunError, Ticker
from .series import percent, shown, told_time, whole_number

TABLE = CONTENTS_ENTRY * len(GRAPH_BODIES)  # bytes of a graph's table of contents
FIELD = 2  # bytes of a command or of a successor in an edge
ORDER = (EXPANDED, COVERED, TARGET, WAITING)  # of the kinds, as a report tells them
WAIT = 0.2  # seconds between two looks at whether it is time to tell


class Asked(NamedTuple):
    """How many rounds lower the values, and how many nodes there may be."""

    rounds: int
    nodes: int


class Built(NamedTuple):
    """A graph, and what the graph check tells of it."""

    data: bytes
    asked: Asked
    summary: native.Summary
    settled: bool  # whether another round would leave all values as they are
    endless: List[int]  # nodes from which it can go on for ever

    @property
    def counts(self):
        """How many nodes there are, and of each kind, in the order of a report."""
        return {"nodes": self.summary.nodes, **{KINDS[k]: getattr(self.summary, KINDS[k]) for k in ORDER}}

    @property
    def told(self):
        """What was built, for a reader: two lines."""
        nodes, *kinds = self.counts.items()
        counts = [counted(nodes[1], "node"), *(f"{count} {kind}" for kind, count in kinds)]
        root = self.summary.root
        return [f"{', '.join(counts)}; {counted(len(self.data), 'byte')}", f"root {root} {percent(root)} %"]

    def values(self):
        """The same, as JSON has it."""
        told = {"bytes": len(self.data), **self.counts, "root": self.summary.root}
        return {**told, "rounds": self.asked.rounds, "settled": self.settled, "endless": self.endless}


def asked_for(rounds, nodes):
    """What the words of a command ask for. More rounds than may be are left to the library, which refuses them."""
    most = MOST_NODES if nodes is None else whole_number(nodes, "--nodes N")
    if not 1 <= most <= MOST_NODES:
        raise UsageError(f"--nodes N is 1 to {MOST_NODES}, and this is {shown(nodes)}")
    return Asked(MOST_ROUNDS if rounds is None else whole_number(rounds, "--rounds N"), most)


# ---- files


def model_in(place):
    """The model folder that a place names, itself or as a directory that has one: its path and its bytes."""
    if not os.path.isdir(place):
        return place, of(place, lambda: read_some(place, MODEL_BYTES))
    path = os.path.join(place, "model.fold")
    if not os.path.exists(path):
        raise InputError("there is no model.fold in it: `laguipy model` writes one from text").at(named(place))
    return path, of(path, lambda: read_some(path, MODEL_BYTES))


def other_graph(path, data):
    """Whether a file is there that has other bytes than these."""
    try:
        return os.path.isfile(path) and read_some(path, GRAPH_BYTES) != data
    except InputError:
        return True


# ---- building


def length_beyond(graph, size, most):
    """The length of a built graph from the expansion on by which it has more than so many nodes, of which it has more.
    It is a tree, whose nodes are numbered in the order in which expansions made them: first successors tell that order.
    """
    nodes, length = 1, TABLE + size
    for edges in sorted(filter(None, graph.edges), key=lambda edges: edges[0].successors[0]):
        new = sum(len(edge.successors) for edge in edges)
        nodes, length = nodes + new, length + size * new + FIELD * (len(edges) + new)
        if nodes > most:
            break
    return length


def built_in(model, rounds, room):
    """The graph that is built in a slice of so many bytes, and what the graph check tells of it."""
    data = native.build(model, rounds, room)
    try:
        return data, native.graph_check(model, data)
    except native.Refusal as refusal:
        raise RunError(f"the library has built a graph that it refuses: {refusal}") from None


def build(model, asked):
    """The graph of a model, or the library's refusal: that of the longest slice in which it has no more nodes than are
    asked for."""
    native.model_check(model)
    size, shape = node_size(native.variables_of(model)), shape_of(model)
    # No graph of so many nodes is longer: each but the root has a field in an edge, and the edge one for its command.
    data, summary = built_in(model, asked.rounds, TABLE + size * asked.nodes + 2 * FIELD * (asked.nodes - 1))
    if summary.nodes > asked.nodes:  # Edges of many branches have left room for more.
        beyond = length_beyond(read_graph(data, shape), size, asked.nodes)
        data, summary = built_in(model, asked.rounds, beyond - 1)
    graph = read_graph(data, shape)
    return Built(data, asked, summary, is_settled(read_model(model), graph), endless(graph))


def uncovered(graph, n):
    """The node, or its cover."""
    return graph.nodes[n].cover if graph.nodes[n].kind == COVERED else n


def endless(graph):
    """The nodes from which it can go on for ever, whatever is drawn: such a node has an edge by which all branches lead
    to such nodes, or to what these cover."""
    going, leading = [set(range(len(edges))) for edges in graph.edges], defaultdict(list)
    for n, edges in enumerate(graph.edges):
        for e, edge in enumerate(edges):
            for s in edge.successors:
                leading[uncovered(graph, s)].append((n, e))
    ended = [n for n, edges in enumerate(going) if not edges]
    while ended:
        for n, e in leading[ended.pop()]:
            if e in going[n]:
                going[n].remove(e)
                if not going[n]:
                    ended.append(n)
    return [n for n, edges in enumerate(going) if edges]


def is_settled(model, graph):
    """Whether another round would change no value."""
    return all(node.value == next_value(model, graph, n) for n, node in enumerate(graph.nodes))


def next_value(model, graph, n):
    """What another round would set a node's value to, with all others as they are."""
    node = graph.nodes[n]
    if node.kind == COVERED:
        return graph.nodes[node.cover].value
    if node.kind != EXPANDED:
        return CERTAIN
    return max((least_value(model, graph, edge) for edge in graph.edges[n]), default=0)


def least_value(model, graph, edge):
    """The least value that an edge allows."""
    weights = [model.branches[r].weight for r in model.branches_of(edge.command)]
    total = sum(weight * graph.nodes[s].value for weight, s in zip(weights, edge.successors))
    return -(-total // model.total)


# ---- patience


class Aside(threading.Thread):
    """An action beside the main thread, which can then be interrupted and tell how long it takes: a call of the library
    does neither. It is left behind where the program ends."""

    def __init__(self, action):
        super().__init__(daemon=True)
        self.action, self.found, self.error = action, None, None

    def run(self):
        try:
            self.found = self.action()
        except BaseException as error:  # for whoever waits
            self.error = error

    def result(self):
        if self.error is not None:
            raise self.error
        return self.found


def patiently(action, what):
    """An action's result. Where it takes long, standard error has what is done, and how long so far."""
    aside, began = Aside(action), time.monotonic()
    aside.start()
    with Ticker(output=False) as ticker:
        while aside.is_alive():
            aside.join(WAIT)
            if ticker.due() and aside.is_alive():
                ticker.tell(f"{what}, {told_time(time.monotonic() - began)} so far")
    return aside.result()


# ---- what is worth knowing


def waiting_note(built):
    """What it means that nodes wait."""
    count, most = built.summary.waiting, built.asked.nodes
    told = "1 node waits and counts" if count == 1 else f"{count} nodes wait and count"
    held = f"{told} as certainty: the root value is a bound all the same, and figures need a finished graph"
    if most < MOST_NODES:
        return f"{held}; building ended at --nodes {most}, and more may lower the root value"
    less = "narrower ranges, or guards and a target that mention fewer variables, take fewer"
    return f"{held}; building ended at {MOST_NODES} nodes, the most that a graph has: {less}"


def rounds_note(built):
    """What more rounds would do to a root value that is not 0."""
    if not built.settled and built.asked.rounds < MOST_ROUNDS:
        return f"another round lowers values yet: --rounds, up to {MOST_ROUNDS}, may lower the root value"
    if not built.settled:
        slowly = "they come down from certainty, about one level of the graph in a round, slowly where loops are likely"
        return f"values are still falling after {MOST_ROUNDS} rounds, the most that there are: {slowly}"
    if built.summary.root == CERTAIN and not built.endless and not built.summary.waiting:
        return "more rounds do not lower the root value: a target seems certain in the long run"
    return None


def endless_note(built):
    """What it means that it can go on for ever."""
    many = "nodes" if len(built.endless) > 1 else "node"
    here = "which counts as reaching a target, however many rounds there are: the root value may be far too high"
    return f"it can go on for ever from {many} {runs(built.endless)}, {here}"


def places(model, out):
    """What names a model and a graph, for other commands."""
    folder = os.path.dirname(model)
    if os.path.basename(model) == "model.fold" and out == os.path.join(folder, "graph.fold"):
        return [folder or "."]
    return ["MODEL" if model == STANDARD else model, "GRAPH" if out == STANDARD else out]


def figures_note(model, out):
    """Where better numbers are, of a finished graph."""
    told = " ".join(map(shlex.quote, places(model, out)))
    return f"figures do not depend on the values: `laguipy figures {told} 1000` has the chance within 1000 steps"


def notes(built, model, out):
    """What is worth knowing of a graph that was built of this model and stands there, a line each."""
    root, waiting = built.summary.root, built.summary.waiting
    found = [rounds_note(built) if root else None, endless_note(built) if root and built.endless else None]
    found = [note for note in found if note]
    if waiting:
        return [waiting_note(built), *found]
    return [*found, figures_note(model, out)] if found else []
