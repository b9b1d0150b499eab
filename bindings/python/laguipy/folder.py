"""Folders: their fields, their table of contents, and the models and graphs that they hold; docs/FORMAT.md has them.

Reading is total where a folder's contents are right: what a later rule forbids is read all the same.
"""
import struct
from typing import List, NamedTuple, Tuple

from .errors import InputError

MODEL_BODIES = ("terms", "variables", "expressions", "commands", "branches")
GRAPH_BODIES = ("nodes", "edges")
KINDS = ("waiting", "expanded", "covered", "target")
WAITING, EXPANDED, COVERED, TARGET = range(4)

CONTENTS_ENTRY = 8  # bytes of an entry of the table of contents


# ---- fields


def within(value, field, what, rule=None):
    """Refuses what the field has no room for, and names what the rule allows, if there is one."""
    if not field[0] <= value <= field[1]:
        low, high = rule or field
        room = "" if rule else " to fit its field"
        raise InputError(f"{what} is {value}: it must be {low} to {high}{room}")


def unsigned(value, size, what, rule=None):
    within(value, (0, 256**size - 1), what, rule)
    return value.to_bytes(size, "little")


def two(value, what):
    return unsigned(value, 2, what)


def signed(value, what, rule=None):
    within(value, (-32768, 32767), what, rule)
    return struct.pack("<h", value)


def as_signed(field):
    return field - 65536 if field >= 32768 else field


# ---- folders


def folder(bodies, contents=()):
    """The folder of these bodies. `contents` has the entries of the table that are written as given, by number."""
    start, table = CONTENTS_ENTRY * len(bodies), []
    for body in bodies:
        table.append(unsigned(start, 4, "a body's start") + unsigned(len(body), 4, "a body's length"))
        start += len(body)
    for number, entry in dict(contents).items():
        table[number] = entry
    return b"".join(table + bodies)


class ContentsFault(NamedTuple):
    """The lowest entry of a table of contents that is off, why, and what to do where it is the file that is wrong."""

    entry: int
    text: str
    advice: str = ""


def contents_fault(data, names, kind):
    """What is off in the table of contents, which is there; None if nothing is."""
    due = CONTENTS_ENTRY * len(names)
    for e, name in enumerate(names):
        start, length = struct.unpack_from("<II", data, CONTENTS_ENTRY * e)
        where = f"contents entry {e} ({name}) is off:"
        if start != due:
            perhaps, advice = other_kind(data, kind, e, start)
            text = f"{where} it starts at {start}, and {due} is due in a {kind} folder{perhaps}"
            return ContentsFault(e, text, advice)
        due = start + length
        if due > len(data):
            return ContentsFault(e, f"{where} it ends at {due}, and the folder has {len(data)} bytes")
        if e + 1 == len(names) and due < len(data):
            return ContentsFault(e, f"{where} it ends at {due}, short of the folder's {len(data)} bytes")
    return None


def other_kind(data, kind, entry, start):
    """What the bytes may be, where they are no folder of this kind, and what to do then."""
    other, bodies = ("graph", GRAPH_BODIES) if kind == "model" else ("model", MODEL_BODIES)
    if entry == 0 and start == CONTENTS_ENTRY * len(bodies):
        return f"; is it a {other} folder?", "name the model folder first, then the graph folder"
    if 0 not in data:
        return "; is it text?", f"make a folder of the text first, by `laguipy {kind}`, and name that"
    return "", ""


def bodies_of(data, names, kind):
    """The bodies of a folder whose table of contents is right."""
    table = CONTENTS_ENTRY * len(names)
    if len(data) < table:
        raise InputError(f"{len(data)} bytes are too few for a {kind} folder: its table of contents alone has {table}")
    fault = contents_fault(data, names, kind)
    if fault:
        raise InputError(fault.text)
    places = [struct.unpack_from("<II", data, CONTENTS_ENTRY * e) for e in range(len(names))]
    return [data[start : start + length] for start, length in places]


def records(body, size):
    """The whole records of a body, each a tuple of 2-byte fields, and the bytes that are left over."""
    count = len(body) // size
    return [struct.unpack_from(f"<{size // 2}H", body, size * i) for i in range(count)], body[size * count :]


# ---- models

TERMS_SIZE, VARIABLE_SIZE, ENTRY_SIZE, COMMAND_SIZE = 4, 6, 8, 4


def branch_size(variables):
    return 2 + 2 * variables


class Variable(NamedTuple):
    low: int
    high: int
    initial: int


class Command(NamedTuple):
    guard: int
    branches: int


class Branch(NamedTuple):
    weight: int
    assigned: Tuple[int, ...]  # an expression for each variable


class Model(NamedTuple):
    """A model folder's records, and of each body the bytes after the last whole record."""

    terms: List[Tuple[int, int]]  # D and the target expression: one record, if the folder is right
    variables: List[Variable]
    entries: List[Tuple[int, int, int, int]]
    commands: List[Command]
    branches: List[Branch]
    rest: List[bytes]

    @property
    def total(self):
        return self.terms[0][0] if self.terms else 0

    @property
    def target(self):
        return self.terms[0][1] if self.terms else 0

    def first_record(self, command):
        """The branch record with which a command's branches start."""
        return sum(c.branches for c in self.commands[:command])

    def branches_of(self, command):
        """The records of a command's branches, those that are there."""
        first = self.first_record(command)
        return range(first, min(first + self.commands[command].branches, len(self.branches)))


def read_model(data):
    """The model of a folder whose table of contents is right."""
    bodies = bodies_of(data, MODEL_BODIES, "model")
    terms, terms_rest = records(bodies[0][:TERMS_SIZE], TERMS_SIZE)
    variables, variables_rest = records(bodies[1], VARIABLE_SIZE)
    entries, entries_rest = records(bodies[2], ENTRY_SIZE)
    commands, commands_rest = records(bodies[3], COMMAND_SIZE)
    branches, branches_rest = records(bodies[4], branch_size(len(variables)))
    return Model(
        terms,
        [Variable(*map(as_signed, fields)) for fields in variables],
        entries,
        [Command(*fields) for fields in commands],
        [Branch(fields[0], fields[1:]) for fields in branches],
        [terms_rest + bodies[0][TERMS_SIZE:], variables_rest, entries_rest, commands_rest, branches_rest],
    )


# ---- graphs

NODE_HEAD = 12  # bytes of a node before its values


def node_size(variables):
    return NODE_HEAD + 4 * variables


class Node(NamedTuple):
    kind: int
    cover: int
    value: int
    edges: int  # how many
    tracked: int  # bit i for variable i
    concrete: Tuple[int, ...]
    label: Tuple[int, ...]

    def tracks(self, variable):
        return bool(self.tracked >> variable & 1)


class Edge(NamedTuple):
    command: int
    successors: Tuple[int, ...]


class Shape(NamedTuple):
    """What a graph folder's layout asks of its model: how many variables, and the branch count of each command."""

    variables: int
    branches: List[int]


def shape_of(model):
    """The shape of a model folder whose table of contents is right."""
    bodies = bodies_of(model, MODEL_BODIES, "model")
    return Shape(len(bodies[1]) // VARIABLE_SIZE, [count for _, count in records(bodies[3], COMMAND_SIZE)[0]])


def node_of(fields, variables):
    kind, cover, low, high, edges, tracked = fields[:6]
    values = tuple(map(as_signed, fields[6:]))
    return Node(kind, cover, low + high * 65536, edges, tracked, values[:variables], values[variables:])


class Graph(NamedTuple):
    """A graph folder's nodes and their edges, as far as these can be read, and the bytes that are left over."""

    nodes: List[Node]
    edges: List[List[Edge]]
    nodes_rest: bytes
    edges_rest: bytes


def read_graph(data, shape):
    """The graph of a folder whose table of contents is right."""
    node_bytes, edge_bytes = bodies_of(data, GRAPH_BODIES, "graph")
    fields, nodes_rest = records(node_bytes, node_size(shape.variables))
    nodes = [node_of(record, shape.variables) for record in fields]
    edges, at = [], 0
    readable = True
    for node in nodes:
        own = []
        while readable and len(own) < node.edges:
            edge, size = edge_at(edge_bytes, at, shape)
            # What cannot be read as an edge, and all that follows, is left as bytes.
            readable = edge is not None
            if readable:
                own.append(edge)
                at += size
        edges.append(own)
    return Graph(nodes, edges, nodes_rest, edge_bytes[at:])


def edge_at(data, at, shape):
    """The edge at this position and its length; None where no whole edge of a command of the model stands there."""
    if at + 2 > len(data):
        return None, 0
    command = int.from_bytes(data[at : at + 2], "little")
    if command >= len(shape.branches):
        return None, 0
    size = 2 + 2 * shape.branches[command]
    if at + size > len(data):
        return None, 0
    return Edge(command, struct.unpack_from(f"<{shape.branches[command]}H", data, at + 2)), size
