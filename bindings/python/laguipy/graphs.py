"""Graphs: text to folder, and folder to text. `TEXT` has the text form."""
import struct

from .errors import InputError, counted
from .folder import COVERED, EXPANDED, GRAPH_BODIES, KINDS, folder, read_graph, read_model, shape_of, two
from .limits import CERTAIN, LEAST_BOUND, MOST_BOUND, MOST_NODES
from .names import names_for
from .text import CLAUSES, Reader, hex_lines

TEXT = """\
THE GRAPH

  variables a d                   names for the model's variables, in order; else those beside the model, or v0, v1
  node 0 expanded value 100_000_000 tracks a=0 state a=0 d=0
    edge 0: 1 2                   the command, then the successor for each of its branches
    edge 1: 3
  node 1 expanded value 0 tracks a=3 state a=3 d=0
  node 2 waiting tracks none state a=1 d=0
  node 3 covered by 0 value 100_000_000 tracks a state a=0 d=1
  node 4 target tracks a state a=2 d=0

  state      the concrete label, one value for each variable
  tracks     the abstract label, or none; `a` alone takes its value from the state, `a=2` says it
  value      units; S is certainty, 1000000000. A waiting or target node may leave it out: S
  edge       a command by its number, or by its name if it has one
"""

# What the rules allow, where a field has room for more.
BOUND = (LEAST_BOUND, MOST_BOUND)
VALUE = (0, CERTAIN)
NODE = (0, MOST_NODES - 1)
TRACKED_BITS = 16  # of the tracked set


class GraphText(Reader):
    WORDS = ("variables", "node", "edge", "bytes", "contents")

    def __init__(self, shape, names):
        super().__init__(GRAPH_BODIES, self.WORDS)
        self.shape = shape
        self.named = False
        self.variables = {name: v for v, name in enumerate(names.variables)}
        self.commands = {name: c for c, name in enumerate(names.commands) if name}
        self.nodes = []  # the bytes before the edge count, the count as given or None, the bytes after it
        self.below = []  # edges below each node
        self.edges = []
        self.lines = []  # of each node

    def line(self, line):
        if "," in line.tokens:
            raise InputError("a graph's text has no commas: write spaces between", line.numbers[line.tokens.index(",")])
        if line.has("variables"):
            self.names(line)
        elif line.has("node"):
            self.node(line)
        elif line.has("edge"):
            self.edge(line)
        else:
            self.unknown(line)

    def names(self, line):
        if self.named or self.nodes:
            raise InputError("the names stand once, before the first node")
        self.named = True
        self.variables = {}
        while line.at_name():
            self.variables[line.new_name("a name", self.variables)] = len(self.variables)
        line.end()
        if len(self.variables) != self.shape.variables:
            there = counted(self.shape.variables, "variable")
            raise InputError(f"the model has {there}, and the line has {counted(len(self.variables), 'name')}")

    def items(self, line, bare):
        """Variables with values, by the variable's number; where `bare` allows it, a value may be left out."""
        found = {}
        while line.at_name() and line.peek() not in CLAUSES:
            name = line.take()
            if name not in self.variables:
                raise InputError(f"there is no variable {name!r}: the names are {', '.join(self.variables) or 'none'}")
            if self.variables[name] in found:
                raise InputError(f"{name!r} stands twice")
            if bare and line.peek() != "=":
                found[self.variables[name]] = None
                continue
            line.expect("=")
            found[self.variables[name]] = line.signed_field(f"the value of {name!r}", BOUND)
        return found

    def tracks(self, line):
        if line.has("none"):
            return {}
        return self.items(line, True) or line.fail("a variable that is tracked, or 'none',")

    def node(self, line):
        number = line.number_here("a node's number")
        if number != len(self.nodes):
            raise InputError(f"node {len(self.nodes)} is wanted here, and this is node {number}: nodes stand in order")
        word = line.name("a kind (waiting, expanded, covered, target)")
        if word == "kind":
            kind = line.field("the kind")
        elif word in KINDS:
            kind = KINDS.index(word)
        else:
            raise InputError(f"{word!r} is no kind: they are waiting, expanded, covered and target")
        said = {}
        while line.at_name():
            self.clause(line, said)
        line.end()
        self.add_node(kind, said)
        self.lines.append(line.first)

    def clause(self, line, said):
        word = line.take()
        if word in said:
            raise InputError(f"{word!r} stands twice")
        if word == "tracks":
            said[word] = self.tracks(line)
        elif word in ("state", "label"):
            said[word] = self.items(line, False)
        elif word == "value" and line.has("S"):
            said[word] = CERTAIN
        elif word == "value":
            said[word] = line.field("the value", 4, VALUE)
        elif word in CLAUSES:
            said[word] = line.field(f"the number after {word!r}", rule=NODE if word == "by" else None)
        else:
            raise InputError(f"{word!r} is not known here: a node has " + ", ".join(sorted(CLAUSES)))

    def missing(self, kind, said):
        """What a node's line leaves out and should not."""
        missing = [name for name, v in self.variables.items() if v not in said.get("state", {})]
        if missing:
            return "the state has no value of " + ", ".join(repr(name) for name in missing)
        if kind == COVERED and "by" not in said:
            return "a covered node says by which node: covered by 0"
        if kind in (EXPANDED, COVERED) and "value" not in said:
            return f"the {KINDS[kind]} node has no value"
        if "set" in said and "tracks" in said:
            return "'set' stands in place of 'tracks'"
        if "set" not in said and "tracks" not in said:
            return "the node has no 'tracks': 'tracks none' if it tracks nothing"
        return None

    def add_node(self, kind, said):
        missing = self.missing(kind, said)
        if missing:
            raise InputError(missing)
        state, tracks, label = said.get("state", {}), said.get("tracks", {}), dict(said.get("label", {}))
        for v, value in tracks.items():
            name = list(self.variables)[v]
            if v in label:
                raise InputError(f"{name!r} is tracked, so that its label value stands in 'tracks'")
            if v >= TRACKED_BITS:
                raise InputError(f"{name!r} is variable {v}, and the tracked set has bits 0 to {TRACKED_BITS - 1}")
            label[v] = state[v] if value is None else value
        head = struct.pack("<HHI", kind, said.get("by", 0), said.get("value", CERTAIN))
        tracked = said.get("set", sum(1 << v for v in tracks))
        count = self.shape.variables
        values = [state[v] for v in range(count)] + [label.get(v, 0) for v in range(count)]
        self.nodes.append((head, said.get("edges"), struct.pack(f"<H{2 * count}h", tracked, *values)))
        self.below.append(0)

    def edge(self, line):
        if not self.nodes:
            raise InputError("an edge stands below its node")
        raw = line.has("raw")
        fields = [self.command(line)]
        line.expect(":")
        while line.at_number():
            fields.append(line.field("a successor", rule=NODE))
        if not raw:
            self.fit(fields[0], len(fields) - 1)
        self.below[-1] += 1
        self.edges.append(struct.pack(f"<{len(fields)}H", *fields))

    def command(self, line):
        """A command's number, or its name."""
        if not line.at_name():
            return line.field("the command")
        name = line.take()
        if name not in self.commands:
            known = f": the names are {', '.join(self.commands)}" if self.commands else ""
            raise InputError(f"there is no command {name!r}{known}")
        return self.commands[name]

    def fit(self, command, successors):
        known = self.shape.branches
        anyway = "; 'edge raw' writes it all the same"
        if command >= len(known):
            there = f"its commands are 0 to {len(known) - 1}" if known else "it has none"
            raise InputError(f"the model has no command {command}: {there}{anyway}")
        if successors != known[command]:
            count = known[command]
            given = counted(successors, "successor")
            raise InputError(f"command {command} has {counted(count, 'branch')}, and the edge has {given}{anyway}")

    def bodies_written(self):
        if not self.nodes and "nodes" not in self.given:
            raise InputError("there is no 'node' line")
        nodes = [
            head + two(below if count is None else count, "the edge count") + rest
            for (head, count, rest), below in zip(self.nodes, self.below)
        ]
        return [b"".join(nodes) + self.extra["nodes"], b"".join(self.edges) + self.extra["edges"]]


class WrittenGraph:
    """What a graph's text gives: the folder, and at which line each node stands."""

    def __init__(self, reader):
        self.data = folder(reader.bodies_written(), reader.contents)
        self.lines = reader.lines
        self.counts = [(len(reader.nodes), "node"), (sum(reader.below), "edge")]

    @property
    def told(self):
        """What is in it, for a reader."""
        return ", ".join(counted(*pair) for pair in self.counts) + f"; {counted(len(self.data), 'byte')}"


def write_graph(text, model, names=None):
    """The graph of a text, of the model in the folder `model`."""
    reader = GraphText(shape_of(model), names_for(read_model(model), names))
    reader.read(text)
    return WrittenGraph(reader)


# ---- folder to text


def node_line(n, node, names):
    """A node's record as a line without its edge count."""
    words = [f"node {n}", KINDS[node.kind] if node.kind < len(KINDS) else f"kind {node.kind}"]
    if node.cover or node.kind == COVERED:
        words.append(f"by {node.cover}")
    words.append("value S" if node.value == CERTAIN else f"value {node.value}")

    def pairs(word, wanted, values):
        found = [f"{name}={values[v]}" for v, name in enumerate(names) if wanted(v)]
        return [" ".join([word] + found)] if found else []

    if node.tracked >> len(names):
        words.append(f"set {node.tracked}")
        words += pairs("label", lambda v: node.label[v], node.label)
    else:
        words += pairs("tracks", node.tracks, node.label) or ["tracks none"]
        words += pairs("label", lambda v: node.label[v] and not node.tracks(v), node.label)
    words += pairs("state", lambda v: True, node.concrete)
    return " ".join(words)


def show_graph(data, model, names=None):
    """The text of a graph folder of this model; its contents are right. The text gives the same bytes again."""
    shape = shape_of(model)
    graph = read_graph(data, shape)
    names = names_for(read_model(model), names).variables
    lines = ["variables " + " ".join(names)] if names else []
    for n, (node, edges) in enumerate(zip(graph.nodes, graph.edges)):
        given = f" edges {node.edges}" if len(edges) != node.edges else ""
        lines.append(node_line(n, node, names) + given)
        lines += [" ".join([f"  edge {edge.command}:"] + [str(s) for s in edge.successors]) for edge in edges]
    lines += hex_lines("nodes", graph.nodes_rest, not graph.nodes) + hex_lines("edges", graph.edges_rest)
    return "\n".join(lines) + "\n"
