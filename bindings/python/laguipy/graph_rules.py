"""The rules of a graph folder, rows 12 to 25 of the refusals, for explaining: what is there and what is asked.

The model is one that its own rules accept.
"""
from .errors import counted, length_told
from .expressions import EntryTexts
from .findings import Finding
from .folder import (
    COVERED,
    EXPANDED,
    GRAPH_BODIES,
    KINDS,
    TARGET,
    WAITING,
    Shape,
    bodies_of,
    contents_fault,
    edge_at,
    node_size,
    read_graph,
    read_model,
)
from .limits import CERTAIN, GRAPH_BYTES, LEAST_GRAPH_BYTES, MOST_COMBINATIONS, MOST_NODES, NO_VARIABLE
from .names import plain_names
from .readings import Readings, States


def listed(items, none="none"):
    """`0, 3 and 7`."""
    items = [str(item) for item in items]
    return " and ".join([", ".join(items[:-1])] * (len(items) > 1) + items[-1:]) or none


def shown(value):
    """A reading: a truth as it is written, or a number."""
    return str(value).lower()


class GraphRules:
    """Rows 12 to 25. `graph` is there once rows 12 to 14 hold, and its edges once row 16 does."""

    def __init__(self, model, data, names=None):
        self.model = read_model(model)
        self.data = data
        self.names = names or plain_names(self.model)
        self.texts = EntryTexts(self.model.entries, self.names.variables)
        self.shape = Shape(len(self.model.variables), [command.branches for command in self.model.commands])
        self.first = [self.model.first_record(c) for c in range(len(self.model.commands))]
        self.states = States(self.model)

    def finding(self):
        """The first broken rule, or None."""
        found = self.folder()
        if found:
            return found
        self.graph = read_graph(self.data, self.shape)
        return self.records() or self.edges() or self.root() or self.rules()

    # ---- rows 12 to 17

    def folder(self):
        if not LEAST_GRAPH_BYTES <= len(self.data) <= GRAPH_BYTES:
            there = length_told(len(self.data), GRAPH_BYTES)
            return Finding(12, 0, f"the graph has {there}, and a graph folder has {LEAST_GRAPH_BYTES} to {GRAPH_BYTES}")
        fault = contents_fault(self.data, GRAPH_BODIES, "graph")
        if fault:
            return Finding(13, fault.entry, fault.text, advice=fault.advice)
        length, size = len(bodies_of(self.data, GRAPH_BODIES, "graph")[0]), node_size(self.shape.variables)
        if length % size:
            of_model = f"a node of this model, with {counted(self.shape.variables, 'variable')}, has {size}"
            return Finding(14, 0, f"the nodes have {length} bytes, and {of_model}: is it the graph of another model?")
        if not 1 <= length // size <= MOST_NODES:
            return Finding(14, 0, f"there are {length // size} nodes, and 1 to {MOST_NODES} may be")
        return None

    def node(self, n, text, number):
        return Finding(number, n, f"node {n} {text}", ("node", n))

    def records(self):
        for n, node in enumerate(self.graph.nodes):
            why = self.head_fault(node) or self.values_fault(node)
            if why:
                return self.node(n, why, 15)
        return None

    def head_fault(self, node):
        if node.kind >= len(KINDS):
            return f"has kind {node.kind}, and kinds are 0 to {len(KINDS) - 1}"
        if node.value > CERTAIN:
            return f"holds {node.value}, more than certainty, which is {CERTAIN}"
        if node.kind != COVERED and node.cover:
            kind = KINDS[node.kind]
            return f"is {kind} and names node {node.cover} as its cover: only a covered node has one; write 0"
        if node.kind != EXPANDED and node.edges:
            return f"is {KINDS[node.kind]} and has {counted(node.edges, 'edge')}: only an expanded node has edges"
        if node.tracked >> self.shape.variables:
            bit = next(v for v in range(self.shape.variables, 16) if node.tracks(v))
            return f"tracks variable {bit}, and the model's are 0 to {self.shape.variables - 1}"
        return None

    def values_fault(self, node):
        for v, variable in enumerate(self.model.variables):
            name = self.names.variables[v]
            if not variable.low <= node.concrete[v] <= variable.high:
                asked = f"{name} lies in {variable.low}..{variable.high}"
                return f"has {name} = {node.concrete[v]} in its concrete label, and {asked}"
            if not node.tracks(v) and node.label[v]:
                return f"does not track {name}, and has {node.label[v]} as its label value: write 0"
        return None

    def edges(self):
        body, at = bodies_of(self.data, GRAPH_BODIES, "graph")[1], 0
        for n, node in enumerate(self.graph.nodes):
            for e in range(node.edges):
                edge, size = edge_at(body, at, self.shape)
                why = self.successor_fault(edge) if edge else self.cut_fault(node, body, at)
                if why:
                    return Finding(16, n, f"edge {e} of node {n} {why}", ("node", n))
                at += size
        if at < len(body):
            over = counted(len(body) - at, "byte")
            return Finding(16, len(self.graph.nodes), f"{over} of edges are left over after those of the last node")
        return None

    def cut_fault(self, node, body, at):
        """Why no edge of the model stands there."""
        left = len(body) - at
        if left < 2:
            return f"is not there: the node has {counted(node.edges, 'edge')}, and the edges' bytes end before it"
        command = int.from_bytes(body[at : at + 2], "little")
        if command >= len(self.shape.branches):
            return f"names command {command}, and the model's are 0 to {len(self.shape.branches) - 1}"
        branches = self.shape.branches[command]
        asked = f"{self.names.command(command)} has {counted(branches, 'branch')}, so it takes {2 + 2 * branches} bytes"
        return f"is cut short: {asked}, and {left} are left"

    def successor_fault(self, edge):
        for b, successor in enumerate(edge.successors):
            if successor >= len(self.graph.nodes):
                there = f"the nodes are 0 to {len(self.graph.nodes) - 1}"
                return f"({self.names.command(edge.command)}) leads to node {successor} by branch {b}, and {there}"
        return None

    def root(self):
        for v, variable in enumerate(self.model.variables):
            there = self.graph.nodes[0].concrete[v]
            if there != variable.initial:
                name = self.names.variables[v]
                text = f"node 0 starts with {name} = {there}, the model with {name} = {variable.initial}"
                return Finding(17, 0, text, ("node", 0))
        return None

    # ---- rows 18 to 25, node by node

    def rules(self):
        for n, node in enumerate(self.graph.nodes):
            found = NodeRules(self, n, node).finding()
            if found:
                return found
        return None


class NodeRules:
    """Rows 18 to 25 of one node."""

    def __init__(self, rules, n, node):
        self.n, self.node = n, node
        self.model, self.graph, self.names, self.texts = rules.model, rules.graph, rules.names, rules.texts
        self.first, self.states = rules.first, rules.states
        self.advice = ""  # where a rule has several causes, and one its own remedy
        self.sums = ""  # how what is asked comes about, where it is a sum
        self.second = 0  # the second place, where a rule has one
        self.three_way = Readings(self.model.entries, lambda v: node.label[v] if node.tracks(v) else None)
        self.in_state = Readings(self.model.entries, lambda v: node.concrete[v])

    def finding(self):
        rows = ((18, self.a1), (19, self.a2), (20, self.b1), (21, self.b2), (22, self.c3), (23, self.c1), (24, self.c2))
        for number, row in (*rows, (25, self.value)):
            why = row()
            if why:
                state = self.names.state(self.node.concrete)
                text, subject = f"node {self.n} ({state}) {why}", ("node", self.n)
                return Finding(number, self.n, text, subject, self.advice, sums=self.sums, second=self.second)
        return None

    def name(self, v):
        return self.names.variables[v]

    def guard(self, c):
        return self.texts.told(self.model.commands[c].guard)

    def lacking(self, e):
        """The variables that an expression mentions and the label does not track, lowest first. Where the expression
        is unknown there is one."""
        return [v for v in self.states.mentioned(e) if not self.node.tracks(v)]

    def in_label(self, e):
        """The reading of an expression in the label, of a node that keeps row 18: a number, a truth or None."""
        read = self.three_way.read(e)
        if read is not None:
            return read
        tried = self.tried(e)
        return tried.value if tried else None

    def tried(self, e):
        """What all states of the label say of an expression, unless there are too many combinations."""
        lacking = self.lacking(e)
        few = self.states.combinations(lacking) <= MOST_COMBINATIONS
        return self.states.read(e, lacking, self.node.concrete) if few else None

    def why_unknown(self, e):
        """Why an expression is unknown in the label."""
        lacking, tried = self.lacking(e), self.tried(e)
        count, told = self.states.combinations(lacking), f"which does not track {self.named(lacking)}"
        if not tried:
            many = f"its {count} combinations are too many to try, at most {MOST_COMBINATIONS}"
            return f"{told}: {many}, and its known parts do not settle it"
        differing = ", ".join(
            f"{shown(value)} with {listed(f'{self.name(v)} = {x}' for v, x in zip(lacking, values))}"
            for values, value in tried.differing
        )
        return f"{told}: it is not the same in all states ({count} combinations): {differing}"

    def named(self, variables):
        return listed(self.name(v) for v in variables)

    def a1(self):
        for v in range(len(self.model.variables)):
            if self.node.tracks(v) and self.node.label[v] != self.node.concrete[v]:
                concrete = f"{self.name(v)} is {self.node.concrete[v]} in its concrete label"
                return f"tracks {self.name(v)} = {self.node.label[v]}, and {concrete}"
        return None

    def a2(self):
        if self.node.kind not in (EXPANDED, TARGET):
            return None
        for c, command in enumerate(self.model.commands if self.node.kind == EXPANDED else ()):
            if self.in_label(command.guard) is None:
                return self.unsettled("guard", f" of {self.names.command(c)}", command.guard)
        read = self.in_label(self.model.target)
        if read is None:
            return self.unsettled("target", "", self.model.target)
        return self.wrong_target() if read == (self.node.kind == EXPANDED) else None

    def unsettled(self, what, whose, e):
        """That a guard or the target, entry e, is unknown."""
        lacking = self.lacking(e)
        self.second = lacking[0]
        also = f", and {self.named(lacking[1:])} where that is not enough" if lacking[1:] else ""
        track = f"track {self.name(self.second)} in node {self.n}{also}"
        mend = "then mend the nodes that lead here (21) and those that it covers (24)"
        self.advice = f"{track}, or write the {what} without {self.named(lacking)}; {mend}"
        unknown = f"the {what}{whose}, {self.texts.told(e)}, is unknown in its label"
        return f"is {KINDS[self.node.kind]}, and {unknown}, {self.why_unknown(e)}"

    def wrong_target(self):
        """That the target is true in an expanded node, or false in a target node."""
        self.second = NO_VARIABLE
        told = f"the target, {self.texts.told(self.model.target)},"
        if self.node.kind == EXPANDED:
            self.advice = "make it a target node, which holds certainty and has no edges"
            return f"is expanded, and {told} is true in its label: a target state is not expanded"
        self.advice = "make it an expanded node, or let it wait"
        return f"is a target, and {told} is false in its label: a target node has target states alone"

    def b1(self):
        if self.node.kind != EXPANDED:
            return None
        there = [edge.command for edge in self.graph.edges[self.n]]
        due = [c for c, command in enumerate(self.model.commands) if self.in_label(command.guard)]
        if there == due:
            return None
        return f"has edges of commands {listed(there)}, and commands {listed(due)} are due: {self.why_not(there, due)}"

    def why_not(self, there, due):
        """Why a node's edges are not those of the commands that are due."""
        missing = [c for c in due if c not in there]
        if missing:
            return f"{self.names.command(missing[0])} is enabled there, {self.guard(missing[0])}, and has no edge"
        extra = [c for c in there if c not in due]
        if extra:
            return f"{self.names.command(extra[0])} has an edge and is not enabled there, {self.guard(extra[0])}"
        twice = [c for c in due if there.count(c) > 1]
        if twice:
            return f"{self.names.command(twice[0])} has {there.count(twice[0])} edges, and one is asked"
        at = next(k for k in range(len(due)) if there[k] != due[k])
        stands, asked = self.names.command(there[at]), self.names.command(due[at])
        return f"the edge of {stands} stands where that of {asked} is asked"

    def b2(self):
        if self.node.kind != EXPANDED:
            return None
        for k, edge in enumerate(self.graph.edges[self.n]):
            for b, successor in enumerate(edge.successors):
                assigned = self.model.branches[self.first[edge.command] + b].assigned
                why = self.result_fault(assigned, successor) or self.label_fault(assigned, successor)
                if why:
                    by = f"edge {k}, {self.names.command(edge.command)}, branch {b},"
                    return f"leads by {by} to node {successor}: {why}"
        return None

    def result_fault(self, assigned, successor):
        """Why a successor's concrete label is not the result of a branch that assigns so."""
        concrete = self.graph.nodes[successor].concrete
        for v, e in enumerate(assigned):
            result = self.in_state.read(e)
            if concrete[v] != result:
                self.second = NO_VARIABLE
                self.advice = "successors stand in branch order, and all new values are worked out from the old state"
                new = f"{self.name(v)}' = {self.texts.told(e)} gives {result}"
                return f"{new}, and its concrete label has {self.name(v)} = {concrete[v]}"
        return None

    def label_fault(self, assigned, successor):
        """Why a successor's label does not follow by such a branch: of its tracked variables the lowest that fails."""
        node = self.graph.nodes[successor]
        for v, e in enumerate(assigned):
            if not node.tracks(v):
                continue
            read = self.in_label(e)
            if read == node.label[v]:
                continue
            self.second = v
            new = f"it tracks {self.name(v)}, and {self.name(v)}' = {self.texts.told(e)}"
            if read is None:
                lacking = self.named(self.lacking(e))
                self.advice = f"track {lacking} in node {self.n}, or stop tracking {self.name(v)} in node {successor}"
                return f"{new} is unknown in the label of node {self.n}, {self.why_unknown(e)}"
            self.advice = f"write {read} there: the label value of a tracked variable is the node's concrete value"
            there = f"the label of node {successor} has {node.label[v]}"
            return f"{new} is {read} in the label of node {self.n}, where {there}"
        return None

    def cover(self):
        """The node that covers this one, if it is covered and the cover is there."""
        there = self.node.kind == COVERED and self.node.cover < len(self.graph.nodes)
        return self.graph.nodes[self.node.cover] if there else None

    def c3(self):
        if self.node.kind != COVERED:
            return None
        cover = self.cover()
        if cover is None:
            self.advice = "give the number of a node that is there"
            return f"is covered by node {self.node.cover}, and the nodes are 0 to {len(self.graph.nodes) - 1}"
        if self.node.cover == self.n:
            return "is covered by itself"
        if cover.kind == COVERED:
            return f"is covered by node {self.node.cover}, which is itself covered, by node {cover.cover}"
        return None

    def c1(self):
        cover = self.cover()
        for v in range(len(self.model.variables)):
            if cover and cover.tracks(v) and self.node.concrete[v] != cover.label[v]:
                there = f"which has {self.name(v)} = {cover.label[v]}, where this one has {self.node.concrete[v]}"
                return f"is outside the label of its cover, node {self.node.cover}, {there}"
        return None

    def c2(self):
        cover = self.cover()
        for v in range(len(self.model.variables)):
            if not cover or not cover.tracks(v):
                continue
            tracked = f"its cover, node {self.node.cover}, tracks {self.name(v)} = {cover.label[v]}"
            if not self.node.tracks(v):
                return f"does not track {self.name(v)}, and {tracked}"
            if self.node.label[v] != cover.label[v]:
                return f"tracks {self.name(v)} = {self.node.label[v]}, and {tracked}"
        return None

    def value(self):
        value = self.node.value
        if self.node.kind in (WAITING, TARGET) and value != CERTAIN:
            return f"holds {value}, and a {KINDS[self.node.kind]} node holds {CERTAIN}"
        cover = self.cover()
        if cover and value < cover.value:
            return f"holds {value}, less than its cover, node {self.node.cover}, which holds {cover.value}"
        for edge in self.graph.edges[self.n] if self.node.kind == EXPANDED else ():
            asked, sums = self.asked(edge)
            if value < asked:
                self.sums = sums
                return f"holds {value}, {self.names.command(edge.command)} asks for {asked} at least"
        return None

    def asked(self, edge):
        """The least value that an edge allows, and how it comes about."""
        records = range(self.first[edge.command], self.first[edge.command] + len(edge.successors))
        weights = [self.model.branches[r].weight for r in records]
        values = [self.graph.nodes[s].value for s in edge.successors]
        total = sum(weight * value for weight, value in zip(weights, values))
        told = " + ".join(f"{w} * {value} of node {s}" for w, value, s in zip(weights, values, edge.successors))
        return -(-total // self.model.total), f"that is ({told}) / {self.model.total}, rounded up"


def graph_finding(model, data, names=None):
    """The first broken rule of a graph folder, of a model that its own rules accept; or None."""
    return GraphRules(model, data, names).finding()
