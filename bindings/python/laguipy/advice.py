"""What is worth a second look in an accepted model and graph. Nothing here is wrong: a state in which no command is
enabled counts as safe, so that a mistyped guard can lower the answer."""
from .expressions import VARIABLE, EntryTexts
from .folder import EXPANDED
from .readings import mentioned

MOST_RUNS = 20  # of node numbers in one line


def runs(numbers):
    """`1, 4 and 9 to 12`, for ascending numbers; very many are cut."""
    found = []
    for n in numbers:
        if found and found[-1][1] == n - 1:
            found[-1][1] = n
        else:
            found.append([n, n])
    items = [f"{first} to {last}" if first < last else str(first) for first, last in found[:MOST_RUNS]]
    if len(found) > MOST_RUNS:
        items.append(f"{sum(last - first + 1 for first, last in found[MOST_RUNS:])} more")
    return ", ".join(items[:-1]) + " and " * (len(items) > 1) + items[-1]


def dead_ends(graph):
    """Expanded nodes without edges."""
    return [n for n, node in enumerate(graph.nodes) if node.kind == EXPANDED and node.edges == 0]


def never_enabled(model, graph):
    """Commands whose guard is true in no expanded node: they have no edge."""
    taken = {edge.command for edges in graph.edges for edge in edges}
    return [c for c in range(len(model.commands)) if c not in taken]


def never_read(model):
    """Variables that no expression reads, but for one that only keeps the variable's own value."""
    used = {model.target} | {command.guard for command in model.commands}
    for branch in model.branches:
        used |= {e for v, e in enumerate(branch.assigned) if model.entries[e] != (VARIABLE, v, 0, 0)}
    read = set().union(*(mentioned(model.entries, e) for e in used))
    return [v for v in range(len(model.variables)) if v not in read]


def warnings(model, graph, names):
    """The warnings on an accepted model and graph, a line each."""
    texts, found = EntryTexts(model.entries, names.variables), []
    ends = dead_ends(graph)
    if ends:
        one = len(ends) == 1
        told = f"node {ends[0]} is a dead end" if one else f"nodes {runs(ends)} are dead ends"
        found.append(f"{told}: no command is enabled there, which counts as safe")
    for c in never_enabled(model, graph):
        guard = texts.told(model.commands[c].guard)
        found.append(f"{names.command(c)}: its guard, {guard}, is true in no expanded node")
    for v in never_read(model):
        found.append(f"variable {names.variables[v]}: no expression reads it")
    return found
