"""`laguipy model`, `graph` and `show`: text to folders that the proved library has checked, and folders to text."""
import os
from typing import NamedTuple, Optional

from . import native
from .errors import InputError, UsageError
from .findings import MEANING
from .files import STANDARD, load, load_text, named, of
from .folder import CONTENTS_ENTRY, GRAPH_BODIES, read_graph, read_model, shape_of
from .graph_rules import graph_finding
from .graphs import show_graph, write_graph
from .inputs import model_names
from .model_rules import model_finding
from .models import show_model, write_model
from .names import names_for


class Wrong(InputError):
    """What the proved check refuses of a text, with its line."""

    placed = True

    def __init__(self, path, refusal, finding, line):
        where = f"{named(path)}:{line}" if line else named(path)
        told = finding.text if finding else MEANING[refusal.number]
        super().__init__(f"{where}: {told} [{refusal.number}]")
        self.refusal, self.path, self.text_line, self.told = refusal, named(path), line, told

    def data(self):
        return {**self.refusal.data(), "file": self.path, "line": self.text_line, "message": self.told}


def matching(finding, refusal):
    """The finding, where it is the one that the proved check refuses."""
    return finding if finding and finding.outcome == refusal.args else None


def model_of(path):
    """The model of a text, and what the proved check refuses of it, or None."""
    written = of(path, lambda: write_model(load_text(path)))
    try:
        native.model_check(written.data)
        return written, None
    except native.Refusal as refusal:
        found = matching(model_finding(written.data, written.names), refusal)
        return written, Wrong(path, refusal, found, written.lines.of(found.subject) if found else None)


def graph_of(path, model_path, model):
    """The graph of a text, and what the proved check refuses of it, or None."""
    names, _ = model_names(model_path, model)
    of(model_path, lambda: shape_of(model))
    written = of(path, lambda: write_graph(load_text(path), model, names))
    try:
        native.graph_check(model, written.data)
        return written, None
    except native.Refusal as refusal:
        return written, refused_graph(path, model_path, model, written, refusal, names)


def refused_graph(path, model_path, model, written, refusal, names):
    of_model = model_finding(model, names)
    if of_model:
        return Wrong(model_path, refusal, matching(of_model, refusal), None)
    found = matching(graph_finding(model, written.data, names), refusal)
    node = found.subject[1] if found and found.subject[:1] == ("node",) else None
    return Wrong(path, refusal, found, written.lines[node] if node is not None else None)


def default_out(path, out, name):
    """Where a folder goes: as said, or under this name beside its text."""
    if out is not None:
        return out
    return STANDARD if path == STANDARD else os.path.join(os.path.dirname(path), name)


# ---- folders to text


def is_graph(data):
    """Whether a folder's table of contents is that of a graph."""
    return data[:4] == (CONTENTS_ENTRY * len(GRAPH_BODIES)).to_bytes(4, "little")


class Shown(NamedTuple):
    """A folder as text and as data, and what is wrong with the names beside its model, if anything is."""

    text: str
    data: dict
    wrong: Optional[str]


def show(fold, model_path, names, entries):
    """A folder: a model's, or a graph's with that of its model."""
    data = load(fold)
    if model_path is None and is_graph(data):
        model_path = os.path.join(os.path.dirname(fold), "model.fold") if fold != STANDARD else None
        if model_path is None or not os.path.isfile(model_path):
            raise InputError(f"{named(fold)} is a graph folder: name its model folder too, show GRAPH.fold MODEL.fold")
    if model_path is None:
        of(fold, lambda: shape_of(data))
        names, wrong = names_shown(fold, data, names)
        return Shown(of(fold, lambda: show_model(data, names, entries)), model_data(data, names), wrong)
    model = load(model_path)
    of(model_path, lambda: shape_of(model))
    names, wrong = names_shown(model_path, model, names)
    return Shown(of(fold, lambda: show_graph(data, model, names)), graph_data(data, model), wrong)


def names_shown(path, model, given):
    """The names that a command was given, or those beside the model folder and what is wrong with them."""
    if given is None:
        return model_names(path, model)
    try:
        return names_for(read_model(model), given), None
    except InputError as error:
        raise UsageError(error.message) from None


def model_data(data, names):
    model = read_model(data)
    return {
        "total": model.total,
        "target": model.target,
        "variables": [{"name": names.variables[v], **variable._asdict()} for v, variable in enumerate(model.variables)],
        "expressions": [list(entry) for entry in model.entries],
        "commands": [command._asdict() for command in model.commands],
        "branches": [{"weight": branch.weight, "assigned": list(branch.assigned)} for branch in model.branches],
    }


def graph_data(data, model):
    graph = read_graph(data, shape_of(model))
    return {
        "nodes": [
            {**node._asdict(), "edges": [edge._asdict() for edge in edges]}
            for node, edges in zip(graph.nodes, graph.edges)
        ]
    }
