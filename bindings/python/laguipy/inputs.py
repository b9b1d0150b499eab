"""The model and the graph that a command is given: DIR, or MODEL GRAPH."""
import os

from .errors import InputError, UsageError
from .files import STANDARD, at_most_one_standard, of, passing, read_some
from .folder import MODEL_BODIES, bodies_of, read_model
from .limits import GRAPH_BYTES
from .names import find_names, plain_names
from .output import say


class Pair:
    """A model and a graph, by the paths of their files."""

    def __init__(self, model, graph):
        self.model, self.graph = model, graph
        self.held = {}

    @property
    def paths(self):
        return self.model, self.graph

    def bytes_of(self, path):
        """A file's bytes, read once. Of one that is too long for a graph, and so for a model, a part that is too long
        as well: it is refused alike."""
        if path not in self.held:
            self.held[path] = of(path, lambda: read_some(path, GRAPH_BYTES))
        return self.held[path]

    @property
    def model_bytes(self):
        return self.bytes_of(self.model)

    @property
    def graph_bytes(self):
        return self.bytes_of(self.graph)

    def passing(self):
        """The files whose bytes come only once."""
        return [path for path in self.paths if passing(path)]

    def names(self):
        """The names that stand beside the model, and what is wrong with them, if anything is."""
        return model_names(self.model, self.model_bytes)


def model_names(path, data):
    """The names of a model folder, and what is wrong with them; plain ones where its records cannot be read."""
    try:
        bodies_of(data, MODEL_BODIES, "model")
    except InputError:
        return None, None
    model = read_model(data)
    return (plain_names(model), None) if path == STANDARD else find_names(path, model, data)


def pair_of(places, example):
    """The pair that the words of a command name; without words the example's."""
    if not places:
        places = [example()]
        say("laguipy", f"no directory given, so this is {places[0]}")
    if len(places) == 1:
        (place,) = places
        if place == STANDARD or os.path.isfile(place):
            asked = "give the directory that holds model.fold and graph.fold, or both files"
            raise UsageError(f"'{place}' is one file: {asked}")
        if not os.path.isdir(place):
            raise UsageError(f"no directory '{place}'")
        return Pair(os.path.join(place, "model.fold"), os.path.join(place, "graph.fold"))
    if len(places) > 2:
        raise UsageError("one directory, or a model and a graph, and no more")
    at_most_one_standard(*places)
    for place in places:
        if os.path.isdir(place):
            raise UsageError(f"'{place}' is a directory: give one directory alone, or two files")
    return Pair(*places)
