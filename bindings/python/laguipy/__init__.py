"""Laguipy: a checker of simulation graphs of Markov decision processes.

A model and a graph come as folders of bytes (docs/FORMAT.md). Each call believes nothing of them: it raises `Refusal`
with the number of the first broken rule and its places (docs/REFUSALS.md), or accepts. No strategy reaches a target of
the model with a greater chance than the root value of an accepted graph. Values and figures are whole units; CERTAIN
units are certainty. Every call is proved to answer so, on every input; what is written in Python around it is not.

    >>> import laguipy
    >>> model, graph = open("model.fold", "rb").read(), open("graph.fold", "rb").read()
    >>> laguipy.graph_check(model, graph).root
    10000000
    >>> laguipy.figure(model, graph, 2)[0]
    10000000

`build` makes a graph of a model, which is accepted:

    >>> laguipy.figure(model, laguipy.build(model), 2)[0]
    10000000

`write_model` and `write_graph` make folders of text, `show_model` and `show_graph` text of folders.
"""
from .errors import InputError
from .graphs import show_graph, write_graph
from .limits import (
    CERTAIN,
    GRAPH_BYTES,
    MODEL_BYTES,
    MOST_NODES,
    MOST_ROUNDS,
    MOST_STEPS,
    MOST_VARIABLES,
    NO_NODE,
    NO_VARIABLE,
    SLOTS,
)
from .models import show_model, write_model
from .native import (
    Refusal,
    Shared,
    Summary,
    build,
    build_in,
    figure,
    figure_refusal,
    figure_rows,
    graph_check,
    index,
    model_check,
    record_part,
    step,
)
from .output import RunError
from .version import version

__version__ = version()

__all__ = [
    "CERTAIN",
    "GRAPH_BYTES",
    "InputError",
    "MODEL_BYTES",
    "MOST_NODES",
    "MOST_ROUNDS",
    "MOST_STEPS",
    "MOST_VARIABLES",
    "NO_NODE",
    "NO_VARIABLE",
    "Refusal",
    "RunError",
    "SLOTS",
    "Shared",
    "Summary",
    "build",
    "build_in",
    "figure",
    "figure_refusal",
    "figure_rows",
    "graph_check",
    "index",
    "model_check",
    "record_part",
    "show_graph",
    "show_model",
    "step",
    "write_graph",
    "write_model",
]
