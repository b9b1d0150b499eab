#!/usr/bin/env python3
"""A small explorer: makes a graph folder from a model folder. Each state that is reached becomes a node that tracks
every variable, so no node is covered, and a model with more states than a graph may have nodes is left with nodes
that wait.

  explore.py DIR [ROUNDS]    reads DIR/model.fold and writes DIR/graph.fold; values come of at most ROUNDS rounds (1000)

It is an example of an explorer of one's own; `laguipy build` makes graphs that track less and cover more. Nothing of it
is proved and nothing need be: `laguipy DIR` checks what it wrote. It needs Python's package laguipy:
PYTHONPATH=bindings/python in a checkout.
"""
import os
import struct
import sys

import laguipy
from laguipy.folder import EXPANDED, TARGET, WAITING, folder, read_model
from laguipy.limits import CERTAIN, MOST_NODES
from laguipy.readings import Readings


class Explorer:
    def __init__(self, data):
        self.data, self.model = data, read_model(data)
        self.states = [tuple(variable.initial for variable in self.model.variables)]
        self.number = {self.states[0]: 0}  # of each state's node
        self.kinds, self.edges = [], []

    def explore(self):
        """Nodes in the order in which they are reached. What leads past the last node that fits is left waiting."""
        while len(self.kinds) < len(self.states):
            state = self.states[len(self.kinds)]
            edges = self.edges_of(state)
            self.edges.append([] if edges is None else edges)
            target = Readings(self.model.entries, lambda v: state[v]).read(self.model.target)
            self.kinds.append(TARGET if target else WAITING if edges is None else EXPANDED)
            if target:
                self.edges[-1] = []

    def edges_of(self, state):
        """For each enabled command the nodes that its branches lead to; None where they are too many."""
        found = []
        for command in range(len(self.model.commands)):
            try:
                steps = [self.step(state, command, branch) for branch in range(self.model.commands[command].branches)]
            except laguipy.Refusal:  # 32: the command is not enabled here
                continue
            found.append((command, steps))
        new = {step for _, steps in found for step in steps} - set(self.number)
        if len(self.states) + len(new) > MOST_NODES:
            return None
        for _, steps in found:
            for step in steps:
                if step not in self.number:
                    self.number[step] = len(self.states)
                    self.states.append(step)
        return [(command, [self.number[step] for step in steps]) for command, steps in found]

    def step(self, state, command, branch):
        return tuple(laguipy.step(self.data, state, command, branch))

    def values(self, rounds):
        """Values that keep the value rule. From 0 up they are the least, if they settle within so many rounds; else
        from certainty down, where they may be used after any number of rounds."""
        values, settled = self.rounds([CERTAIN if kind != EXPANDED else 0 for kind in self.kinds], rounds)
        return values if settled else self.rounds([CERTAIN] * len(self.kinds), rounds)[0]

    def rounds(self, values, rounds):
        """So many rounds over the nodes, in place, and whether the last changed nothing. A node gets the greatest of
        its edges' sums, divided by D and rounded up."""
        for _ in range(rounds):
            before = list(values)
            for n, kind in enumerate(self.kinds):
                if kind == EXPANDED:
                    values[n] = max((self.asked(edge, values) for edge in self.edges[n]), default=0)
            if values == before:
                return values, True
        return values, False

    def asked(self, edge, values):
        command, successors = edge
        records = self.model.branches_of(command)
        total = sum(self.model.branches[r].weight * values[s] for r, s in zip(records, successors))
        return -(-total // self.model.total)

    def graph(self, rounds):
        tracked = (1 << len(self.model.variables)) - 1
        nodes, edges = b"", b""
        for state, kind, own, value in zip(self.states, self.kinds, self.edges, self.values(rounds)):
            nodes += struct.pack(f"<HHIHH{2 * len(state)}h", kind, 0, value, len(own), tracked, *state, *state)
            for command, successors in own:
                edges += struct.pack(f"<{1 + len(successors)}H", command, *successors)
        return folder([nodes, edges])


def main(place, rounds="1000"):
    with open(os.path.join(place, "model.fold"), "rb") as file:
        data = file.read()
    laguipy.model_check(data)
    explorer = Explorer(data)
    explorer.explore()
    with open(os.path.join(place, "graph.fold"), "wb") as file:
        file.write(explorer.graph(int(rounds)))
    print(f"{place}/graph.fold: {len(explorer.states)} nodes, {explorer.kinds.count(WAITING)} of them waiting")


if __name__ == "__main__":
    if len(sys.argv) not in (2, 3):
        sys.exit("usage: explore.py DIR [ROUNDS]")
    try:
        main(*sys.argv[1:])
    except (OSError, ValueError, laguipy.Refusal, laguipy.InputError, laguipy.RunError) as error:
        sys.exit(f"explore.py: {error}")
