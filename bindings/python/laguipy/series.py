"""`laguipy figures`: figures for many numbers of steps and nodes, written as they come."""
import json
import re
import time
from typing import NamedTuple, Tuple

from . import native
from .errors import UsageError
from .limits import CERTAIN, MOST_NODES, MOST_STEPS
from .output import Ticker, emit

DIGITS = 9  # of the largest number that is told from others: all larger ones are refused alike
SHOWN = 40  # characters of a wrong word that are repeated


def percent(units):
    """Units as per cent, exactly."""
    whole, rest = divmod(100 * units, CERTAIN)
    digits = f"{rest:09d}".rstrip("0")
    return f"{whole}.{digits}" if digits else str(whole)


# ---- what is asked for


def shown(word):
    return repr(word if len(word) <= SHOWN else word[:SHOWN] + "..")


def whole_number(word, what):
    """A whole number from 0; very large ones come as one that is too large for anything here."""
    if not re.fullmatch("[0-9]+", word):
        raise UsageError(f"{what} is a whole number from 0, and this is {shown(word)}")
    digits = word.lstrip("0") or "0"
    return int(digits) if len(digits) <= DIGITS else 10**DIGITS


def steps_of(words, upto):
    """The numbers of steps that are asked for, ascending. Past the most that figures are for, one stands for all."""
    asked = {whole_number(word, "H") for word in words}
    if upto is not None:
        asked |= set(range(min(whole_number(upto, "--upto H"), MOST_STEPS + 1) + 1))
    if not asked:
        raise UsageError("say for how many steps: H.. or --upto H")
    return sorted({min(h, MOST_STEPS + 1) for h in asked})


def node_ranges(text):
    """The nodes that `all`, `0,3` or `2-5` means, as ranges with both ends; None for all."""
    if text == "all":
        return None
    found = []
    for word in text.split(","):
        if not re.fullmatch("[0-9]+(-[0-9]+)?", word):
            raise UsageError(f"--nodes wants all, or nodes as in 0,3 or 2-5, and this is {shown(word)}")
        ends = [whole_number(number, "a node") for number in word.split("-")]
        if ends[0] > ends[-1]:
            raise UsageError(f"--nodes {shown(word)} goes down: write the lower node first")
        found.append((ends[0], ends[-1]))
    return found


def nodes_of(ranges, count):
    """The nodes of these ranges, each once, in a graph of so many."""
    if ranges is None:
        return range(count)
    for first, last in ranges:
        if last >= count:
            wrong = max(first, count) if last < 10**DIGITS else "so high"
            raise UsageError(f"--nodes: there is no node {wrong}: they are 0 to {count - 1}")
    return list(dict.fromkeys(node for first, last in ranges for node in range(first, last + 1)))


# ---- figures


class Call(NamedTuple):
    """A call for h steps gives the rounds h and h - 1, and these are its numbers of steps that are asked for."""

    h: int
    steps: Tuple[int, ...]


def calls_for(steps):
    """The calls that give figures for these numbers of steps, ascending: one for two that follow each other."""
    calls = []
    for h in steps:
        if calls and calls[-1].steps == (h - 1,):
            calls[-1] = Call(h, (h - 1, h))
        else:
            calls.append(Call(h, (h,)))
    return calls


class Estimate:
    """How long calls will take yet, if a call for h steps takes a time for the check and a time for each round: the
    two that come nearest to what the calls before took."""

    def __init__(self, calls):
        self.calls, self.rounds = len(calls), sum(call.h for call in calls)
        self.done = []  # h and the seconds of each call

    def took(self, h, seconds):
        self.calls, self.rounds = self.calls - 1, self.rounds - h
        self.done.append((h, seconds))

    def left(self):
        """In seconds."""
        count, rounds = len(self.done), sum(h for h, _ in self.done)
        spent = sum(seconds for _, seconds in self.done)
        spread = count * sum(h * h for h, _ in self.done) - rounds**2
        if spread:
            each = max(0, count * sum(h * seconds for h, seconds in self.done) - rounds * spent) / spread
        else:
            each = spent / max(1, rounds)
        return self.calls * max(0, spent - each * rounds) / count + self.rounds * each


def told_time(seconds):
    if seconds < 100:
        return f"{seconds:.0f} s"
    return f"{seconds / 60:.0f} min" if seconds < 6000 else f"{seconds / 3600:.1f} h"


def figures_for(model, graph, steps):
    """For each number of steps, ascending, all nodes' figures. Every call starts at round 0, so that all numbers up to
    H take time in the square of H; once two rounds are equal, so are all later ones, and no call is made."""
    nodes, calls = native.graph_check(model, graph).nodes, calls_for(steps)
    rows = native.units(MOST_NODES), native.units(MOST_NODES)
    estimate, last, before = Estimate(calls), None, None
    with Ticker() as ticker:
        for call in calls:
            if last is None or last != before:
                began = time.monotonic()
                native.figure_rows(model, graph, call.h, *rows)
                estimate.took(call.h, time.monotonic() - began)
                last, before = rows[call.h % 2][:nodes], rows[1 - call.h % 2][:nodes] if call.h else None
                if ticker.due():
                    ticker.tell(f"{call.h} of {steps[-1]} steps, some {told_time(estimate.left())} left")
            for h in call.steps:
                yield h, last if h == call.h else before


# ---- how they are written


class Lines:
    """Figures as lines for a reader."""

    def __init__(self, root, nodes):
        self.root, self.nodes = root, nodes
        self.named = list(nodes) != [0]

    def head(self):
        return ""

    def rows(self, h, figures):
        return [self.row(h, node, figures[node], percent(figures[node])) for node in self.nodes]

    def row(self, h, node, units, part):
        return f"within {h}{f' node {node}' if self.named else ''} {units} {part} %\n"

    def tail(self, complete):
        return ""


class Csv(Lines):
    def head(self):
        return "h,node,units,percent\n"

    def row(self, h, node, units, part):
        return f"{h},{node},{units},{part}\n"


class Json(Lines):
    """One document, a row to a line. It ends with whether it has all that was asked for."""

    between = "\n"

    def head(self):
        return f'{{"answer": "accepted", "root": {self.root}, "figures": ['

    def row(self, h, node, units, part):
        between, self.between = self.between, ",\n"
        return between + json.dumps({"h": h, "node": node, "units": units, "percent": part})

    def tail(self, complete):
        return f'\n], "complete": {json.dumps(complete)}}}\n'


def write_figures(form, found):
    """Writes figures as they come, so that nothing is lost where it is interrupted."""
    emit(form.head())
    try:
        for h, figures in found:
            emit(*form.rows(h, figures))
    except KeyboardInterrupt:
        emit(form.tail(False))
        raise
    emit(form.tail(True))
