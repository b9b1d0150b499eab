"""What a refusal means here: which of the causes, where, what is there and what is asked.

The rules behind it are written in Python, apart from the proved library, and prove nothing. The library's answer is
asked for too, and an explanation that does not agree with it, in number or either place, says so.
"""
from typing import NamedTuple, Optional, Tuple

from . import native
from .findings import ADVICE, MEANING, SECOND, Finding
from .graph_rules import graph_finding
from .limits import NO_VARIABLE
from .model_rules import model_finding
from .names import Names

OUTSIDE = "This explanation is not part of what is proved."
ACCEPTED = (0, 0, 0)


def told(outcome):
    """A number and its places, with the second one."""
    number, place, second = outcome
    return f"refused {number} {place} with second place {second}" if number else "no broken rule"


class Explanation(NamedTuple):
    outcome: Tuple  # the library's number and both places
    finding: Optional[Finding]
    names: Optional[Names]

    @property
    def number(self):
        return self.outcome[0]

    @property
    def agrees(self):
        return self.outcome == (self.finding.outcome if self.finding else ACCEPTED)

    @property
    def second_told(self):
        """What the second place says, of a number that has one."""
        second = self.outcome[2]
        variable, none = SECOND[self.number]
        known = self.names and second < len(self.names.variables)
        name = self.names.variables[second] if known else f"v{second}"
        return f"second place {second}: {none if second == NO_VARIABLE else variable.format(name)}"

    def lines(self):
        number, place, _ = self.outcome
        lines = [f"refused {number} {place}" if number else "accepted"]
        if number in SECOND:
            lines.append(self.second_told)
        if not self.agrees:
            return lines + self.disagreement()
        if not number:
            return [*lines, "no rule is broken, so there is nothing to explain"]
        lines += [self.finding.placed] + [self.finding.sums] * bool(self.finding.sums)
        lines.append(f"what to do: {self.finding.advice or ADVICE.get(number)}")
        places = "both places" if number in SECOND else "place"
        return [*lines, f"{OUTSIDE} Its number and {places} are the proved ones."]

    def disagreement(self):
        found = f"{told(self.finding.outcome)}: {self.finding.placed}" if self.finding else told(ACCEPTED)
        return [
            f"{self.number}: {MEANING[self.number]}" if self.number else "the proved library accepts it",
            f"{OUTSIDE} It does NOT agree with the proved answer, {told(self.outcome)}: it finds {found}. "
            "The proved answer counts.",
        ]

    def data(self):
        found = self.finding
        number, place, second = self.outcome
        return {
            "answer": "refused" if number else "accepted",
            "number": number,
            "place": place,
            "second": second,
            "meaning": MEANING.get(number),
            "explanation": found.placed if found else None,
            "sums": found.sums or None if found else None,
            "advice": (found.advice or ADVICE.get(found.number)) if found else None,
            "agrees": self.agrees,
        }


def finding_of(model, graph, names):
    """The first broken rule, by the rules of this package."""
    return model_finding(model, names) or graph_finding(model, graph, names)


def outcome_of(model, graph):
    """The library's number and both places."""
    try:
        native.graph_check(model, graph)
        return ACCEPTED
    except native.Refusal as refusal:
        return refusal.args


def explain(model, graph, names=None):
    """The explanation of what the graph check answers on two folders."""
    return Explanation(outcome_of(model, graph), finding_of(model, graph, names), names)
