"""What a broken rule is told as: its number and places, and what is there and what is asked, in words."""
from typing import NamedTuple, Tuple


class Finding(NamedTuple):
    """The first broken rule, as the rules of this package find it. They are written apart from the proved library, for
    explaining: what counts is the library's number and places."""

    number: int
    place: int
    text: str
    subject: Tuple = ()  # what it is about, as ('variable', 2) or ('node', 3), where a line of text can be named
    advice: str = ""
    at: str = ""  # where it is, for whoever has no line of text that says it
    sums: str = ""  # how what is asked comes about, where it is a sum
    second: int = 0  # the second place, of 19 and 21

    @property
    def outcome(self):
        """The number and both places."""
        return self.number, self.place, self.second

    @property
    def placed(self):
        """The text, with where it is."""
        return f"{self.at}: {self.text}" if self.at else self.text


CALL_REFUSALS = (26, 27, 28, 34, 35)  # those of one call, on folders that the checks accept

# What to do, where the finding itself does not say it.
ADVICE = {
    1: "look at the file's length; a model within the limits has at most 39308 bytes",
    2: "compute the table of contents from the lengths of the bodies",
    3: "compare the body's length with its records' size; over a limit, share expressions, merge variables or commands",
    4: "correct the range or the initial value; take a coarser unit where the range is too wide",
    5: "write parts before what uses them; balance a long chain, (a + b) + (c + d), or move a part into a variable",
    6: "narrow the variables' ranges, or cut a part down with smaller and larger before it is multiplied",
    7: "correct the terms",
    8: "correct the guard; split up a draw with more than 16 branches into two steps",
    9: "count the branch records",
    10: "cut the new value down with smaller or larger; leave out branches of weight 0",
    11: "take a common multiple of the totals as D and scale each command's weights",
    12: "look at the file's length; track fewer variables, so that more nodes are covered",
    13: "compute the table of contents from the lengths of the bodies",
    14: "give the model and the graph that belong together, or stop the explorer earlier and leave nodes waiting",
    15: "write 0 in every field that has no meaning for the node",
    16: "write the edges node by node, in the order of the nodes, each with a successor for each branch of its command",
    17: "put the root first, in the model's initial state; explore again where the model changed",
    18: "the label value of a tracked variable is the node's concrete value",
    20: "one edge for each command whose guard is true, lowest command first",
    22: "cover by expanded, target or waiting nodes alone: take the cover's own cover, or expand one of the two",
    23: "drop the cover, and cover the node by another one or expand it",
    24: "track in this node what its cover tracks, then mend the nodes that lead here (21)",
    25: "raise the value to what is asked; then look at the nodes that lead here, and go round until nothing changes",
    26: "explore on until no node waits; the root value is a bound all the same",
    27: "ask for at most 10000 steps; the root value is a bound for any number of them",
    28: "lend two rows of at least one element per node",
    34: "lend 8192 slots, whole states, an answer for each of them, and a listing element for each node",
    35: "ask for at most 1000 rounds (place 1), in a slice of 28 bytes and 4 for each variable at least (place 0)",
}

# What a second place says, of the numbers that have one: where it is a variable, and where it is none.
SECOND = {
    19: (
        "variable {} is the lowest that is mentioned and not tracked",
        "no variable is missing: the target is known, and wrong for the node's kind",
    ),
    21: ("the successor's label does not follow in variable {}", "the successor's concrete label does not follow"),
}

# What each number means in a few words; docs/REFUSALS.md has more.
MEANING = {
    1: "the model has too few or too many bytes",
    2: "an entry of the model's table of contents is off",
    3: "a body of the model is not whole records, or has too few or too many",
    4: "a variable's range or initial value",
    5: "an expression is not right",
    6: "a number's range passes 1000000 on either side",
    7: "D is 0, or the target is no truth",
    8: "a command's guard is no truth, or its branches are not 1 to 16",
    9: "the branch records are not as many as the commands' branch counts add up to",
    10: "a branch's weight is 0, or what it assigns is no number or may leave the variable's range",
    11: "a command's weights do not total D",
    12: "the graph has too few or too many bytes",
    13: "an entry of the graph's table of contents is off",
    14: "the nodes are not whole records, or not 1 to 4096",
    15: "a node's record is not right",
    16: "an edge names a command or node that is not there, or edges are short or over",
    17: "the root does not start in the initial state",
    18: "A1: a label differs from the concrete label on a tracked variable",
    19: "A2: a label does not settle the guards and the target",
    20: "B1: a node's edges are not its enabled commands",
    21: "B2: a successor does not follow",
    22: "C3: a cover is missing or itself covered",
    23: "C1: a concrete label is outside its cover's label",
    24: "C2: a cover tracks a variable that its node does not, or with another value",
    25: "the value rule: a value is less than what the rule asks",
    26: "a node is waiting, and figures need a finished graph",
    27: "figures are for at most 10000 steps",
    28: "a row is shorter than the nodes",
    29: "the state has not one value per variable, or the result row is shorter",
    30: "a value of the state is outside its range",
    31: "no such command",
    32: "the command's guard is false in the state",
    33: "the command has no such branch",
    34: "a row of the index call has the wrong length",
    35: "the slice is too short for a graph of one node, or over 1000 rounds are asked for",
}
