"""What is explained of a refusal, cause by cause: what is there, what is asked, and that it is the proved answer."""
import json
import os
import unittest

from support import EXAMPLES, PEDAL, Room, read, run

from laguipy import NO_VARIABLE, write_graph, write_model
from laguipy.explain import Explanation, explain, told
from laguipy.findings import Finding
from laguipy.names import Names

SECONDS = {"refused_19": 0, "refused_21": 1}  # of the examples

# For each cause of refusals 15 to 25, what is changed in the text of the pedal's graph, and what is said.
SURE = (
    ("value 10_000_000 tracks a=0 state a=0 d=0", "value S tracks a=0 state a=0 d=0"),
    ("value 100_000_000", "value S"),
    ("by 0 value 10_000_000", "by 0 value S"),
)
CAUSES = {
    (("node 4 covered by 1", "node 4 kind 7"),): "15 4: node 4 has kind 7, and kinds are 0 to 3",
    (("value 0 tracks a=3 state a=3 d=0\nnode 2", "value 1000000001 tracks a=3 state a=3 d=0\nnode 2"),): (
        "15 1: node 1 holds 1000000001, more than certainty, which is 1000000000"
    ),
    (("node 1 expanded", "node 1 expanded by 2"),): (
        "15 1: node 1 is expanded and names node 2 as its cover: only a covered node has one; write 0"
    ),
    (("covered by 1", "covered by 1 edges 1"),): (
        "15 4: node 4 is covered and has 1 edge: only an expanded node has edges"
    ),
    (("node 5 target value S tracks a=2", "node 5 target value S set 5 label a=2"),): (
        "15 5: node 5 tracks variable 2, and the model's are 0 to 1"
    ),
    (("state a=2 d=0", "state a=2 d=2"),): (
        "15 5: node 5 has d = 2 in its concrete label, and d lies in 0..1"
    ),
    (("state a=2 d=0", "label d=1 state a=2 d=0"),): (
        "15 5: node 5 does not track d, and has 1 as its label value: write 0"
    ),
    (("edge 0: 4 5", "edge raw 9: 4 5"),): "16 2: edge 0 of node 2 names command 9, and the model's are 0 to 1",
    (("100_000_000", "100_000_000 edges 2"),): (
        "16 2: edge 1 of node 2 is not there: the node has 2 edges, and the edges' bytes end before it"
    ),
    (("edge 0: 4 5", "edge raw 0: 4"),): (
        "16 2: edge 0 of node 2 is cut short: command 0 has 2 branches, so it takes 6 bytes, and 4 are left"
    ),
    (("edge 0: 4 5", "edge 0: 4 6"),): (
        "16 2: edge 0 of node 2 (command 0) leads to node 6 by branch 1, and the nodes are 0 to 5"
    ),
    (("edge 0: 4 5", "edge 0: 4 5\nbytes edges 0100"),): (
        "16 6: 2 bytes of edges are left over after those of the last node"
    ),
    (("tracks a=0 state a=0 d=0", "tracks a=0 state a=0 d=1"),): (
        "17 0: node 0 starts with d = 1, the model with d = 0"
    ),
    (("tracks a=0 state a=0 d=0", "tracks a=1 state a=0 d=0"),): (
        "18 0: node 0 (a = 0, d = 0) tracks a = 1, and a is 0 in its concrete label"
    ),
    (("tracks a=0 state a=0 d=0", "tracks d=0 state a=0 d=0"),): (
        "19 0: node 0 (a = 0, d = 0) is expanded, and the guard of command 0, a < 2, is unknown in its label, "
        "which does not track a: it is not the same in all states (4 combinations): true with a = 0, false with a = 2"
    ),
    (("node 5 target", "node 5 expanded"),): (
        "19 5: node 5 (a = 2, d = 0) is expanded, and the target, a = 2, is true in its label: a target state is not "
        "expanded"
    ),
    (("tracks a=2", "tracks none"),): (
        "19 5: node 5 (a = 2, d = 0) is target, and the target, a = 2, is unknown in its label, which does not track "
        "a: it is not the same in all states (4 combinations): false with a = 0, true with a = 2"
    ),
    (("node 4 covered by 1 value 0", "node 4 target"), *SURE): (
        "19 4: node 4 (a = 3, d = 0) is a target, and the target, a = 2, is false in its label: a target node has "
        "target states alone"
    ),
    (("  edge 1: 3\n", ""),): (
        "20 0: node 0 (a = 0, d = 0) has edges of commands 0, and commands 0 and 1 are due: command 1 is enabled "
        "there, a = 0, and has no edge"
    ),
    (("edge 0: 4 5", "edge 0: 4 5\n  edge 1: 3"),): (
        "20 2: node 2 (a = 1, d = 0) has edges of commands 0 and 1, and commands 0 are due: command 1 has an edge and "
        "is not enabled there, a = 0"
    ),
    (("edge 0: 4 5", "edge 0: 4 5\n  edge 0: 4 5"),): (
        "20 2: node 2 (a = 1, d = 0) has edges of commands 0 and 0, and commands 0 are due: command 0 has 2 edges, and "
        "one is asked"
    ),
    (("  edge 0: 1 2\n  edge 1: 3\n", "  edge 1: 3\n  edge 0: 1 2\n"),): (
        "20 0: node 0 (a = 0, d = 0) has edges of commands 1 and 0, and commands 0 and 1 are due: the edge of command "
        "1 stands where that of command 0 is asked"
    ),
    (("edge 0: 1 2", "edge 0: 2 1"),): (
        "21 0: node 0 (a = 0, d = 0) leads by edge 0, command 0, branch 0, to node 2: a' = 3 gives 3, and its concrete "
        "label has a = 1"
    ),
    (("tracks a=0 state a=0 d=1", "tracks a=0 d=1 state a=0 d=1"),): (
        "21 0: node 0 (a = 0, d = 0) leads by edge 1, command 1, branch 0, to node 3: it tracks d, and d' = 1 - d is "
        "unknown in the label of node 0, which does not track d: it is not the same in all states (2 combinations): "
        "1 with d = 0, 0 with d = 1"
    ),
    (("tracks a=1", "tracks a=3"),): (
        "21 0: node 0 (a = 0, d = 0) leads by edge 0, command 0, branch 1, to node 2: it tracks a, and a' = "
        "smaller(a + 1, 2) is 1 in the label of node 0, where the label of node 2 has 3"
    ),
    (("covered by 1", "covered by 9"),): (
        "22 4: node 4 (a = 3, d = 0) is covered by node 9, and the nodes are 0 to 5"
    ),
    (("covered by 1", "covered by 4"),): "22 4: node 4 (a = 3, d = 0) is covered by itself",
    (("covered by 1", "covered by 3"),): (
        "22 4: node 4 (a = 3, d = 0) is covered by node 3, which is itself covered, by node 0"
    ),
    (("covered by 1", "covered by 2"),): (
        "23 4: node 4 (a = 3, d = 0) is outside the label of its cover, node 2, which has a = 1, where this one has 3"
    ),
    (("tracks a=0 state a=0 d=1", "tracks none state a=0 d=1"),): (
        "24 3: node 3 (a = 0, d = 1) does not track a, and its cover, node 0, tracks a = 0"
    ),
    (("node 4 covered by 1 value 0", "node 4 waiting value 5"), *SURE): (
        "25 4: node 4 (a = 3, d = 0) holds 5, and a waiting node holds 1000000000"
    ),
    (("target value S", "target value 5"),): (
        "25 5: node 5 (a = 2, d = 0) holds 5, and a target node holds 1000000000"
    ),
    (("by 0 value 10_000_000", "by 0 value 5"),): (
        "25 3: node 3 (a = 0, d = 1) holds 5, less than its cover, node 0, which holds 10000000"
    ),
    (("value 10_000_000 tracks a=0 state a=0 d=0", "value 9_999_999 tracks a=0 state a=0 d=0"),): (
        "25 0: node 0 (a = 0, d = 0) holds 9999999, command 0 asks for 10000000 at least"
    ),
}


class Causes(Room):
    def test_every_cause(self):
        text, model = read(os.path.join(PEDAL, "pedal.graph"), "r"), os.path.join(PEDAL, "model.fold")
        for changes, told in CAUSES.items():
            changed = text
            for old, new in changes:
                self.assertEqual(changed.count(old), 1, old)
                changed = changed.replace(old, new)
            graph = self.path("g.fold")
            self.assertEqual(run("graph", self.path("g.graph", changed), "-m", model, "-o", graph, "--anyway")[0], 0)
            status, out, _ = run("explain", model, graph)
            lines = out.decode().splitlines()
            if told.split()[0] in ("19", "21"):
                self.assertTrue(lines.pop(1).startswith("second place "))
            self.assertEqual((status, f"{lines[0]}: {lines[1]}"), (1, f"refused {told}"))
            self.assertTrue(lines[-2].startswith("what to do: "))
            self.assertTrue(lines[-1].endswith(" are the proved ones."))
            sums = ["that is (9 * 0 of node 1 + 1 * 100000000 of node 2) / 10, rounded up"]
            self.assertEqual(lines[2:-2], sums if "asks for" in told else [])
        self.assertEqual({told.split()[0] for told in CAUSES.values()}, {str(number) for number in range(15, 26)})


# A model whose guards and target mention x, y and z, and some new values w. In the guard of turn, what mentions x is
# false whatever x is, so that the guard is unknown by y alone.
MODEL = """\
total 2
variable x 0..3 = 0
variable y 0..3 = 0
variable z 0..3 = 0
variable w 0..3 = 0
target x + z = 3
command turn: y = 0 or (not true and x = 0)
  1: x' = 1, y' = 1
  1: z' = smaller(w + 1, 3)
command move: z < 3
  1: x' = y, z' = 2
  1: w' = smaller(x + w, 3), y' = smaller(w + z, 3)
"""
GRAPH = """\
node 0 expanded value S tracks x y z state x=0 y=0 z=0 w=0
  edge turn: 1 2
  edge move: 3 4
node 1 waiting tracks none state x=1 y=1 z=0 w=0
node 2 waiting tracks none state x=0 y=0 z=1 w=0
node 3 waiting tracks none state x=0 y=0 z=2 w=0
node 4 waiting tracks none state x=0 y=0 z=0 w=0
node 5 target tracks x z state x=0 y=0 z=3 w=0
"""
ROOT = "node 0 expanded value S tracks x y z state"
TURN = "the guard of command 0 (turn), y = 0 or not true and x = 0, is unknown in its label"
MOVE = "the guard of command 1 (move), z < 3, is unknown in its label"
AIM = "the target, x + z = 3, is unknown in its label"
NODE_1, NODE_2, NODE_3, NODE_4 = (
    f"leads by edge {edge}, {command}, branch {branch}, to node {node}: "
    for edge, command, branch, node in (
        (0, "command 0 (turn)", 0, 1),
        (0, "command 0 (turn)", 1, 2),
        (1, "command 1 (move)", 0, 3),
        (1, "command 1 (move)", 1, 4),
    )
)


def root(tracks):
    return (ROOT, f"node 0 expanded value S tracks {tracks} state")


def tracking(node, tracks):
    """A successor that tracks something."""
    return (f"node {node} waiting tracks none", f"node {node} waiting tracks {tracks}")


# For each situation what is changed in the graph, the number and both places, and parts of what is said and advised.
SITUATIONS = {
    "a variable that only a known part mentions": (
        [root("z")], (19, 0, 0), f"{TURN}, which does not track x and y", "track x in node 0, and y where that is not"
    ),
    "one variable": (
        [root("x z")], (19, 0, 1), f"{TURN}, which does not track y", "track y in node 0, or write the guard without y"
    ),
    "the guards before the target": ([root("x")], (19, 0, 1), f"{TURN}, which does not track y", "track y in node 0"),
    "the second guard, before the target": ([root("y")], (19, 0, 2), f"{MOVE}, which does not track z", "track z"),
    "the target, after the guards": (
        [root("y z")], (19, 0, 0),
        f"is expanded, and {AIM}, which does not track x", "track x in node 0, or write the target without x",
    ),
    "the target of a target node, the lowest of two": (
        [("tracks x z state x=0 y=0 z=3", "tracks y state x=0 y=0 z=3")], (19, 5, 0),
        f"is target, and {AIM}, which does not track x and z", "track x in node 5, and z where that is not enough",
    ),
    "the target of a target node": (
        [("tracks x z state x=0 y=0 z=3", "tracks x state x=0 y=0 z=3")], (19, 5, 2),
        f"is target, and {AIM}, which does not track z", "track z in node 5",
    ),
    "an unknown guard before a target that is wrong": (
        [("node 5 target", "node 5 expanded value S")], (19, 5, 1),
        f"{TURN}, which does not track y", "track y in node 5",
    ),
    "an expanded target": (
        [("node 5 target tracks x z", "node 5 expanded value S tracks x y z")], (19, 5, NO_VARIABLE),
        "is expanded, and the target, x + z = 3, is true in its label", "make it a target node",
    ),
    "a target that is none": (
        [("node 4 waiting tracks none", "node 4 target tracks x z")], (19, 4, NO_VARIABLE),
        "is a target, and the target, x + z = 3, is false in its label", "make it an expanded node",
    ),
    "the concrete label": (
        [("edge turn: 1 2", "edge turn: 3 2")], (21, 0, NO_VARIABLE),
        "branch 0, to node 3: x' = 1 gives 1, and its concrete label has x = 0", "successors stand in branch order",
    ),
    "the concrete label before a lower variable's label": (
        [tracking(1, "x=2"), ("x=1 y=1 z=0", "x=1 y=1 z=1")], (21, 0, NO_VARIABLE),
        f"{NODE_1}z' = z gives 0, and its concrete label has z = 1", "successors stand in branch order",
    ),
    "another value": (
        [tracking(1, "x y=2")], (21, 0, 1),
        f"{NODE_1}it tracks y, and y' = 1 is 1 in the label of node 0, where the label of node 1 has 2",
        "write 1 there",
    ),
    "two other values": (
        [tracking(1, "x=3 y=2")], (21, 0, 0),
        f"{NODE_1}it tracks x, and x' = 1 is 1 in the label of node 0, where the label of node 1 has 3",
        "write 1 there",
    ),
    "an unknown value of the second branch, assigned to another variable than is missing": (
        [tracking(2, "x z")], (21, 0, 2),
        f"{NODE_2}it tracks z, and z' = smaller(w + 1, 3) is unknown in the label of node 0, which does not track w",
        "track w in node 0, or stop tracking z in node 2",
    ),
    "another value below one that is unknown": (
        [tracking(2, "y=3 z")], (21, 0, 1),
        f"{NODE_2}it tracks y, and y' = y is 0 in the label of node 0, where the label of node 2 has 3",
        "write 0 there",
    ),
    "the first branch before the second's concrete label": (
        [tracking(1, "y=2"), ("x=0 y=0 z=1", "x=1 y=0 z=1")], (21, 0, 1), f"{NODE_1}it tracks y", "write 1 there"
    ),
    "the first edge before the second's concrete label": (
        [tracking(2, "z"), ("x=0 y=0 z=2", "x=1 y=0 z=2")], (21, 0, 2), f"{NODE_2}it tracks z", "track w in node 0"
    ),
    "the second edge": (
        [("x=0 y=0 z=2", "x=1 y=0 z=2")], (21, 0, NO_VARIABLE),
        f"{NODE_3}x' = y gives 0, and its concrete label has x = 1", "successors stand in branch order",
    ),
    "the second branch of the second edge": (
        [tracking(4, "x w")], (21, 0, 3),
        f"{NODE_4}it tracks w, and w' = smaller(x + w, 3) is unknown in the label of node 0, which does not track w",
        "track w in node 0, or stop tracking w in node 4",
    ),
}  # fmt: skip


class Seconds(unittest.TestCase):
    """The second places of 19 and 21, the library's and those of the rules of this package, and what is said."""

    SAID = {
        (19, True): "variable {} is the lowest that is mentioned and not tracked",
        (19, False): "no variable is missing: the target is known, and wrong for the node's kind",
        (21, True): "the successor's label does not follow in variable {}",
        (21, False): "the successor's concrete label does not follow",
    }

    def setUp(self):
        self.model = write_model(MODEL)

    def explained(self, changes=()):
        text = GRAPH
        for old, new in changes:
            self.assertEqual(text.count(old), 1, old)
            text = text.replace(old, new)
        return explain(self.model.data, write_graph(text, self.model.data, self.model.names).data, self.model.names)

    def test_unchanged(self):
        self.assertEqual(self.explained().outcome, (0, 0, 0))

    def test_situations(self):
        for name, (changes, outcome, said, advice) in SITUATIONS.items():
            with self.subTest(name):
                explanation = self.explained(changes)
                self.assertEqual(explanation.outcome, outcome)
                self.assertEqual(explanation.finding.outcome, outcome)
                number, place, second = outcome
                known = second < NO_VARIABLE
                second_told = self.SAID[number, known].format("xyzw"[second] if known else "")
                lines = explanation.lines()
                self.assertEqual(lines[:2], [f"refused {number} {place}", f"second place {second}: {second_told}"])
                self.assertIn(said, lines[2])
                self.assertIn(f"what to do: {advice}", lines[3])
                self.assertTrue(lines[4].endswith("Its number and both places are the proved ones."))
                self.assertEqual(explanation.data()["second"], second)


# A model whose guard and new value mention d and e, and a graph of which node 0 tracks neither.
UNTRACKED = """\
total 1
variable d 0..{d} = 0
variable e 0..{e} = 0
variable x -30000..30000 = 0
target not true
command turn: {guard}
  1: x' = {new}
"""
LED = """\
node 0 expanded value S tracks none state d=0 e=0 x=0
  edge turn: 1
node 1 waiting tracks x state d=0 e=0 x={x}
"""
EITHER = "d + e = 0 or not d + e = 0"
FEW, MANY = "it is not the same in all states ({} combinations): {}", "its {} combinations are too many to try, at most"
NOT_SETTLED = "4096, and its known parts do not settle it"

# By the highest d and e, a guard and a new value: the number and both places, and what is said of an unknown reading.
BY_ALL_STATES = {
    (1, 0, "d = 0 or not d = 0", "1"): ((0, 0, 0), None),
    (4095, 0, EITHER, "1"): ((0, 0, 0), None),
    (4096, 0, EITHER, "1"): ((19, 0, 0), f"which does not track d and e: {MANY.format(4097)} {NOT_SETTLED}"),
    (63, 63, EITHER, "1"): ((0, 0, 0), None),
    (63, 64, EITHER, "1"): ((19, 0, 0), f"which does not track d and e: {MANY.format(4160)} {NOT_SETTLED}"),
    (63, 64, f"true or {EITHER}", "1"): ((0, 0, 0), None),
    (63, 30000, "not d = 64", "1"): ((0, 0, 0), None),
    (63, 30000, "not d = 63", "1"): ((19, 0, 0), FEW.format(64, "true with d = 0, false with d = 63")),
    (15, 15, "not d + e = 30", "1"): (
        (19, 0, 0), FEW.format(256, "true with d = 0 and e = 0, false with d = 15 and e = 15")
    ),
    (0, 1, "d + e = 0", "1"): ((19, 0, 0), FEW.format(2, "true with d = 0 and e = 0, false with d = 0 and e = 1")),
    (1, 0, "true", "d - d"): ((0, 0, 0), None),
    (1, 0, "true", "0 * d"): ((0, 0, 0), None),
    (1, 0, "true", "if d = 0 then 1 else 1"): ((0, 0, 0), None),
    (4095, 0, "true", "if d = 4095 then 1 else 0"): ((21, 0, 2), FEW.format(4096, "0 with d = 0, 1 with d = 4095")),
    (4094, 0, "true", "if d = 4095 then 1 else 0"): ((0, 0, 0), None),
    (4096, 0, "true", "d - d"): ((21, 0, 2), f"which does not track d: {MANY.format(4097)} {NOT_SETTLED}"),
}  # fmt: skip


class AllStates(unittest.TestCase):
    """Readings by all states of a label, the library's and those of the rules of this package, and what is said."""

    def explained(self, d, e, guard, new):
        model = write_model(UNTRACKED.format(d=d, e=e, guard=guard, new=new))
        graph = LED.format(x=int(new.endswith("1")))
        return explain(model.data, write_graph(graph, model.data, model.names).data, model.names)

    def test_readings(self):
        for case, (outcome, said) in BY_ALL_STATES.items():
            with self.subTest(case):
                explanation = self.explained(*case)
                self.assertEqual(explanation.outcome, outcome)
                self.assertTrue(explanation.agrees)
                if said:
                    self.assertIn(said, explanation.lines()[2])
                    self.assertIn("what to do: track d", explanation.lines()[3])

    def test_sixteen_of_the_widest(self):
        """More combinations than any number of the library holds."""
        names = [f"v{k}" for k in range(16)]
        sums = names
        while sums[1:]:
            sums = [f"({a} + {b})" for a, b in zip(sums[::2], sums[1::2])]
        ranges = "".join(f"variable {name} -30000..30000 = 0\n" for name in names)
        aim = f"target {sums[0]} = 0 and not {sums[0]} = 0"
        model = write_model(f"total 1\n{ranges}{aim}\ncommand stay: true\n  1: v0' = v0\n")
        state = " ".join(f"{name}=0" for name in names)
        graph = write_graph(f"node 0 target tracks none state {state}\n", model.data, model.names)
        explanation = explain(model.data, graph.data, model.names)
        self.assertEqual((explanation.outcome, explanation.agrees), ((19, 0, 0), True))
        self.assertIn(MANY.format(60_001**16), explanation.lines()[2])


class Models(Room):
    CAUSES = {
        ("5: a' = 3", "5: a' = 3, d' = a"): (
            "10 2: branch record 2, branch 1 of command 1 (turn): a lies in 0..3, d in 0..1: write smaller(a, 1)"
        ),
        ("5: a' = 3", "5: a' = 4"): (
            "10 2: branch record 2, branch 1 of command 1 (turn): a' = 4, and a lies in 0..3"
        ),
        ("5: a' = 3", "4: a' = 3"): "11 1: command 1 (turn): the weights total 9, D is 10",
        ("target a = 2", "target a * 1000 * 1000 = 2"): (
            "6 3: expression 3: a * 1000 * 1000 lies in 0..3000000, and numbers stay in -1000000..1000000"
        ),
    }

    def test_where(self):
        """Of a folder too it is said whose branch it is: there is no line that would say it."""
        head = "total 10\nvariable a 0..3 = 0\nvariable d 0..1 = 0\ntarget a = 2\n"
        text = head + "command scan: a < 2\n  10: d' = 0\ncommand turn: a = 0\n  5: d' = 1\n  5: a' = 3\n"
        fold, graph = self.path("m.fold"), self.path("g.fold", b"")
        for (old, new), told in self.CAUSES.items():
            self.assertIn(old, text)
            self.assertEqual(run("model", self.path("m", text.replace(old, new)), "-o", fold, "--anyway")[0], 0)
            self.assertIn(f"refused {told}".replace(": ", "\n", 1), run("explain", fold, graph)[1].decode())
        data = bytearray(read(os.path.join(PEDAL, "model.fold")))
        data[160:162] = bytes(2)  # the weight of branch record 0
        lines = run("explain", self.path("w.fold", bytes(data)), graph)[1].decode().splitlines()
        self.assertEqual(lines[0], "refused 10 0")
        self.assertEqual(lines[1], "branch record 0, branch 0 of command 0: the weight is 0: leave the branch out")


class MixedUp(Room):
    def test_wrong_files(self):
        """The graph as the model, and texts in place of folders: the advice is about the files."""
        model, graph = os.path.join(PEDAL, "model.fold"), os.path.join(PEDAL, "graph.fold")
        told = {
            (graph, model): ("2 0", "is it a graph folder?", "name the model folder first, then the graph folder"),
            (model, model): ("13 0", "is it a model folder?", "name the model folder first, then the graph folder"),
            (os.path.join(PEDAL, "pedal.model"), graph): ("2 0", "is it text?", "first, by `laguipy model`"),
            (model, os.path.join(PEDAL, "pedal.graph")): ("13 0", "is it text?", "first, by `laguipy graph`"),
            (model, self.path("off", read(graph)[:-1])): ("13 1", "the folder has 151 bytes", "from the lengths of"),
        }
        for words, (answer, what, advice) in told.items():
            lines = run("explain", *words)[1].decode().splitlines()
            self.assertEqual(lines[0], f"refused {answer}")
            self.assertIn(what, lines[1])
            self.assertIn(advice, lines[2])


class Explain(unittest.TestCase):
    SAID = {
        "refused_19": "the guard of command 0, a < 2, is unknown in its label, which does not track a",
        "refused_20": "command 1 is enabled there, a = 0, and has no edge",
        "refused_21": "it tracks d, and d' = 1 - d is unknown in the label of node 0, which does not track d",
        "refused_22": "node 3 (a = 0, d = 1) is covered by node 4, which is itself covered, by node 1",
        "refused_23": "node 4 (a = 3, d = 0) is outside the label of its cover, node 0, which has a = 0",
        "refused_24": "node 3 (a = 0, d = 1) does not track a, and its cover, node 0, tracks a = 0",
        "refused_25": "node 0 (a = 0, d = 0) holds 9999999, command 0 asks for 10000000 at least",
    }

    def test_examples(self):
        for name, line in self.SAID.items():
            status, out, _ = run("explain", os.path.join(EXAMPLES, name))
            self.assertEqual(status, 1)
            self.assertIn(line, out.decode())
            places = "both places" if name in SECONDS else "place"
            self.assertIn(f"not part of what is proved. Its number and {places} are the proved ones", out.decode())
            data = json.loads(run("explain", "--json", os.path.join(EXAMPLES, name))[1])
            self.assertTrue(data["agrees"] and line in data["explanation"])
            self.assertEqual(data["second"], SECONDS.get(name, 0))
        self.assertEqual(run("explain", PEDAL)[0], 0)
        self.assertEqual(json.loads(run("explain", "--json", PEDAL)[1])["second"], 0)

    def test_one_that_does_not_agree_says_so(self):
        for outcome, finding in (
            ((25, 0, 0), Finding(24, 1, "something else")),
            ((25, 0, 0), Finding(25, 1, "something else")),
            ((21, 0, 1), Finding(21, 0, "something else", second=2)),
            ((0, 0, 0), Finding(24, 1, "something else")),
            ((25, 0, 0), None),
        ):
            other = Explanation(outcome, finding, None)
            self.assertIn("does NOT agree", other.lines()[-1])
            self.assertIn(told(finding.outcome) if finding else "no broken rule", other.lines()[-1])
            self.assertFalse(other.data()["agrees"])

    def test_the_second_place_is_the_library_s(self):
        """Not what the rules of this package find, and told where these differ too."""
        names = Names(["x", "y"], [])
        lines = Explanation((21, 0, 1), Finding(21, 0, "something else", second=0), names).lines()
        self.assertEqual(lines[1], "second place 1: the successor's label does not follow in variable y")
        self.assertIn("refused 21 0 with second place 1: it finds refused 21 0 with second place 0", lines[-1])
        self.assertIn("variable v1", Explanation((19, 0, 1), None, None).lines()[1])
        self.assertIn("variable v9", Explanation((19, 0, 9), None, names).lines()[1])


if __name__ == "__main__":
    unittest.main()
