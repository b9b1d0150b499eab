"""`laguipy index`: nodes that share a concrete state, and states given as text."""
import json
import os
import random
import unittest

from support import EXAMPLES, PEDAL, Room, damaged_text, read, run, start

from laguipy.errors import UsageError
from laguipy.shared import state_of

TWICE = os.path.join(EXAMPLES, "explored_twice")


class Index(Room):
    def test_listing(self):
        self.assertEqual(run("index", PEDAL)[:2], (0, b"shared 0\n"))
        told = b"shared 1\nnode 4 has the state of node 1: a=3 d=0\n"
        self.assertEqual(run("index", TWICE)[:2], (0, told))
        files = os.path.join(TWICE, "model.fold"), os.path.join(TWICE, "graph.fold")
        self.assertEqual(run("index", *files)[:2], (0, told))
        self.assertEqual(start("index", files[0], "-", input=read(files[1])).stdout, told)

    def test_states(self):
        status, out, _ = run("index", PEDAL, "a=3,d=0", "d = 1, a = 0", "3,1", "-1,0", "2 0")
        told = "shared 0|a=3 d=0: node 1|a=0 d=1: node 3|a=3 d=1: no node|a=-1 d=0: no node|a=2 d=0: node 5"
        self.assertEqual((status, out.decode().splitlines()), (0, told.replace("|", "|state ").split("|")))
        path = self.path("states", b"a=3 d=0  # shown\n\n# none\n0,1\n")
        self.assertEqual(run("index", PEDAL, "--states", path)[1].count(b"state "), 2)
        came = start("index", PEDAL, "2,0", "--states", "-", input=b"0 0\n")
        self.assertEqual(came.stdout, b"shared 0\nstate a=2 d=0: node 5\nstate a=0 d=0: node 0\n")

    def test_json(self):
        data = json.loads(run("index", "--json", TWICE, "a=3,d=0", "3,1")[1])
        self.assertEqual(data["shared"], [{"node": 4, "first": 1, "state": {"a": 3, "d": 0}}])
        self.assertEqual([found["node"] for found in data["states"]], [1, None])
        data = json.loads(run("index", "--json", os.path.join(EXAMPLES, "refused_25"))[1])
        self.assertEqual((data["number"], data["place"]), (25, 0))

    def test_wrong_states(self):
        wrong = {
            "a=3": "says nothing of d",
            "a=3,a=3": "'a' stands twice",
            "a=3,x=1": "there is no variable 'x': the names are a, d",
            "a=3,1": "'1' has no '='",
            "1,2,3": "a state has 2 values (a d), and '1,2,3' has 3",
            "a=y,d=0": "the value of a is a whole number, and this is 'y'",
            "a=32768,d=0": "the value of a is -32768 to 32767, and this is '32768'",
            "a=0,d=-" + "9" * 9_999: "the value of d is -32768 to 32767",
        }
        for state, told in wrong.items():
            status, out, said = run("index", PEDAL, state)
            self.assertEqual((status, out), (2, b""), state[:40])
            self.assertIn(told, said)
        path = self.path("states", b"0 0\n\na=3\n")
        status, out, said = run("index", PEDAL, "--states", path)
        self.assertEqual((status, out), (1, b""))
        self.assertIn("states:3: 'a=3' says nothing of d", said)
        self.assertEqual(run("index", PEDAL, "--states", self.path("none"))[0], 1)

    def test_damaged_states(self):
        dice = random.Random(1)
        for _ in range(2_000):
            text = damaged_text("a=3,d=0", dice)
            try:
                self.assertEqual(len(state_of(text, ["a", "d"])), 2, text)
            except UsageError:
                pass

    def test_refused(self):
        status, out, said = run("index", os.path.join(EXAMPLES, "refused_22"))
        self.assertEqual((status, out), (1, b"refused 22 3\n"))
        self.assertIn("C3", said)

    def test_lowest_is_covered(self):
        """Covered nodes answer for a state, and are no part of what is listed."""
        more = "".join(f"node {n} waiting tracks none state a=0 d=1\n" for n in (6, 7))
        text = self.path("more.graph", read(os.path.join(PEDAL, "pedal.graph"), "r") + more)
        model, graph = os.path.join(PEDAL, "model.fold"), self.path("graph.fold")
        self.assertEqual(run("graph", text, "-m", model, "-o", graph)[0], 0)
        told = b"shared 1\nnode 7 has the state of node 6: a=0 d=1\nstate a=0 d=1: node 3\n"
        self.assertEqual(run("index", model, graph, "a=0,d=1")[:2], (0, told))


if __name__ == "__main__":
    unittest.main()
