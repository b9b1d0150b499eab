"""The rules behind `explain` against the answers of the independent Rust implementation, written by `answers`."""
import json
import os
import unittest

import support  # noqa: F401

from laguipy import NO_VARIABLE
from laguipy.explain import ACCEPTED, finding_of


@unittest.skipUnless(os.environ.get("LAGUIPY_ANSWERS"), "LAGUIPY_ANSWERS names no file of answers")
class Independent(unittest.TestCase):
    def test_number_and_places(self):
        seen, seconds = set(), set()
        with open(os.environ["LAGUIPY_ANSWERS"], encoding="utf-8") as file:
            for line in file:
                case = json.loads(line)
                found = finding_of(bytes.fromhex(case["model"]), bytes.fromhex(case["graph"]), None)
                due = case["answers"]["graph"]
                came = found.outcome if found else ACCEPTED
                answer = tuple(due[key] for key in ("number", "place", "second"))
                self.assertEqual(came, answer, f"seed {case['seed']} ({case['name']})")
                seen.add(due["number"])
                if due["number"] in (19, 21):
                    seconds.add((due["number"], min(due["second"], 2) if due["second"] < NO_VARIABLE else NO_VARIABLE))
        self.assertEqual(seen, set(range(26)), "every number of the graph check, and acceptance")
        met = {(number, second) for number in (19, 21) for second in (0, 1, 2, NO_VARIABLE)}
        self.assertEqual(seconds, met, "variables 0, 1 and above, and none")


if __name__ == "__main__":
    unittest.main()
