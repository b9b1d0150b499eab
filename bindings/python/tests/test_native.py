"""The library's calls from Python: answers, rows at exit, and arguments that would not be safe."""
import json
import mmap
import os
import pickle
import tempfile
import threading
import unittest
from array import array

from support import PEDAL, damaged_bytes, example, read, seeded

import laguipy
from laguipy import Refusal, native

MODEL, GRAPH = example("pedal")
NONE = laguipy.NO_NODE
FIGURES = [10_000_000, 0, 100_000_000, 10_000_000, 0, laguipy.CERTAIN]


def rows(first=8, second=8):
    return array("I", [9] * first), array("I", [9] * second)


def changed(data, *changes):
    """A folder with other bytes, given by where they start."""
    data = bytearray(data)
    for at, *values in changes:
        data[at : at + len(values)] = values
    return bytes(data)


class Answers(unittest.TestCase):
    def test_pedal(self):
        self.assertIsNone(laguipy.model_check(MODEL))
        self.assertEqual(laguipy.graph_check(MODEL, GRAPH), (10_000_000, 0, 3, 2, 1))
        self.assertEqual(laguipy.graph_check(MODEL, GRAPH).nodes, 6)
        self.assertEqual(laguipy.figure(MODEL, GRAPH, 2).tolist(), FIGURES)
        self.assertEqual(laguipy.step(MODEL, [0, 0], 0, 1).tolist(), [1, 0])
        self.assertEqual(bytes(laguipy.record_part(MODEL, 0, 0)), bytes((10, 0, 8, 0)))
        self.assertEqual(bytes(laguipy.record_part(MODEL, 5, 0)), b"")

    def refused(self, call, *arguments):
        with self.assertRaises(Refusal) as caught:
            call(*arguments)
        refusal = caught.exception
        return refusal.number, refusal.place, refusal.second

    def test_refusals(self):
        self.assertEqual(self.refused(laguipy.model_check, b""), (1, 0, 0))
        self.assertEqual(self.refused(laguipy.graph_check, MODEL, GRAPH[1:]), (13, 0, 0))
        self.assertEqual(self.refused(laguipy.figure, MODEL, GRAPH, 10_001), (27, 0, 0))
        self.assertEqual(self.refused(laguipy.figure, MODEL, GRAPH, 1, *rows(5, 8)), (28, 0, 0))
        self.assertEqual(self.refused(laguipy.figure_refusal, MODEL, GRAPH, 1, *rows(8, 5)), (28, 1, 0))
        self.assertEqual(self.refused(laguipy.step, MODEL, [1, 0], 1, 0), (32, 1, 0))
        self.assertEqual(self.refused(laguipy.step, MODEL, [0], 0, 0), (29, 0, 0))
        self.assertEqual(self.refused(laguipy.step, MODEL, [0, 0], 2**64 - 1, 0), (31, 2**64 - 1, 0))

    def test_refusal(self):
        self.assertEqual(str(Refusal(21, 3, 1)), "refused 21 3")
        self.assertEqual(Refusal(25, 3), Refusal(25, 3, 0))
        self.assertNotEqual(Refusal(21, 3, 1), Refusal(21, 3, 2))
        self.assertEqual(pickle.loads(pickle.dumps(Refusal(21, 3, 1))).second, 1)

    def test_second_places(self):
        """Of 19 and 21 every call that checks the graph gives the second place."""
        calls = (
            laguipy.graph_check,
            laguipy.index,
            lambda *folders: laguipy.figure(*folders, 1),
            lambda *folders: laguipy.figure_rows(*folders, 1, *rows()),
            lambda *folders: laguipy.figure_refusal(*folders, 1, *rows()),
        )
        told = read(os.path.join(PEDAL, "pedal.graph"), "r").replace("node 5 target", "node 5 expanded")
        wrong_kind = laguipy.write_graph(told, MODEL, ["a", "d"]).data
        for call in calls:
            self.assertEqual(self.refused(call, *example("refused_19")), (19, 0, 0))
            self.assertEqual(self.refused(call, *example("refused_21")), (21, 0, 1))
            self.assertEqual(self.refused(call, MODEL, wrong_kind), (19, 5, laguipy.NO_VARIABLE))

    def test_second_place_of_all_others(self):
        """It is 0, of every number but 19 and 21."""
        model = lambda *changes: (laguipy.model_check, changed(MODEL, *changes))  # noqa: E731
        graph = lambda *changes: (laguipy.graph_check, MODEL, changed(GRAPH, *changes))  # noqa: E731
        waiting = laguipy.write_graph("node 0 waiting tracks none state a=0 d=0\n", MODEL, ["a", "d"]).data
        ways = {
            1: (laguipy.model_check, b""),
            2: (laguipy.model_check, MODEL + b"x"),
            3: (laguipy.model_check, changed(MODEL, (36, 17))[:-1]),
            4: model((44, 5)),
            5: model((56, 15)),
            6: model((46, 48, 117), (74, 255, 127), (136, 4)),
            7: model((40, 0)),
            8: model((152, 0)),
            9: model((158, 2)),
            10: model((160, 0)),
            11: model((160, 8)),
            12: (laguipy.graph_check, MODEL, b""),
            13: (laguipy.graph_check, MODEL, GRAPH[1:]),
            14: graph((4, 119), (8, 135), (12, 17)),
            15: graph((16, 7)),
            16: graph((136, 9)),
            17: graph((28, 1)),
            18: graph((32, 1)),
            **{number: (laguipy.graph_check, *example(f"refused_{number}")) for number in (20, 22, 23, 24, 25)},
            26: (laguipy.figure, MODEL, waiting, 1),
            27: (laguipy.figure, MODEL, GRAPH, 10_001),
            28: (laguipy.figure, MODEL, GRAPH, 1, *rows(5, 8)),
            29: (laguipy.step, MODEL, [0], 0, 0),
            30: (laguipy.step, MODEL, [9, 0], 0, 0),
            31: (laguipy.step, MODEL, [0, 0], 2, 0),
            32: (laguipy.step, MODEL, [1, 0], 1, 0),
            33: (laguipy.step, MODEL, [0, 0], 1, 1),
            34: (laguipy.index, MODEL, GRAPH, [0]),
            35: (laguipy.build, MODEL, 1_001),
        }
        self.assertEqual(set(ways), set(range(1, 36)) - {19, 21})
        for number, way in ways.items():
            came, _, second = self.refused(*way)
            self.assertEqual((came, second), (number, 0))

    def test_rows(self):
        first, second = rows()
        part = laguipy.figure(MODEL, GRAPH, 3, first, second)
        self.assertEqual((part.tolist(), part.obj is second), (FIGURES, True))
        self.assertEqual(first.tolist(), FIGURES + [9, 9])
        for h in range(4):
            (one, two), (three, four) = rows(), rows(7, 9)
            laguipy.figure_rows(MODEL, GRAPH, h, one, two)
            laguipy.figure(MODEL, GRAPH, h, three, four)
            self.assertEqual((one.tolist()[:7], two.tolist() + [9]), (three.tolist(), four.tolist()))
        laguipy.figure_refusal(MODEL, GRAPH, 3, *rows())

    def test_refused_rows_stay(self):
        for call in (laguipy.figure, laguipy.figure_rows, laguipy.figure_refusal):
            first, second = rows()
            self.assertEqual(self.refused(call, MODEL, GRAPH[:-1], 3, first, second)[0], 13)
            self.assertEqual((first, second), rows())
        result = array("h", [7] * 4)
        self.assertEqual(self.refused(laguipy.step, MODEL, [9, 0], 0, 1, result), (30, 0, 0))
        self.assertEqual(result.tolist(), [7] * 4)
        self.assertEqual(laguipy.step(MODEL, [0, 0], 0, 1, result).tolist(), [1, 0])
        self.assertEqual(result.tolist(), [1, 0, 7, 7])


    def test_index(self):
        """The pedal example: node 4 shares node 1's state, and is covered; explored twice, it is listed."""
        states = [0, 0, 3, 0, 1, 0, 0, 1, 2, 0, 3, 1, -1, 0]
        found = laguipy.index(MODEL, GRAPH, states)
        self.assertEqual((found.listed.tolist(), found.answers.tolist()), ([], [0, 1, 2, 3, 5, NONE, NONE]))
        slots, answers, listing = (array("H", [9] * length) for length in (laguipy.SLOTS, 9, 8))
        found = laguipy.index(*example("explored_twice"), array("h", states), slots, answers, listing)
        self.assertEqual((found.listed.tolist(), listing.tolist()), ([4], [4] + [9] * 7))
        self.assertEqual(answers.tolist(), [0, 1, 2, 3, 5, NONE, NONE, 9, 9])
        self.assertEqual(sorted(slots)[:6], [0, 1, 2, 3, 5, NONE])
        self.assertEqual((found.listed.obj, found.answers.obj), (listing, answers))
        self.assertEqual(laguipy.index(MODEL, GRAPH).answers.tolist(), [])

    def test_index_refused(self):
        wrong = ((8191, 3, 6), [0, 0]), ((8192, 3, 6), [0]), ((8192, 0, 6), [0, 0]), ((8192, 1, 5), [0, 0])
        for place, (lengths, batch) in enumerate(wrong):
            lent = [array("H", [9] * length) for length in lengths]
            self.assertEqual(self.refused(laguipy.index, MODEL, GRAPH, batch, *lent), (34, place, 0))
            self.assertEqual([row.tolist() for row in lent], [[9] * length for length in lengths])
        self.assertEqual(self.refused(laguipy.index, MODEL, GRAPH[:-1], [0]), (13, 1, 0))

    def test_index_arguments(self):
        room = array("H", bytes(2 * laguipy.SLOTS))
        for rows in ((room, room), (bytearray(16384),), (array("h", room),), (array("I", room),), ([0] * 8192,)):
            with self.assertRaises((TypeError, ValueError)):
                laguipy.index(MODEL, GRAPH, [0, 0], *rows)
        for batch in ([40_000, 0], ["a", "b"], None, [0.5, 1]):
            with self.assertRaises((TypeError, ValueError)):
                laguipy.index(MODEL, GRAPH, batch)


class Built(unittest.TestCase):
    """The builder. The graph of the pedal example's model is the example's, but for values."""

    ONE, FOUR, WHOLE = 36, 106, 152  # bytes of a graph of one node, of the root with its successors, and of all nodes
    SURE = laguipy.CERTAIN.to_bytes(4, "little")

    def refused(self, *arguments):
        with self.assertRaises(Refusal) as caught:
            laguipy.build_in(*arguments)
        return caught.exception.args

    def test_pedal(self):
        built = changed(GRAPH, (20, *self.SURE), (80, *self.SURE))
        self.assertEqual(laguipy.build(MODEL), built)
        self.assertEqual(laguipy.graph_check(MODEL, built), (laguipy.CERTAIN, 0, 3, 2, 1))
        self.assertEqual(laguipy.figure(MODEL, built, 2).tolist(), FIGURES)

    def test_rounds(self):
        """Dead ends come down in the first round, what leads to them in the second."""
        value = lambda graph, node: int.from_bytes(graph[20 + 20 * node :][:4], "little")  # noqa: E731
        values = [[value(laguipy.build(MODEL, rounds), node) for node in range(6)] for rounds in (0, 1, 2, 3)]
        sure, tenth = laguipy.CERTAIN, 100_000_000
        self.assertEqual(values[0], [sure] * 6)
        self.assertEqual(values[1], [sure, 0, sure, sure, 0, sure])
        self.assertEqual(values[2:], [[sure, 0, tenth, sure, 0, sure]] * 2)
        self.assertEqual(laguipy.build(MODEL, 3), laguipy.build(MODEL, laguipy.MOST_ROUNDS))

    def test_room(self):
        kinds = {self.ONE: (1, 0, 0, 0), self.FOUR: (2, 2, 0, 0), self.WHOLE: (0, 3, 2, 1)}
        for room in (*range(self.ONE, self.WHOLE + 3), laguipy.GRAPH_BYTES, laguipy.GRAPH_BYTES + 1, 2**64 - 1):
            graph = laguipy.build(MODEL, 7, room)
            self.assertEqual(len(graph), max(length for length in kinds if length <= room))
            self.assertEqual(laguipy.graph_check(MODEL, graph)[1:], kinds[len(graph)])

    def test_the_slice(self):
        """Bytes past the graph stay; refused, all of them."""
        for make in (bytearray, lambda data: array("B", data), lambda data: memoryview(bytearray(data))):
            out = make(b"\x5a" * 200)
            part = laguipy.build_in(MODEL, 0, out)
            self.assertEqual((bytes(part), len(part)), (laguipy.build(MODEL, 0), self.WHOLE))
            self.assertEqual(bytes(out), bytes(part) + b"\x5a" * 48)
        for model, rounds, room, due in (
            (MODEL, 1_000, self.ONE - 1, (35, 0, 0)),
            (MODEL, 1_001, self.ONE, (35, 1, 0)),
            (MODEL, 2**64 - 1, self.WHOLE, (35, 1, 0)),
            (MODEL, 1_001, 0, (35, 0, 0)),
            (MODEL[1:], 1_001, 0, (2, 0, 0)),
            (changed(MODEL, (160, 8)), 1_001, self.ONE - 1, (11, 0, 0)),
            (b"", 0, self.WHOLE, (1, 0, 0)),
        ):
            out = bytearray(b"\x5a" * room)
            self.assertEqual(self.refused(model, rounds, out), due)
            self.assertEqual(out, b"\x5a" * room)

    def test_every_model(self):
        """What is built is accepted, whatever the model and the room are."""
        dice, accepted = seeded(35), 0
        for name in ("pedal", "scan_loop", "mixer", "dead_converter"):
            for _ in range(500):
                model, room = damaged_bytes(example(name)[0], dice), dice.choice((40, 100, 200, 400, 9_000, 600_000))
                try:
                    laguipy.model_check(model)
                    graph = laguipy.build(model, dice.randrange(9), room)
                    self.assertLessEqual(len(graph), room)
                    self.assertEqual(laguipy.graph_check(model, graph).nodes > 0, True)
                    accepted += 1
                except Refusal as refusal:
                    self.assertIn(refusal.number, range(1, 12))
        self.assertGreaterEqual(accepted, 50)

    def test_a_deep_graph(self):
        """A value moves up a level in a round, so that 1,000 rounds bring that of a chain of 1,000 nodes down."""
        for length, root in ((1_000, 0), (1_001, laguipy.CERTAIN), (1_500, laguipy.CERTAIN)):
            text = f"total 1\nvariable x 0..{length - 1} = 0\ntarget x < 0\ncommand x < {length - 1}\n"
            model = laguipy.write_model(text + f"  1: x' = smaller(x + 1, {length - 1})\n").data
            found = laguipy.graph_check(model, laguipy.build(model))
            self.assertEqual((found.root, found.expanded), (root, length))

    def test_arguments(self):
        held = bytearray(MODEL)
        self.assertEqual(laguipy.build_in(held, 0, held), laguipy.build(MODEL, 0))
        for out in (None, 5, "text", bytes(200), array("H", bytes(200)), array("b", bytes(200)), [0] * 200):
            with self.assertRaises(TypeError, msg=repr(out)):
                laguipy.build_in(MODEL, 0, out)
        with self.assertRaises(TypeError):
            laguipy.build_in(MODEL, 0, memoryview(bytearray(400))[::2])
        for rounds, room in ((-1, 200), (2**64, 200), (0, -1), (0, 2**64)):
            with self.assertRaises(ValueError):
                laguipy.build(MODEL, rounds, room)
        for rounds, room in ((1.5, 200), ("1", 200), (0, None)):
            with self.assertRaises(TypeError):
                laguipy.build(MODEL, rounds, room)
        with self.assertRaises(TypeError):
            laguipy.build("text")
        out = bytearray(200)
        laguipy.build_in(MODEL, 0, out).release()
        out.append(1)


class Arguments(unittest.TestCase):
    """What holds bytes is taken; what would not be safe is refused before the library sees it."""

    def test_folders(self):
        ways = (bytes, bytearray, memoryview, lambda data: memoryview(bytearray(data)), lambda data: array("B", data))
        for make in ways:
            self.assertEqual(laguipy.graph_check(make(MODEL), make(GRAPH)).root, 10_000_000)
        spread = memoryview(bytes(b for byte in MODEL for b in (byte, 0)))[::2]
        self.assertIsNone(laguipy.model_check(spread))
        with tempfile.TemporaryFile() as file:
            file.write(MODEL)
            file.flush()
            with mmap.mmap(file.fileno(), 0, access=mmap.ACCESS_READ) as mapped:
                self.assertIsNone(laguipy.model_check(mapped))

    def test_bytes_are_not_copied(self):
        self.assertIs(native.folder_bytes(MODEL), MODEL)
        self.assertIs(native.folder_bytes(memoryview(MODEL)), MODEL)
        self.assertIs(laguipy.record_part(MODEL, 1, 0).obj, MODEL)
        changing = bytearray(MODEL)
        self.assertIsNot(native.folder_bytes(changing), changing)

    def test_wrong_folders(self):
        for data in ("text", None, 7, [1, 2], array("I", [1])):
            with self.assertRaises(TypeError):
                laguipy.model_check(data)

    def test_wrong_rows(self):
        good = rows()[0]
        wrong = (None, 5, [0] * 8, bytes(32), array("i", [0] * 8), array("Q", [0] * 8), array("H", [0] * 8), b"")
        for row in (*wrong, memoryview(bytes(32)).cast("I"), memoryview(good)[::2]):
            with self.assertRaises((TypeError, ValueError), msg=repr(row)):
                laguipy.figure_rows(MODEL, GRAPH, 1, good, row)
            with self.assertRaises((TypeError, ValueError), msg=repr(row)):
                laguipy.figure_rows(MODEL, GRAPH, 1, row, good)

    def test_alignment_and_overlap(self):
        room = bytearray(64)
        with self.assertRaises((TypeError, ValueError)):
            laguipy.figure_rows(MODEL, GRAPH, 1, rows()[0], memoryview(room)[1:33].cast("I"))
        whole = memoryview(array("I", [0] * 12))
        with self.assertRaises(ValueError):
            laguipy.figure_rows(MODEL, GRAPH, 1, whole[:8], whole[4:])
        with self.assertRaises(ValueError):
            laguipy.figure_rows(MODEL, GRAPH, 1, whole, whole)
        apart = memoryview(array("I", [0] * 12))
        laguipy.figure_rows(MODEL, GRAPH, 1, apart[:6], apart[6:])
        self.assertEqual(apart.tolist()[6:], [0, 0, 100_000_000, 0, 0, laguipy.CERTAIN])

    def test_empty_rows(self):
        with self.assertRaises(Refusal) as caught:
            laguipy.figure_rows(MODEL, GRAPH, 1, array("I"), array("I"))
        self.assertEqual(caught.exception, Refusal(28, 0))

    def test_numbers(self):
        for h in (-1, 2**64):
            with self.assertRaises(ValueError):
                laguipy.figure(MODEL, GRAPH, h)
        with self.assertRaises(TypeError):
            laguipy.figure(MODEL, GRAPH, 1.5)
        with self.assertRaises(ValueError):
            laguipy.step(MODEL, [40_000, 0], 0, 0)
        with self.assertRaises(TypeError):
            laguipy.step(MODEL, ["a"], 0, 0)

    def test_a_lent_row_can_be_resized_again(self):
        first, second = rows()
        laguipy.figure_rows(MODEL, GRAPH, 1, first, second)
        first.append(1)
        second.append(1)

    def test_threads(self):
        wrong = []

        def work():
            for h in range(200):
                if laguipy.figure(MODEL, GRAPH, h)[5] != laguipy.CERTAIN:
                    wrong.append(h)

        running = [threading.Thread(target=work) for _ in range(8)]
        for thread in running:
            thread.start()
        for thread in running:
            thread.join()
        self.assertEqual(wrong, [])


@unittest.skipUnless(os.environ.get("LAGUIPY_ANSWERS"), "LAGUIPY_ANSWERS names no file of answers")
class Independent(unittest.TestCase):
    """Every call against the answers of the independent Rust implementation, which `answers` has written."""

    def test_answers(self):
        count = 0
        with open(os.environ["LAGUIPY_ANSWERS"], encoding="utf-8") as file:
            for line in file:
                self.compare(json.loads(line))
                count += 1
        self.assertGreaterEqual(count, 1_000)

    def answer(self, call, *arguments):
        try:
            return (0, 0, 0), call(*arguments)
        except Refusal as refusal:
            return (refusal.number, refusal.place, refusal.second), None

    def due(self, case, call):
        return tuple(case["answers"][call][key] for key in ("number", "place", "second"))

    def compare(self, case):
        model, graph = bytes.fromhex(case["model"]), bytes.fromhex(case["graph"])
        name = f"seed {case['seed']} ({case['name']})"
        answers = case["answers"]
        self.assertEqual(self.answer(laguipy.model_check, model)[0], self.due(case, "model"), name)
        came, summary = self.answer(laguipy.graph_check, model, graph)
        self.assertEqual(came, self.due(case, "graph"), name)
        if summary:
            self.assertEqual(list(summary), answers["graph"]["values"], name)
        part = laguipy.record_part(model, case["body"], case["record"])
        start = answers["part"]["start"]
        self.assertEqual(bytes(part), model[start : start + answers["part"]["length"]], name)
        self.compare_figures(case, model, graph, name)
        result = array("h", case["result_before"])
        came, _ = self.answer(laguipy.step, model, case["state"], case["command"], case["branch"], result)
        self.assertEqual((came, result.tolist()), (self.due(case, "step"), answers["step"]["result"]), name)
        self.compare_index(case, model, graph, name)

    def compare_figures(self, case, model, graph, name):
        due = case["answers"]["figure"]
        for call in (laguipy.figure, laguipy.figure_rows, laguipy.figure_refusal):
            before = [array("I", case["first_before"]), array("I", case["second_before"])]
            came, part = self.answer(call, model, graph, case["h"], *before)
            self.assertEqual(came, self.due(case, "figure"), name)
            if call is laguipy.figure_refusal:
                self.assertEqual([row.tolist() for row in before], [case["first_before"], case["second_before"]], name)
                continue
            self.assertEqual([row.tolist() for row in before], [due["first_row"], due["second_row"]], name)
            if part is not None:
                held = due["second_row"] if due["row"] else due["first_row"]
                self.assertEqual(part.tolist(), held[: due["nodes"]], name)
                self.assertIs(part.obj, before[due["row"]], name)


    def compare_index(self, case, model, graph, name):
        due, before = case["answers"]["index"], [array("H", [fill] * length) for length, fill in case["index_rows"]]
        slots, answers, listing = rows = [row[:] for row in before]
        came, found = self.answer(laguipy.index, model, graph, case["batch"], *rows)
        self.assertEqual(came, self.due(case, "index"), name)
        if due["slots"] is None:
            self.assertEqual((rows, found), (before, None), name)
            return
        entered = [[slot, node] for slot, node in enumerate(slots) if node != NONE]
        self.assertEqual((entered, len(slots)), (due["slots"], laguipy.SLOTS), name)
        self.assertEqual((answers.tolist(), listing.tolist()), (due["answers"], due["listing"]), name)
        self.assertEqual(found.listed.tolist(), due["listing"][: due["listed"]], name)


class Header(unittest.TestCase):
    def test_limits_and_version(self):
        """The numbers of the header are those of the package."""
        text = read(os.path.join(os.path.dirname(__file__), "..", "..", "..", "include", "laguipy.h"), "r")
        words = [line.split() for line in text.splitlines() if line.startswith("#define LAGUIPY_")]
        defined = {line[1]: line[2] for line in words if len(line) == 3}
        limits = "CERTAIN MOST_NODES MOST_VARIABLES MOST_STEPS MODEL_BYTES GRAPH_BYTES SLOTS NO_NODE NO_VARIABLE"
        for name in limits.split():
            self.assertEqual(int(defined[f"LAGUIPY_{name}"]), getattr(laguipy, name), name)
        self.assertEqual(defined["LAGUIPY_VERSION"].strip('"'), laguipy.__version__)


if __name__ == "__main__":
    unittest.main()
