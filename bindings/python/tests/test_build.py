"""`laguipy build`: graphs built of models, what is said of them, and words, files and models that do not do."""
import io
import json
import os
import random
import signal
import subprocess
import sys
import time
import unittest
import unittest.mock

from support import PEDAL, ROOT, SCAN, Room, damaged_bytes, example, interruptible, read, run, start

import laguipy
from laguipy import builder, native, write_model
from laguipy.folder import read_graph, read_model, shape_of
from laguipy.limits import CERTAIN
from laguipy.output import Ticker

# Many branches to an edge, so that a slice for some nodes may hold more of them.
WIDE = "total 16\nvariable a 0..15 = 0\nvariable b 0..3 = 0\ntarget a = 15 and b = 3\ncommand spread: a < 15\n"
WIDE += "".join(f"  1: a' = {k}, b' = smaller(b + 1, 3)\n" for k in range(16))
WIDE += "command turn: b < 3\n  16: b' = smaller(b + 1, 3)\n"
# It goes on for ever, safely.
LOOP = "total 1\nvariable x 0..1 = 0\ntarget x < 0\ncommand turn: true\n  1: x' = 1 - x\n"
# Five variables of nine values, in more states than a graph has nodes.
LARGE = "total 1\n" + "".join(f"variable x{k} 0..8 = 0\n" for k in range(5)) + "target x0 + x1 + x2 + x3 + x4 = 99\n"
LARGE += "".join(f"command up{k}: x{k} < 8\n  1: x{k}' = smaller(x{k} + 1, 8)\n" for k in range(5))


def model_of(text):
    return write_model(text).data


def chain(length):
    """A model whose graph is a chain of so many nodes, the last of them a dead end."""
    head = f"total 1\nvariable x 0..{length - 1} = 0\ntarget x < 0\n"
    return model_of(head + f"command on: x < {length - 1}\n  1: x' = smaller(x + 1, {length - 1})\n")


def nodes_of(model, graph):
    return laguipy.graph_check(model, graph).nodes


def searched(model, most, rounds):
    """The graph built in the longest slice that gives at most so many nodes, by a search over the lengths."""
    low, high = 16 + 12 + 4 * len(read_model(model).variables), laguipy.GRAPH_BYTES
    while low < high:
        middle = (low + high + 1) // 2
        if nodes_of(model, laguipy.build(model, 0, middle)) <= most:
            low = middle
        else:
            high = middle - 1
    return laguipy.build(model, rounds, low)


class Building(Room):
    def model(self, data, folder="m"):
        """A folder with this model."""
        return os.path.dirname(self.path(f"{folder}/model.fold", data))

    def built(self, *words):
        """What is printed and said where all is well."""
        status, out, said = run("build", *words)
        self.assertEqual(status, 0, said)
        return out.decode(), said


class Build(Building):
    def test_pedal(self):
        folder = self.model(example("pedal")[0])
        out, said = self.built(folder)
        fold = os.path.join(folder, "graph.fold")
        counts = "6 nodes, 3 expanded, 2 covered, 1 target, 0 waiting; 152 bytes"
        self.assertEqual(out, f"{fold}: {counts}\nroot 1000000000 100 %\n")
        self.assertIn("laguipy: it can go on for ever from node 0, which counts as reaching a target, however", said)
        self.assertIn(f"`laguipy figures {folder} 1000` has the chance within 1000 steps", said)
        self.assertEqual(run("figures", folder, "1000")[1], b"within 1000 10000000 1 %\n")
        self.assertTrue(run(folder)[1].startswith(b"accepted 6 nodes 3 expanded 2 covered 1 target 0 waiting\n"))
        self.assertEqual(self.built("-q", folder), (out, ""))

    def test_places(self):
        """A directory, a file and standard input; the graph beside the model, elsewhere and on standard output."""
        model = example("scan_loop")[0]
        due, folder = laguipy.build(model), self.model(model)
        for words, out in (
            ((folder,), "m/graph.fold"),
            ((os.path.join(folder, "model.fold"),), "m/graph.fold"),
            ((os.path.join(SCAN, "model.fold"), "-o", self.path("a.fold")), "a.fold"),
            (("-o", self.path("b.fold"), SCAN), "b.fold"),
        ):
            told = self.built(*words)[0]
            self.assertTrue(told.startswith(self.path(out) + ": 19 nodes, "), told)
            self.assertEqual(read(self.path(out)), due)
            os.remove(self.path(out))
        for words in (("-",), ("-", "-o", "-"), (SCAN, "-o", "-")):
            came = start("build", *words, input=model)
            self.assertEqual((came.returncode, came.stdout), (0, due), words)
            lines = came.stderr.decode().splitlines()
            self.assertTrue(lines[0].startswith("laguipy: 19 nodes, 5 expanded, "), lines)
            self.assertEqual(lines[1], "laguipy: root 1000000000 100 %")
        self.assertIn("figures MODEL GRAPH 1000", start("build", "-", input=model).stderr.decode())
        self.assertEqual(sorted(os.listdir(folder)), ["model.fold"])
        self.assertEqual(read(os.path.join(SCAN, "graph.fold")), example("scan_loop")[1])

    def test_json(self):
        folder = self.model(example("dead_converter")[0])
        fold = os.path.join(folder, "graph.fold")
        data = json.loads(self.built("--json", folder)[0])
        self.assertEqual(len(data.pop("notes")), 2)
        counts = {"nodes": 8, "expanded": 4, "covered": 3, "target": 1, "waiting": 0}
        due = {"answer": "done", "file": fold, "bytes": 228, **counts, "root": 183_160_503, "rounds": 1000}
        self.assertEqual(data, {**due, "settled": False, "endless": []})
        data = json.loads(self.built("--json", "-q", folder, "--rounds", "0", "--nodes", "3")[0])
        self.assertEqual((data["nodes"], data["waiting"], data["rounds"], data["notes"]), (1, 1, 0, []))
        self.assertEqual(self.built("--json", folder)[1], "")
        data = json.loads(self.built("--json", self.model(example("mixer")[0], "mixer"))[0])
        self.assertEqual((data["settled"], data["endless"], len(data["notes"])), (True, [0, 1], 2))
        data = json.loads(run("build", "--json", folder, "--rounds", "1001")[1])
        self.assertEqual([data[key] for key in ("answer", "number", "place", "second")], ["refused", 35, 1, 0])
        self.path("m/model.fold", b"")
        data = json.loads(run("build", "--json", folder)[1])
        self.assertEqual([data[key] for key in ("answer", "number", "place")], ["refused", 1, 0])
        self.assertEqual((data["file"], data["message"][:23]), (self.path("m/model.fold"), "the model has 0 bytes, "))
        data = json.loads(run("build", "--json", self.path("nowhere"))[1])
        told = f"{self.path('nowhere')}: cannot be read: No such file or directory"
        self.assertEqual(data, {"answer": "error", "message": told})

    def test_every_model(self):
        """Whatever the bytes are: refused as the model check refuses, or built as the library builds, and accepted."""
        dice, accepted = random.Random(25), 0
        for name in ("pedal", "scan_loop", "mixer", "dead_converter"):
            for _ in range(100):
                model = damaged_bytes(example(name)[0], dice)
                folder = self.model(model)
                status, out, _ = run("build", folder, "-q")
                try:
                    laguipy.model_check(model)
                    self.assertEqual(read(self.path("m/graph.fold")), laguipy.build(model))
                    self.assertEqual((status, run("-q", folder)[0]), (0, 0))
                    accepted += 1
                except laguipy.Refusal as refusal:
                    self.assertEqual((status, out), (1, f"{refusal}\n".encode()))
        self.assertGreaterEqual(accepted, 10)


class Limits(Building):
    def test_rounds(self):
        folder = self.model(chain(1000))
        for rounds, root, settled in (("0", CERTAIN, False), ("999", CERTAIN, False), ("1000", 0, True)):
            data = json.loads(self.built("--json", folder, "--rounds", rounds)[0])
            self.assertEqual((data["root"], data["settled"], data["nodes"]), (root, settled, 1000), rounds)
        self.assertEqual(self.built(folder, "--rounds", "0" * 90 + "1000")[1], "")
        self.assertIn("--rounds, up to 1000, may lower the root value", self.built(folder, "--rounds", "999")[1])
        folder = self.model(chain(1001), "longer")
        self.assertIn("values are still falling after 1000 rounds, the most that there are", self.built(folder)[1])
        before = read(self.path("longer/graph.fold"))
        for rounds in ("1001", "9" * 5000):
            status, out, said = run("build", folder, "--rounds", rounds)
            self.assertEqual((status, out), (1, b"refused 35 1\n"))
            self.assertIn("over 1000 rounds are asked for; ask for at most 1000 rounds", said)
        self.assertEqual(read(self.path("longer/graph.fold")), before)

    def test_settled(self):
        """Whether another round changes something, against one round more."""
        for name in ("pedal", "scan_loop", "mixer", "dead_converter"):
            model = example(name)[0]
            for rounds in (*range(12), 500, 999):
                graph = laguipy.build(model, rounds)
                again = laguipy.build(model, rounds + 1)
                came = builder.is_settled(read_model(model), read_graph(graph, shape_of(model)))
                self.assertEqual(came, graph == again, (name, rounds))

    def test_nodes(self):
        """With at most so many nodes, the graph of the longest slice that gives no more."""
        for model in (example("pedal")[0], example("scan_loop")[0], model_of(WIDE)):
            folder, sizes = self.model(model), set()
            whole = nodes_of(model, laguipy.build(model))
            for most in {*range(1, 40), *range(1, whole, 17), whole - 1, whole, whole + 1, 4096}:
                if most > 0:
                    self.built("-q", folder, "--nodes", str(most), "--rounds", "3")
                    graph = read(self.path("m/graph.fold"))
                    self.assertEqual(graph, searched(model, most, 3), most)
                    self.assertLessEqual(nodes_of(model, graph), most)
                    sizes.add(nodes_of(model, graph))
            self.assertIn(whole, sizes)
            self.assertIn(1, sizes)

    def test_a_slice_that_holds_more(self):
        """In the slice that any graph of so many nodes fits into, edges of many branches leave room for more nodes."""
        model = model_of(WIDE)
        again = [most for most in range(1, 200) if nodes_of(model, laguipy.build(model, 0, 12 + 24 * most)) > most]
        self.assertTrue(again)

    def test_most_nodes(self):
        model = model_of(LARGE)
        folder = self.model(model)
        out, said = self.built(folder)
        self.assertIn("building ended at 4096 nodes, the most that a graph has: narrower ranges", said)
        self.assertEqual(read(self.path("m/graph.fold")), laguipy.build(model))
        self.assertLess(4096 - 6, int(out.split()[1]))
        self.assertEqual(self.built(folder, "--nodes", "4096"), (out, said))
        self.assertEqual(run("figures", folder, "3")[1][:10], b"refused 26")
        out, said = self.built(folder, "--nodes", "4000")
        self.assertIn("building ended at --nodes 4000, and more may lower the root value", said)
        self.assertLessEqual(int(out.split()[1]), 4000)

    def test_words(self):
        said = {
            ("--rounds", "x"): "--rounds N is a whole number from 0, and this is 'x'",
            ("--rounds", "-1"): "--rounds N is a whole number from 0, and this is '-1'",
            ("--rounds", ""): "this is ''",
            ("--rounds", "1.5"): "this is '1.5'",
            ("--rounds", "\u0663"): "this is '\u0663'",
            ("--rounds", "x" * 5000): f"this is '{'x' * 40}..'",
            ("--rounds",): "expected one argument",
            ("--nodes", "0"): "--nodes N is 1 to 4096, and this is '0'",
            ("--nodes", "4097"): "--nodes N is 1 to 4096, and this is '4097'",
            ("--nodes", "9" * 5000): f"--nodes N is 1 to 4096, and this is '{'9' * 40}..'",
            ("--nodes", "all"): "--nodes N is a whole number from 0, and this is 'all'",
            ("--nodes", "-3"): "this is '-3'",
            ("--json", "-o", "-"): "with --json standard output has no room for the folder: name its file with -o",
            ("--nothing",): "unknown: --nothing; `laguipy build --help` has the usage",
            (PEDAL,): f"unknown: {PEDAL}; `laguipy build --help` has the usage",
            ("-o",): "expected one argument",
        }
        folder = self.model(example("pedal")[0])
        for words, told in said.items():
            status, out, line = run("build", folder, *words)
            self.assertEqual((status, out, line.count("\n")), (2, b"", 1), words)
            self.assertIn(told, line)
            self.assertIn("`laguipy build --help` has the usage", line)
            self.assertLess(len(line), 300)
        status, out, line = run("build")
        self.assertEqual((status, out), (2, b""))
        self.assertIn("PLACE; `laguipy build --help` has the usage", line)
        self.assertIn("did you mean 'build'?", run("biuld", folder)[2])
        self.assertEqual(os.listdir(folder), ["model.fold"])


class Notes(Building):
    """What is said beside a graph."""

    def notes(self, text, *words):
        folder = self.model(text if isinstance(text, bytes) else model_of(text))
        if os.path.exists(os.path.join(folder, "graph.fold")):
            os.remove(os.path.join(folder, "graph.fold"))
        return json.loads(self.built("--json", folder, *words)[0])["notes"]

    def assert_told(self, told, notes):
        self.assertEqual(len(notes), len(told), notes)
        for words, note in zip(told, notes):
            self.assertIn(words, note)

    def test_values(self):
        falling, figures = "values are still falling after 1000 rounds", "figures do not depend on the values"
        self.assert_told(["it can go on for ever from node 0, which counts", figures], self.notes(LOOP))
        self.assert_told(["it can go on for ever from nodes 0 to 1, ", figures], self.notes(example("mixer")[0]))
        self.assert_told([falling, figures], self.notes(example("dead_converter")[0]))
        yet = "another round lowers values yet: --rounds, up to 1000"
        self.assert_told([yet, figures], self.notes(example("dead_converter")[0], "--rounds", "5"))
        self.assert_told([yet, "for ever from node 0", figures], self.notes(example("pedal")[0], "--rounds", "1"))
        self.assert_told([], self.notes(chain(7)))
        sure = "total 1\nvariable x 0..1 = 0\ntarget x = 0\ncommand turn: true\n  1: x' = 1 - x\n"
        self.assert_told(["more rounds do not lower the root value: a target seems certain", figures], self.notes(sure))

    def test_what_goes_on_in_part(self):
        """A tenth goes on for ever, safely: the root value counts it, and the figures do not."""
        text = "total 10\nvariable x 0..2 = 0\ntarget x < 0\ncommand go: x = 0\n  9: x' = 1\n  1: x' = 2\n"
        notes = self.notes(text + "command turn: x = 2\n  10: x' = 2\n")
        self.assert_told(["it can go on for ever from node 2, which counts", "figures do not depend"], notes)
        self.assertEqual(run("-q", self.path("m"))[1].split(b"\n")[1], b"root 100000000")
        self.assertEqual(run("figures", self.path("m"), "1000")[1], b"within 1000 0 0 %\n")

    def test_waiting(self):
        wait = "2 nodes wait and count as certainty: the root value is a bound all the same"
        self.assert_told([wait], self.notes(example("pedal")[0], "--nodes", "5"))
        self.assert_told(["1 node waits and counts as certainty"], self.notes(LOOP, "--nodes", "1"))
        yet = "another round lowers values yet"
        self.assert_told([wait, yet], self.notes(example("pedal")[0], "--nodes", "5", "--rounds", "0"))
        self.assert_told(["nodes wait", "from node 0"], self.notes(example("scan_loop")[0], "--nodes", "14"))

    def test_a_bound_though_nodes_wait(self):
        """A safe part of the model is built, an unlikely one waits: the root value is its chance."""
        text = "total 100\nvariable x 0..3 = 0\ntarget x = 3\ncommand go: x = 0\n  99: x' = 1\n  1: x' = 2\n"
        text += "command on: x = 2\n  100: x' = 3\n"
        self.assert_told(["1 node waits and counts as certainty"], self.notes(text, "--nodes", "3"))
        self.assertEqual(run("-q", self.path("m"))[1].split(b"\n")[1], b"root 10000000")

    def test_words_for_other_commands(self):
        self.assertEqual(builder.places("a b/model.fold", "a b/graph.fold"), ["a b"])
        self.assertEqual(builder.places("model.fold", "graph.fold"), ["."])
        self.assertEqual(builder.places("m/model.fold", "graph.fold"), ["m/model.fold", "graph.fold"])
        self.assertEqual(builder.places("-", "g.fold"), ["MODEL", "g.fold"])
        folder = self.model(example("pedal")[0], "two words")
        self.assertIn(f"`laguipy figures '{folder}' 1000`", self.built(folder)[1])

    def test_a_graph_that_is_there(self):
        folder = self.model(example("pedal")[0])
        fold = self.path("m/graph.fold", example("pedal")[1])
        told = f"laguipy: {fold} was there, and is replaced\n"
        self.assertTrue(self.built(folder)[1].startswith(told))
        self.assertNotIn("replaced", self.built(folder)[1])
        self.path("m/graph.fold", b"old")
        self.assertEqual(self.built(folder, "-q")[1], "")
        self.assertEqual(read(fold), laguipy.build(example("pedal")[0]))


class Files(Building):
    def test_what_cannot_be_read(self):
        folder = self.path("empty")
        os.mkdir(folder)
        nowhere = self.path("nowhere")
        said = {
            (folder,): f"{folder}: there is no model.fold in it: `laguipy model` writes one from text\n",
            (nowhere,): f"{nowhere}: cannot be read: No such file or directory\n",
            ("",): "'': cannot be read: No such file or directory\n",
        }
        os.makedirs(self.path("odd/model.fold"))
        said[(self.path("odd"),)] = f"{self.path('odd/model.fold')}: cannot be read: Is a directory\n"
        for words, told in said.items():
            self.assertEqual(run("build", *words), (1, b"", told), words)
        self.assertEqual(os.listdir(folder), [])

    def test_models_that_are_refused(self):
        text = read(os.path.join(PEDAL, "pedal.model"), "r")
        wrong = model_of(text.replace("  9: a' = 3", "  8: a' = 3"))
        folder = self.model(wrong)
        self.path("m/graph.fold", b"old")
        said = {
            self.model(wrong): "command 0: the weights total 9, D is 10 [11]; take a common multiple of the totals",
            os.path.join(PEDAL, "pedal.model"): "is it text? [2]; make a folder of the text first, by `laguipy model`",
            os.path.join(PEDAL, "graph.fold"): "is it a graph folder? [2]; name the model folder first",
            self.path("short", b"x" * 39): "the model has 39 bytes, and a model folder has 40 to 40000 [1]; look at",
            self.path("long", b"x" * 40_001): "the model has over 40000 bytes, and a model folder has 40 to 40000 [1]",
        }
        for place, told in said.items():
            status, out, line = run("build", place)
            self.assertEqual((status, out.split()[0], line.count("\n")), (1, b"refused", 1), place)
            self.assertIn(told, line)
            self.assertTrue(line.startswith(place), line)
        self.assertEqual(read(self.path("m/graph.fold")), b"old")
        self.assertEqual(run("build", folder, "--rounds", "1001")[1], b"refused 11 0\n")
        self.assertIn("standard input: the model has 3 bytes", start("build", "-", input=b"abc").stderr.decode())

    def test_names(self):
        """Variables and commands are told by their names, as everywhere."""
        text = read(os.path.join(SCAN, "scan.model"), "r").replace("9989:", "9984:")
        self.assertEqual(run("model", self.path("m/scan.model", text), "--anyway")[0], 0)
        self.assertIn("command 0 (scan): the weights total 9995", run("build", self.path("m"))[2])
        self.path("m/model.names", "variable x\n")
        said = run("build", self.path("m"))[2]
        self.assertIn("1 variable named, and the model has 3; v0, v1 and so on stand for names\n", said)
        self.assertIn("command 0: the weights total 9995", said)

    def test_what_cannot_be_written(self):
        folder = self.model(example("pedal")[0])
        model = os.path.join(folder, "model.fold")
        for words, status, told in (
            (("-o", self.path("no/such.fold")), 3, "no/such.fold: cannot be written: No such file"),
            (("-o", self.room), 3, "cannot be written: Is a directory"),
            (("-o", ""), 3, "'': cannot be written: "),
            (("-o", model), 2, f"{model} would be written over its own source"),
        ):
            came = run("build", folder, *words)
            self.assertEqual(came[:2], (status, b""), words)
            self.assertIn(told, came[2])
        self.assertEqual(read(model), example("pedal")[0])
        self.assertEqual(os.listdir(folder), ["model.fold"])

    def test_a_graph_that_cannot_be_read(self):
        self.assertTrue(builder.other_graph(self.path("there", b"x"), b"y"))
        self.assertFalse(builder.other_graph(self.path("there"), b"x"))
        self.assertFalse(builder.other_graph(self.path("nowhere"), b"x"))
        with unittest.mock.patch.object(builder, "read_some", side_effect=laguipy.InputError("no")):
            self.assertTrue(builder.other_graph(self.path("there"), b"x"))


class Patience(Building):
    """Where it takes long."""

    def slow(self, *_):
        time.sleep(0.7)
        return self.graph

    def test_how_long_it_takes(self):
        model, self.graph = example("pedal")
        folder = self.model(model)
        with unittest.mock.patch.object(native, "build", self.slow):
            self.assertNotIn("so far", run("build", folder)[2])
            with unittest.mock.patch.dict(Ticker.SECONDS, {False: 0}):
                status, out, said = run("build", folder)
        self.assertEqual((status, out.count(b"\n")), (0, 2))
        self.assertIn("laguipy: building, 0 s so far\n", said)

    def test_on_a_terminal(self):
        """A line that is written over, and is gone at the end; also where the output goes to a terminal."""
        model, self.graph = example("pedal")
        seen, out = io.StringIO(), io.StringIO()
        seen.isatty = out.isatty = lambda: True
        streams = unittest.mock.patch.multiple(sys, stderr=seen, stdout=out)
        with streams, unittest.mock.patch.dict(Ticker.SECONDS, {True: 0.3}):
            self.assertEqual(builder.patiently(self.slow, "building"), self.graph)
        self.assertTrue(seen.getvalue().startswith("\rlaguipy: building, 0 s so far \033[K"), seen.getvalue())
        self.assertTrue(seen.getvalue().endswith("\r\033[K"))
        self.assertEqual(out.getvalue(), "")

    def test_trouble_is_that_of_the_action(self):
        for error in (laguipy.Refusal(35, 1), ValueError("x")):
            with self.assertRaises(type(error)) as caught:
                builder.patiently(unittest.mock.Mock(side_effect=error), "building")
            self.assertIs(caught.exception, error)

    def test_interrupted(self):
        """At once, though a call is at work; and nothing is written."""
        folder = self.model(example("pedal")[0])
        line = (
            "import sys, time; from laguipy import cli, native, output; output.Ticker.SECONDS[False] = 0; "
            "native.build = lambda *_: time.sleep(60); sys.exit(cli.main(['build', sys.argv[1]]))"
        )
        environment = {**os.environ, "PYTHONPATH": os.path.join(ROOT, "bindings", "python")}
        pipes = {"stdout": subprocess.PIPE, "stderr": subprocess.PIPE, "preexec_fn": interruptible}
        began = time.monotonic()
        with subprocess.Popen([sys.executable, "-B", "-c", line, folder], env=environment, **pipes) as running:
            self.assertIn(b"building, 0 s so far", running.stderr.readline())
            running.send_signal(signal.SIGINT)
            out, said = running.communicate()
        self.assertEqual((running.returncode, out), (130, b""))
        self.assertNotIn(b"Traceback", said)
        self.assertLess(time.monotonic() - began, 30)
        self.assertEqual(os.listdir(folder), ["model.fold"])

    def test_a_library_that_builds_what_it_refuses(self):
        folder = self.model(example("pedal")[0])
        with unittest.mock.patch.object(native, "build", lambda *_: example("refused_25")[1]):
            status, out, said = run("build", folder)
        self.assertEqual((status, out), (3, b""))
        self.assertIn("the library has built a graph that it refuses: refused 25 0", said)
        self.assertEqual(os.listdir(folder), ["model.fold"])


if __name__ == "__main__":
    unittest.main()
