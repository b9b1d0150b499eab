"""The command line as it is run: reports, statuses, standard input and output, and what it says of what is wrong."""
import io
import json
import os
import re
import resource
import shutil
import signal
import subprocess
import sys
import unittest
import unittest.mock

from support import EXAMPLES, LAGUIPY, PEDAL, ROOT, SCAN, Room, example, examples, interruptible, read, run, start

from laguipy import check, cli
from laguipy.advice import runs
from laguipy.inputs import Pair
from laguipy.output import RunError, Ticker
from laguipy.series import Estimate, calls_for, told_time


class Check(Room):
    def test_examples(self):
        for name in examples():
            expected = read(os.path.join(EXAMPLES, name, "expected.txt"))
            folder = os.path.join(EXAMPLES, name)
            status = 0 if expected.startswith(b"accepted") else 1
            for words in ((folder,), ("check", folder), ("check", "--any-size", folder)):
                self.assertEqual(run(*words)[:2], (status, expected), words)
            files = os.path.join(folder, "model.fold"), os.path.join(folder, "graph.fold")
            self.assertEqual(run(*files)[:2], (status, expected), name)
            data = json.loads(run("check", "--json", folder)[1])
            self.assertEqual(data["answer"], expected.split()[0].decode())

    def test_as_a_process(self):
        came = start(PEDAL)
        self.assertEqual((came.returncode, came.stdout), (0, read(os.path.join(PEDAL, "expected.txt"))))
        self.assertIn(b"node 1 is a dead end", came.stderr)
        self.assertEqual(start("-q", PEDAL).stderr, b"")
        self.assertEqual(start().stdout, came.stdout)

    def test_json(self):
        data = json.loads(run("check", "--json", PEDAL)[1])
        self.assertEqual((data["nodes"], data["expanded"], data["root"]), (6, 3, 10_000_000))
        self.assertEqual(data["within"], [0, 0, 10_000_000, 10_000_000])
        self.assertEqual(len(data["warnings"]), 1)
        data = json.loads(run("check", "--json", os.path.join(EXAMPLES, "refused_22"))[1])
        self.assertEqual((data["number"], data["place"], data["second"]), (22, 3, 0))

    def test_json_second_place(self):
        """The report's line has no second place, and JSON has it, in every command that refuses."""
        for number, second in ((19, 0), (21, 1)):
            folder = os.path.join(EXAMPLES, f"refused_{number}")
            paths = os.path.join(folder, "model.fold"), os.path.join(folder, "graph.fold")
            ways = [("check", folder), ("check", *paths), ("check", "--any-size", folder), ("explain", folder)]
            ways += [("figures", folder, "3"), ("index", folder)]
            ways += [("graph", os.path.join(folder, "pedal.graph"), "-m", paths[0], "-o", self.path("g.fold"))]
            for words in ways:
                data = json.loads(run(*words, "--json")[1])
                came = [data[key] for key in ("answer", "number", "place", "second")]
                self.assertEqual(came, ["refused", number, 0, second], words)

    def test_json_of_what_changes_meanwhile(self):
        """A report that the library does not give again is an error: its second place would be that of other bytes."""
        graph = self.path("graph.fold", read(os.path.join(EXAMPLES, "refused_21", "graph.fold")))
        pair = Pair(os.path.join(PEDAL, "model.fold"), graph)
        self.assertEqual(check.report_data(pair, b"refused 21 0\n", [])["second"], 1)
        for line in (b"refused 21 1\n", b"refused 25 0\n"):
            with self.assertRaises(RunError) as caught:
                check.report_data(pair, line, [])
            self.assertIn("the library's answer is 'refused 21 0'", str(caught.exception))
        with self.assertRaises(RunError) as caught:
            check.report_data(Pair(pair.model, os.path.join(PEDAL, "graph.fold")), b"refused 21 0\n", [])
        self.assertIn("the library's answer is 'accepted'", str(caught.exception))

    def test_standard_input(self):
        model, graph = (os.path.join(PEDAL, name) for name in ("model.fold", "graph.fold"))
        expected = read(os.path.join(PEDAL, "expected.txt"))
        self.assertEqual(start(model, "-", input=read(graph)).stdout, expected)
        self.assertEqual(start("check", "-", graph, input=read(model)).stdout, expected)
        self.assertEqual(start("-", "-").returncode, 2)

    def test_no_file(self):
        status, out, said = run(self.room)
        self.assertEqual((status, out), (1, b"no file\n"))
        self.assertIn("model.fold: No such file", said)

    def test_too_long(self):
        model, graph = example("pedal")
        folder = os.path.dirname(self.path("too big/graph.fold", graph + bytes(65_537 - len(graph))))
        self.path("too big/model.fold", model)
        status, out, said = run(folder)
        self.assertEqual((status, out), (1, b"too long\n"))
        self.assertIn(f"laguipy check --any-size '{folder}'", said)
        self.assertEqual(run("check", "--any-size", folder)[:2], (1, b"refused 13 1\n"))

    def test_a_graph_that_the_program_does_not_take(self):
        model, graph = self.large(PEDAL, "pedal.graph", 6, "a=3 d=0")
        self.assertEqual(run(model, graph)[:2], (1, b"too long\n"))
        status, out, _ = run("check", "--any-size", model, graph)
        self.assertEqual((status, out.split()[1]), (0, b"4096"))
        self.assertEqual(run("figures", model, graph, "50")[1], b"within 50 10000000 1 %\n")

    def test_usage(self):
        one = os.path.join(PEDAL, "model.fold")
        for words in (("nowhere",), (PEDAL, "x", "y"), ("--nothing",), (one,), (PEDAL, PEDAL)):
            status, out, said = run(*words)
            self.assertEqual((status, out), (2, b""), words)
            self.assertTrue(said)

    def test_warnings(self):
        """A mistyped guard, a variable that nothing reads, a dead end."""
        head = "total 1\nvariable a 0..3 = 0\nvariable unread 0..9 = 0\ntarget a = 3\n"
        self.path("m/s.model", head + "command lost: a = 2\n  1: a' = 3\n")
        self.path("m/s.graph", "node 0 expanded value 0 tracks a state a=0 unread=0\n")
        self.assertEqual(run("model", self.path("m/s.model"))[0], 0)
        self.assertEqual(run("graph", self.path("m/s.graph"))[0], 0)
        status, out, said = run(os.path.join(self.room, "m"))
        self.assertEqual((status, out.split(b"\n")[1]), (0, b"root 0"))
        guard = "command 0 (lost): its guard, a = 2, is true in no"
        for line in ("node 0 is a dead end", guard, "variable unread: no expression"):
            self.assertIn(f"laguipy: warning: {line}", said)
        self.assertEqual(run("-q", os.path.join(self.room, "m")), (0, out, ""))
        status, data, said = run("--json", os.path.join(self.room, "m"))
        self.assertEqual((status, len(json.loads(data)["warnings"]), said), (0, 3, ""))

    def test_many_nodes_in_a_warning(self):
        self.assertEqual(runs([3]), "3")
        self.assertEqual(runs([1, 2, 3, 7]), "1 to 3 and 7")
        self.assertEqual(runs([0, 2, 4, 5]), "0, 2 and 4 to 5")
        self.assertTrue(runs(range(0, 4096, 2)).endswith(", 36, 38 and 2028 more"))


class Figures(Room):
    def lines(self, *words):
        status, out, _ = run("figures", *words)
        self.assertEqual(status, 0)
        return out.decode().splitlines()

    def test_scan_loop(self):
        self.assertEqual(self.lines(SCAN, "1000"), ["within 1000 77667614 7.7667614 %"])
        self.assertEqual(self.lines(SCAN, "3", "0"), ["within 0 0 0 %", "within 3 81092 0.0081092 %"])

    def test_forms(self):
        self.assertEqual(self.lines(PEDAL, "2", "--nodes", "2,5")[1], "within 2 node 5 1000000000 100 %")
        self.assertEqual(len(self.lines(PEDAL, "2", "--nodes", "all")), 6)
        self.assertEqual(self.lines(PEDAL, "--upto", "3", "--csv")[:2], ["h,node,units,percent", "0,0,0,0"])
        data = json.loads("".join(self.lines(PEDAL, "2", "--json")))
        self.assertEqual(data["figures"], [{"h": 2, "node": 0, "units": 10_000_000, "percent": "1"}])
        self.assertEqual((data["root"], data["complete"]), (10_000_000, True))

    def test_every_step_is_the_call_of_its_own(self):
        from laguipy import figure

        for name in ("pedal", "scan_loop", "dead_converter_explored"):
            model, graph = example(name)
            lines = self.lines(os.path.join(EXAMPLES, name), "--upto", "300", "7000", "--nodes", "all", "--csv")[1:]
            due = []
            for h in [*range(301), 7000]:
                due += [f"{h},{n},{u}" for n, u in enumerate(figure(model, graph, h))]
            self.assertEqual([line.rsplit(",", 1)[0] for line in lines], due, name)

    def test_refused(self):
        self.assertEqual(run("figures", PEDAL, "10001")[:2], (1, b"refused 27 0\n"))
        self.assertEqual(run("figures", PEDAL, "--upto", "99999")[:2], (1, b"refused 27 0\n"))
        self.assertEqual(run("figures", os.path.join(EXAMPLES, "refused_22"), "3")[:2], (1, b"refused 22 3\n"))
        self.assertIn("27: figures are for at most 10000 steps; ask for at most", run("figures", PEDAL, "10001")[2])
        text = re.sub("value [0-9_]+", "value S", read(os.path.join(PEDAL, "pedal.graph"), "r"))
        waiting = text.replace("node 4 covered by 1", "node 4 waiting")
        model, graph = os.path.join(PEDAL, "model.fold"), self.path("g.fold")
        self.assertEqual(run("graph", self.path("g.graph", waiting), "-m", model, "-o", graph)[0], 0)
        status, out, said = run("figures", model, graph, "3")
        self.assertEqual((status, out), (1, b"refused 26 4\n"))
        self.assertIn("explore on until no node waits", said)
        for digits in (5, 26, 5000):
            self.assertEqual(run("figures", PEDAL, "9" * digits)[:2], (1, b"refused 27 0\n"))
            self.assertEqual(run("figures", PEDAL, "--upto", "9" * digits)[:2], (1, b"refused 27 0\n"))
        self.assertEqual(self.lines(PEDAL, "0" * 5000 + "3"), ["within 3 10000000 1 %"])

    def test_usage(self):
        said = {
            (): "say for how many steps",
            ("-1",): "H is a whole number from 0, and this is '-1'",
            ("nan",): "'nan' is no whole number of steps, and no file or directory",
            ("\u0663",): "'\u0663' is no whole number of steps",
            ("--upto", "x"): "--upto H is a whole number from 0, and this is 'x'",
            ("--upto", "1_0"): "this is '1_0'",
            ("--upto", "\u0663"): "this is '\u0663'",
            ("1", "--json", "--csv"): "--json or --csv, and not both",
        }
        for words, told in said.items():
            status, out, line = run("figures", PEDAL, *words)
            self.assertEqual((status, out), (2, b""), words)
            self.assertIn(told, line)
            self.assertLess(len(line), 200)

    def test_nodes(self):
        some = self.lines(PEDAL, "2", "--nodes", "all")
        self.assertEqual(self.lines(PEDAL, "2", "--nodes", "2-5"), some[2:])
        self.assertEqual(self.lines(PEDAL, "2", "--nodes", "5,0-1,3-3,5,0"), [some[5], some[0], some[1], some[3]])
        said = {
            "6": "there is no node 6: they are 0 to 5",
            "4-99999999": "there is no node 6: they are 0 to 5",
            "9" * 5000: "there is no node so high: they are 0 to 5",
            "5-2": "'5-2' goes down",
            "0,x": "nodes as in 0,3 or 2-5, and this is 'x'",
            "x" * 5000: f"this is '{'x' * 40}..'",
        }
        for text in ("", "1-", "-1", "1,,2", " 3", "1_0", "\u0663", "All"):
            said[text] = f"this is {text.split(',')[1 if ',' in text else 0]!r}"
        for text, told in said.items():
            status, out, line = run("figures", PEDAL, "2", f"--nodes={text}")
            self.assertEqual((status, out), (2, b""), text)
            self.assertIn(told, line)
            self.assertLess(len(line), 200)

    def test_interrupted(self):
        """What came before is there, each row whole, and JSON is ended."""
        large = self.large(SCAN, "scan.graph", 12, "age=1 dead=0 knob=0")
        for form in ("--json", "--csv"):
            words = [sys.executable, LAGUIPY, "figures", *large, "--upto", "10000", "--nodes", "all", form]
            pipes = {"stdout": subprocess.PIPE, "stderr": subprocess.PIPE, "preexec_fn": interruptible}
            with subprocess.Popen(words, **pipes) as running:
                lines = [running.stdout.readline() for _ in range(1000)]
                running.send_signal(signal.SIGINT)
                whole = (b"".join(lines) + running.stdout.read()).decode()
                said = running.stderr.read()
            self.assertEqual((running.returncode, said), (130, b""))
            if form == "--json":
                data = json.loads(whole)
                self.assertIs(data["complete"], False)
                came = [(row["h"], row["node"]) for row in data["figures"]]
            else:
                self.assertTrue(whole.endswith("\n"))
                came = [tuple(map(int, line.split(",")[:2])) for line in whole.splitlines()[1:]]
            self.assertEqual(came, [(n // 4096, n % 4096) for n in range(len(came))])
            self.assertGreaterEqual(len(came), 999)

    def test_how_far_it_has_come(self):
        with unittest.mock.patch.dict(Ticker.SECONDS, {False: 0}):
            status, out, said = run("figures", SCAN, "--upto", "300")
        self.assertEqual((status, out), (0, run("figures", SCAN, "--upto", "300")[1]))
        self.assertIn("laguipy: 151 of 300 steps, some ", said)
        self.assertIn("laguipy: 300 of 300 steps, some 0 s left", said)

    def test_on_a_terminal(self):
        """A line that is written over, and is gone at the end, also where it is interrupted."""
        seen = io.StringIO()
        seen.isatty = lambda: True
        with unittest.mock.patch.object(sys, "stderr", seen), self.assertRaises(KeyboardInterrupt), Ticker() as ticker:
            ticker.tell("1 of 2 steps")
            raise KeyboardInterrupt
        self.assertEqual(seen.getvalue(), "\rlaguipy: 1 of 2 steps \033[K\r\033[K")

    def test_estimate(self):
        """Where the check takes 2 seconds and each round 3, what is left is just what they add up to."""
        calls = calls_for([0, 1, 5, 7, 8, 9])
        self.assertEqual([call.h for call in calls], [1, 5, 8, 9])
        self.assertEqual([call.steps for call in calls], [(0, 1), (5,), (7, 8), (9,)])
        estimate = Estimate(calls)
        estimate.took(1, 2 + 3)
        self.assertEqual(estimate.left(), 5 * (5 + 8 + 9))
        for n, call in enumerate(calls[1:], 2):
            estimate.took(call.h, 2 + 3 * call.h)
            self.assertAlmostEqual(estimate.left(), sum(2 + 3 * later.h for later in calls[n:]))
        self.assertEqual([told_time(s) for s in (7.4, 99, 600, 7200)], ["7 s", "99 s", "10 min", "2.0 h"])


class Texts(Room):
    def scan(self, old, new):
        """The scan loop's model with one change."""
        text = read(os.path.join(SCAN, "scan.model"), "r")
        self.assertIn(old, text)
        return self.path("scan.model", text.replace(old, new, 1))

    def told(self, path, *words):
        status, _, said = run("model", path, *words)
        self.assertEqual(status, 1)
        self.assertFalse(os.path.exists(self.path("model.fold")))
        return said.splitlines()[0].replace(self.room + os.sep, "")

    def test_what_the_proved_check_refuses(self):
        said = {
            ("9989:", "9984:"): "14: command 0 (scan): the weights total 9995, D is 10000 [11]",
            ("smaller(age + 1, 3)", "age + 1"): "16: age + 1 lies in 1..4, age in 0..3: write smaller(age + 1, 3) [10]",
            ("3 - knob", "2 - knob"): "26: 2 - knob lies in -1..2, knob in 0..3: write larger(2 - knob, 0) [10]",
            ("knob 0..3 = 0", "knob 0..3 = 9"): "8: variable knob: its initial value 9 is outside its range 0..3 [4]",
            ("knob 0..3 = 0", "knob 3..0 = 0"): "8: variable knob: its range 3..0 has its bounds crossed [4]",
            ("age = 3", "age * 30000 * 30000 = 3"): (
                "11: age * 30000 * 30000 lies in 0..2700000000, and numbers stay in -1000000..1000000 [6]"
            ),
        }
        for (old, new), line in said.items():
            self.assertEqual(self.told(self.scan(old, new)), f"scan.model:{line}")
        deep = "age" + " + age" * 12 + " - age * 12 = 3"
        self.assertIn("[5]", self.told(self.scan("age = 3", deep)))
        many = "".join(f"variable x{i} 0..1 = 0\n" for i in range(14))
        told = self.told(self.scan("# An old", many + "# An old"))
        self.assertEqual(told, "scan.model:23: there are 17 variables, and 1 to 16 may be [3]")

    def test_anyway(self):
        path = self.scan("9989:", "9984:")
        status, _, said = run("model", path, "--anyway")
        self.assertEqual(status, 0)
        self.assertIn("[11]", said)
        self.path("graph.fold", b"")
        self.assertEqual(run(self.room)[:2], (1, b"refused 11 0\n"))
        self.assertIn(b"the weights total 9995, D is 10000", run("explain", self.room)[1])

    def test_graph_lines(self):
        text = read(os.path.join(SCAN, "scan.graph"), "r").replace("covered by 0 ", "covered by 6 ")
        model = os.path.join(SCAN, "model.fold")
        words = ("graph", self.path("scan.graph", text), "-m", model, "-o", self.path("g.fold"))
        status, _, said = run(*words)
        self.assertEqual(status, 1)
        told = "scan.graph:19: node 5 (age = 0, dead = 0, knob = 3) is covered by node 6, which is itself covered"
        self.assertIn(told, said)
        self.assertFalse(os.path.exists(self.path("g.fold")))
        data = json.loads(run(*words, "--json")[1])
        self.assertEqual([data[key] for key in ("number", "place", "second", "line")], [22, 5, 0, 19])

    def test_standard_input_and_output(self):
        text = read(os.path.join(SCAN, "scan.model"))
        came = start("model", "-", input=text)
        self.assertEqual((came.returncode, came.stdout), (0, read(os.path.join(SCAN, "model.fold"))))
        model, text = os.path.join(SCAN, "model.fold"), read(os.path.join(SCAN, "scan.graph"))
        came = start("graph", "-", "-m", model, "-o", "-", input=text)
        self.assertEqual((came.returncode, came.stdout), (0, read(os.path.join(SCAN, "graph.fold"))))
        came = start("show", "-", input=read(os.path.join(PEDAL, "model.fold")))
        self.assertEqual((came.returncode, came.stdout.split()[:2]), (0, [b"total", b"10"]))

    def test_nothing_is_lost(self):
        """A text that is wrong, a folder that would be written over its text, and one that cannot be written."""
        old = self.path("model.fold", b"old")
        run("model", self.scan("9989:", "9984:"))
        self.assertEqual(read(old), b"old")
        text = self.scan("9989:", "9989:")
        self.assertEqual(run("model", text, "-o", text)[0], 2)
        self.assertIn("total", read(text, "r"))
        status, out, said = run("model", text, "-o", self.path("no/such/folder.fold"))
        self.assertEqual((status, out), (3, b""))
        self.assertIn("folder.fold: cannot be written: No such file", said)
        self.assertEqual([name for name in os.listdir(self.room) if name.startswith(".laguipy")], [])

    def test_names_beside_the_model(self):
        folder = self.path("copy")
        shutil.copytree(os.path.join(EXAMPLES, "refused_21"), folder)
        self.assertIn(b"it tracks d", run("explain", folder)[1])
        names = os.path.join(folder, "model.names")
        os.remove(names)
        self.assertIn(b"it tracks v1", run("explain", folder)[1])
        self.path("copy/model.names", "variable x\nvariable y\n")
        self.assertIn(b"it tracks y", run("explain", folder)[1])
        self.path("copy/model.names", "variable x\n")
        status, out, said = run("explain", folder)
        self.assertIn(b"it tracks v1", out)
        self.assertIn("model.names: 1 variable named, and the model has 2", said)

    def test_show(self):
        for name in examples():
            folder = os.path.join(EXAMPLES, name)
            self.assertEqual(run("show", folder)[0], 0)
            self.assertIn("nodes", json.loads(run("show", "--json", folder)[1])["graph"])
            graph = run("show", os.path.join(folder, "graph.fold"))[1].decode()
            self.assertTrue(graph.startswith("variables "), name)


    def test_names_that_do_not_fit_are_told(self):
        folder = self.path("copy")
        shutil.copytree(PEDAL, folder)
        self.path("copy/model.names", "variable x\n")
        told = "model.names: 1 variable named, and the model has 2; v0, v1 and so on stand for names"
        for words in ((folder,), (os.path.join(folder, "model.fold"),), (os.path.join(folder, "graph.fold"),)):
            status, out, said = run("show", *words)
            self.assertEqual((status, said.count(told)), (0, 1), words)
            self.assertIn(b"v1", out)
            self.assertEqual(run("show", "--names", "x,y", *words)[::2], (0, ""), words)

    def test_usage(self):
        model, graph = os.path.join(SCAN, "scan.model"), os.path.join(SCAN, "scan.graph")
        said = {
            ("graph", "-", "-m", "-"): "only one file can be standard input",
            ("show", "-", "-"): "only one file can be standard input",
            ("model", model, "--json", "-o", "-"): "name its file with -o",
            ("graph", graph, "--json", "-o", "-"): "name its file with -o",
            ("show", "--names", "a", SCAN): "--names wants 3 names that differ",
            ("show", "--names", "a,if,b", SCAN): "--names: 'if' cannot name a variable",
            ("figure", SCAN, "3"): "there is no command 'figure': did you mean 'figures'?",
            ("modle", model): "did you mean 'model'?",
            ("model",): "FILE; `laguipy model --help` has the usage",
            ("model", model, "--nothing"): "unknown: --nothing; `laguipy model --help` has the usage",
            ("graph", graph, "-m"): "`laguipy graph --help` has the usage",
        }
        for words, told in said.items():
            status, out, line = run(*words)
            self.assertEqual((status, out, line.count("\n")), (2, b"", 1), words)
            self.assertIn(told, line)


class OddFiles(Room):
    MODEL, GRAPH = os.path.join(PEDAL, "model.fold"), os.path.join(PEDAL, "graph.fold")
    REPORT = read(os.path.join(PEDAL, "expected.txt"))

    def test_huge(self):
        """A file that is far too long is not read whole: there is not the memory for it."""
        huge = self.path("huge", b"")
        os.truncate(huge, 5 << 30)
        texts = "huge: it has over 16777216 bytes"
        said = {
            ("check", self.MODEL, huge): (b"too long\n", f"{huge} has more than the 65536 bytes"),
            ("check", "--any-size", self.MODEL, huge): (b"refused 12 0\n", ""),
            ("check", "--any-size", huge, huge): (b"refused 1 0\n", ""),
            ("figures", self.MODEL, huge, "3"): (b"refused 12 0\n", "12: the graph has too few or too many bytes"),
            ("explain", self.MODEL, huge): (b"refused 12 0\nthe graph has over 1048576 bytes", ""),
            ("explain", huge, self.GRAPH): (b"refused 1 0\nthe model has over 40000 bytes", ""),
            ("build", huge): (b"refused 1 0\n", "huge: the model has over 40000 bytes"),
            ("model", huge): (b"", texts),
            ("graph", huge, "-m", self.MODEL): (b"", texts),
            ("graph", os.path.join(PEDAL, "pedal.graph"), "-m", huge): (b"", texts),
            ("show", huge): (b"", texts),
        }
        for words, (out, told) in said.items():
            came = start(*words, preexec_fn=lambda: resource.setrlimit(resource.RLIMIT_AS, (1 << 30, 1 << 30)))
            self.assertEqual((came.returncode, came.stdout[: len(out)]), (1, out), (words, came.stderr))
            self.assertIn(told, came.stderr.decode())

    def test_pipes(self):
        """Files that come only once, and to this process alone: as <(..) of a shell gives them."""
        for words in (("check",), ("check", "--any-size")):
            pipes = [self.pipe(read(path)) for path in (self.MODEL, self.GRAPH)]
            came = start(*words, *(f"/dev/fd/{end}" for end in pipes), pass_fds=pipes)
            self.assertEqual((came.returncode, came.stdout), (0, self.REPORT), words)
            self.assertEqual(came.stderr.count(b"node 1 is a dead end"), 1, words)
        with open(self.MODEL, "rb") as model:
            self.assertEqual(start("/dev/stdin", self.GRAPH, stdin=model).stdout, self.REPORT)
        came = start(f"/dev/fd/{self.pipe(b'')}", self.path("nowhere"))
        self.assertEqual((came.returncode, came.stdout), (1, b"no file\n"))

    def pipe(self, data):
        """The end of a pipe that gives these bytes."""
        end, other = os.pipe()
        self.addCleanup(os.close, end)
        os.write(other, data)
        os.close(other)
        return end

    def test_nothing_stands_beside_a_pipe(self):
        place = self.path("pipe")
        os.mkfifo(place)
        reader = subprocess.Popen(["cat", place], stdout=subprocess.PIPE)
        self.assertEqual(run("model", os.path.join(PEDAL, "pedal.model"), "-o", place)[0], 0)
        self.assertEqual(reader.communicate()[0], read(self.MODEL))
        self.assertEqual(os.listdir(self.room), ["pipe"])

    def test_odd_names(self):
        """Names that are no UTF-8, and names of two lines: each is told in one."""
        text = read(os.path.join(PEDAL, "pedal.model"))
        for name, told in ((b"\xff", "\\udcff"), (b"two\nlines", "two\\nlines"), (b"\x1b[31m", "\\x1b[31m")):
            place = os.path.join(self.room.encode(), name)
            os.mkdir(place)
            with open(os.path.join(place, b"m.model"), "wb") as file:
                file.write(text)
            for words, status in (
                (("model", os.path.join(place, b"m.model")), 0),
                (("show", os.path.join(place, b"model.fold")), 0),
                (("show", os.path.join(place, b"nowhere")), 1),
                (("check", place), 1),
            ):
                came = start(*words)
                self.assertEqual(came.returncode, status, (words, came.stderr))
                for line in (came.stdout + came.stderr).decode().splitlines():
                    self.assertTrue(line.isprintable(), line)
                    self.assertEqual(told in line, self.room in line, line)

    def test_no_name(self):
        """A name that is empty, as that of a variable that is not set, and a folder that is gone."""
        text = os.path.join(PEDAL, "pedal.model")
        gone = self.path("gone")
        os.mkdir(gone)
        said = {
            ("model", ""): (1, "'': cannot be read: No such file"),
            ("show", ""): (1, "'': cannot be read: No such file"),
            ("check", "x", self.MODEL): (3, "no place for the check program to run in: No such file"),
            ("model", text, "-o", ""): (3, "'': cannot be written: "),
            ("model", text, "-o", "x.fold"): (3, "x.fold: cannot be written: No such file"),
        }
        self.assertIn("cannot read '': No such file", run("check", "", self.MODEL)[2])
        for words, (status, told) in said.items():
            line = ["sh", "-c", 'cd "$0"; rmdir "$0"; "$@"; s=$?; mkdir "$0"; exit $s', gone]
            line += [sys.executable, LAGUIPY, *words]
            came = subprocess.run(line, stdout=subprocess.PIPE, stderr=subprocess.PIPE, check=False)
            self.assertEqual(came.returncode, status, (words, came.stderr))
            self.assertIn(told, came.stderr.decode())
            self.assertNotIn(b"fault of this program", came.stderr)

    def test_line_ends(self):
        """Text with the line ends of other systems, tabs, and a mark of byte order."""
        for mark, old, new in ((b"", b"\n", b"\r\n"), (b"", b"\n", b"\r"), (b"\xef\xbb\xbf", b"  ", b"\t")):
            for name, fold in (("pedal.model", "model.fold"), ("pedal.graph", "graph.fold")):
                text = mark + read(os.path.join(PEDAL, name)).replace(old, new)
                self.assertEqual(run(name[6:], self.path(f"m/{name}", text))[0], 0, (new, name))
                self.assertEqual(read(self.path(f"m/{fold}")), read(os.path.join(PEDAL, fold)), (new, name))

    def test_names_that_are_no_file(self):
        for make in (os.mkfifo, os.mkdir):
            folder = self.path(make.__name__)
            shutil.copytree(os.path.join(EXAMPLES, "refused_21"), folder)
            os.remove(os.path.join(folder, "model.names"))
            make(os.path.join(folder, "model.names"))
            status, out, said = run("explain", folder)
            self.assertEqual((status, out.split(b"\n")[0]), (1, b"refused 21 0"))
            self.assertIn("model.names: cannot be read: it is no file", said)


class Output(unittest.TestCase):
    """What cannot be written is an error, and never `refused`; whoever has read enough may go."""

    WAYS = (
        (PEDAL,),
        ("check", "--json", PEDAL),
        ("figures", PEDAL, "3"),
        ("figures", PEDAL, "--upto", "9", "--json"),
        ("explain", PEDAL),
        ("show", PEDAL),
        ("model", os.path.join(PEDAL, "pedal.model"), "-o", "-"),
        ("graph", os.path.join(PEDAL, "pedal.graph"), "-o", "-"),
        ("build", PEDAL, "-o", "-"),
        ("build", PEDAL, "--rounds", "1001"),
        ("--help",),
        ("--version",),
    )

    @unittest.skipUnless(os.path.exists("/dev/full"), "no /dev/full")
    def test_no_room(self):
        for words in self.WAYS:
            with open("/dev/full", "wb") as full:
                came = start(*words, stdout=full)
            self.assertEqual(came.returncode, 3, words)
            self.assertIn(b"the output cannot be written: No space left", came.stderr)
            self.assertNotIn(b"Traceback", came.stderr)

    def test_closed(self):
        for words in self.WAYS:
            line = 'exec "$@" >&-'
            words = ["sh", "-c", line, "sh", sys.executable, LAGUIPY, *words]
            came = subprocess.run(words, stderr=subprocess.PIPE, check=False)
            self.assertEqual(came.returncode, 3, words)
            self.assertNotIn(b"Traceback", came.stderr)

    def test_standard_error_closed(self):
        """What is said beside a report goes nowhere, and not to standard output."""
        line = ["sh", "-c", 'exec "$@" 2>&-', "sh", sys.executable, LAGUIPY]
        wrong = ((("show", "nowhere"), 1), (("figures", PEDAL), 2), (("model",), 2))
        for words, status in ((("check", PEDAL), 0), ((), 0), *wrong):
            came = subprocess.run([*line, *words], stdout=subprocess.PIPE, check=False)
            due = read(os.path.join(PEDAL, "expected.txt")) if status == 0 else b""
            self.assertEqual((came.returncode, came.stdout), (status, due), words)

    def test_pipe_that_is_gone(self):
        for words in self.WAYS:
            end, pipe = os.pipe()
            os.close(end)
            came = start(*words, stdout=pipe)
            os.close(pipe)
            self.assertEqual(came.returncode, 141, words)
            self.assertNotIn(b"Traceback", came.stderr)
            self.assertNotIn(b"cannot be written", came.stderr)

    def test_help_and_version(self):
        due = [b"laguipy", read(os.path.join(ROOT, "VERSION")).strip()]
        for words in ((), *((command,) for command in cli.COMMANDS)):
            self.assertEqual(run(*words, "--help")[0], 0, words)
            status, out, _ = run(*words, "--version")
            self.assertEqual((status, out.split()[:2]), (0, due), words)


class Environment(unittest.TestCase):
    def test_library(self):
        """One that cannot be loaded, or is another, is an error; and no other is taken for the proved one."""
        for library in (b"/nowhere", b"/tmp", sys.executable.encode(), b"\xff", b"two\nlines"):
            came = start("explain", PEDAL, env={**os.environb, b"LAGUIPY_LIBRARY": library})
            self.assertEqual((came.returncode, came.stdout), (3, b""), library)
            self.assertIn(b"the library cannot be loaded: ", came.stderr)
            self.assertEqual(came.stderr.count(b"\n"), 2, came.stderr)
        own = os.path.join(ROOT, "build", "lib", "liblaguipy.so")
        came = start("figures", PEDAL, "3", env={**os.environ, "LAGUIPY_LIBRARY": own})
        self.assertEqual((came.returncode, came.stdout), (0, b"within 3 10000000 1 %\n"))
        self.assertIn(f"the library is {own}, as LAGUIPY_LIBRARY says", came.stderr.decode())
        came = start("figures", PEDAL, "3", env={**os.environ, "LAGUIPY_LIBRARY": ""})
        self.assertEqual((came.returncode, came.stderr), (0, b""))


class AtOnce(unittest.TestCase):
    def test_many_at_once(self):
        expected = read(os.path.join(SCAN, "expected.txt"))
        running = [subprocess.Popen([sys.executable, LAGUIPY, "-q", SCAN], stdout=subprocess.PIPE) for _ in range(8)]
        for one in running:
            self.assertEqual((one.communicate()[0], one.returncode), (expected, 0))


class Fold(unittest.TestCase):
    """The tool without a library: what it cannot write, and what it is not told, it says in a line."""

    def fold(self, *words, **more):
        tool = [sys.executable, "-B", os.path.join(ROOT, "tools", "fold.py")]
        return subprocess.run([*tool, *words], stderr=subprocess.PIPE, check=False, **more)

    def test_output(self):
        for words in (("--help",), ("--version",), ("show", "--help"), ("show", os.path.join(PEDAL, "model.fold"))):
            with open("/dev/full", "w", encoding="utf-8") as full:
                came = self.fold(*words, stdout=full)
            self.assertEqual((came.returncode, came.stderr.count(b"\n")), (3, 1), words)
            self.assertIn(b"the output cannot be written", came.stderr)
            self.assertEqual(self.fold(*words, stdout=subprocess.PIPE).returncode, 0, words)

    def test_usage(self):
        for words in ((), ("model",), ("zz",), ("show", "--zz")):
            came = self.fold(*words, stdout=subprocess.PIPE)
            self.assertEqual((came.returncode, came.stdout, came.stderr.count(b"\n")), (2, b"", 1), words)


if __name__ == "__main__":
    unittest.main()
