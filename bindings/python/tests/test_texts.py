"""Text to folders and back: what is written comes back, and whatever is read gives a line and no traceback."""
import os
import tempfile
import unittest

from support import EXAMPLES, damaged_bytes, damaged_text, example, examples, read, run, seeded, texts

from laguipy import InputError, Refusal, graph_check, model_check, show_graph, show_model, write_graph, write_model
from laguipy.explain import finding_of
from laguipy.folder import read_model
from laguipy.names import Names, names_text, parse_names

SEEDS = 2_500  # for each of the eight ways in which an input is damaged


class RoundTrips(unittest.TestCase):
    def test_examples(self):
        for name in examples():
            model, graph = example(name)
            self.assertEqual(write_model(show_model(model)).data, model, name)
            self.assertEqual(write_model(show_model(model, entries_too=True)).data, model, name)
            self.assertEqual(write_graph(show_graph(graph, model), model).data, graph, name)

    def test_names_come_back(self):
        for _, text in texts(".model"):
            written = write_model(text)
            again = write_model(show_model(written.data, written.names))
            self.assertEqual(again.names.variables, written.names.variables)
            self.assertEqual(again.names.commands, written.names.commands)
            parsed = parse_names(names_text(written.names, written.data), read_model(written.data), written.data)
            self.assertEqual((parsed.variables, parsed.commands), (written.names.variables, written.names.commands))

    def test_random_models(self):
        for seed in range(600):
            text = random_model(seeded(seed))
            written = write_model(text)
            again = write_model(show_model(written.data, written.names))
            self.assertEqual(again.data, written.data, text)
            self.assertEqual(again.names.variables, written.names.variables)
            self.assert_agrees(written)

    def assert_agrees(self, written):
        """The rules of this package find in a model what the proved check refuses."""
        try:
            model_check(written.data)
            answer = None
        except Refusal as refusal:
            answer = refusal.args
        # An empty graph is refused with 12 where the model is right.
        found = finding_of(written.data, b"", written.names)
        self.assertEqual(found.outcome, answer or (12, 0, 0))


def random_model(dice):
    """A text with random expressions; right or not, as it comes."""
    names = ["a", "b", "c2", "long_name"][: dice.randrange(1, 5)]
    lines = [f"total {dice.choice((1, 10, 1000, 65535))}"]
    for name in names:
        low = dice.randrange(-5, 5)
        lines.append(f"variable {name} {low}..{low + dice.randrange(9)} = {low + dice.randrange(9)}")
    lines.append(f"target {random_truth(dice, names, 3)}")
    for c in range(dice.randrange(1, 5)):
        name = dice.choice(("", f"step{c}: "))
        lines.append(f"command {name}{random_truth(dice, names, 3)}")
        for _ in range(dice.randrange(1, 4)):
            new = [f"{name}' = {random_number(dice, names, 3)}" for name in names if dice.randrange(2)]
            lines.append(f"  {dice.randrange(1, 1000)}: {', '.join(new)}")
    return "\n".join(lines) + "\n"


def random_number(dice, names, depth):
    way = dice.randrange(8) if depth else dice.randrange(2)
    if way == 0:
        return str(dice.randrange(-9, 10))
    if way == 1:
        return dice.choice(names)
    a, b = random_number(dice, names, depth - 1), random_number(dice, names, depth - 1)
    if way < 5:
        return f"({a} {'+-*'[way - 2]} {b})"
    if way < 7:
        return f"{('smaller', 'larger')[way - 5]}({a}, {b})"
    return f"(if {random_truth(dice, names, depth - 1)} then {a} else {b})"


def random_truth(dice, names, depth):
    way = dice.randrange(8) if depth else 7
    if way < 4:
        a, b = random_number(dice, names, depth - 1), random_number(dice, names, depth - 1)
        return f"{a} {('=', '<', '<=', '!=')[way]} {b}"
    if way == 4:
        return f"not ({random_truth(dice, names, depth - 1)})"
    if way < 7:
        left, right = random_truth(dice, names, depth - 1), random_truth(dice, names, depth - 1)
        return f"({left} {('and', 'or')[way - 5]} {right})"
    return dice.choice(("true", "false"))


class Damaged(unittest.TestCase):
    """Whatever is read: a folder or a line, and never a traceback, which would be status 3."""

    def setUp(self):
        room = tempfile.TemporaryDirectory()
        self.addCleanup(room.cleanup)
        self.room = room.name

    def path(self, name, data):
        path = os.path.join(self.room, name)
        with open(path, "wb") as file:
            file.write(data)
        return path

    def holds(self, seed, *words):
        status, _, said = run(*words)
        self.assertIn(status, (0, 1), f"seed {seed}: {words}: {said}")
        self.assertNotIn("Traceback", said)
        return status, said

    def test_model_texts(self):
        written = texts(".model")
        for seed in range(SEEDS):
            dice = seeded(seed)
            text = damaged_text(dice.choice(written)[1], dice)
            source = self.path("m.model", text.encode("utf-8", "replace"))
            out = os.path.join(self.room, "m.fold")
            status, said = self.holds(seed, "model", source, "-o", out)
            if status == 0:
                again = write_model(show_model(read(out))).data
                self.assertEqual(again, read(out), f"seed {seed}")
            else:
                self.assertIn("m.model", said, f"seed {seed}")

    def test_graph_texts(self):
        written = texts(".graph")
        for seed in range(SEEDS):
            dice = seeded(seed)
            name, text = dice.choice(written)
            source = self.path("g.graph", damaged_text(text, dice).encode("utf-8", "replace"))
            out = os.path.join(self.room, "g.fold")
            model = os.path.join(EXAMPLES, name, "model.fold")
            status, said = self.holds(seed, "graph", source, "-m", model, "-o", out, "--anyway")
            if status == 0:
                self.assertEqual(write_graph(show_graph(read(out), read(model)), read(model)).data, read(out))
            else:
                self.assertIn("g.graph", said, f"seed {seed}")

    def test_model_folders(self):
        for seed in range(SEEDS):
            dice = seeded(seed)
            data = damaged_bytes(example(dice.choice(examples()))[0], dice)
            fold = self.path("model.fold", data)
            status, _ = self.holds(seed, "show", fold)
            if status == 0:
                self.assertEqual(write_model(show_model(data)).data, data, f"seed {seed}")

    def test_graph_folders(self):
        for seed in range(SEEDS):
            dice = seeded(seed)
            model, graph = example(dice.choice(examples()))
            data = damaged_bytes(graph, dice)
            paths = self.path("graph.fold", data), self.path("model.fold", model)
            status, _ = self.holds(seed, "show", *paths)
            if status == 0:
                self.assertEqual(write_graph(show_graph(data, model), model).data, data, f"seed {seed}")

    def test_explanations(self):
        """Of damaged models and graphs: an explanation each, which agrees with the proved answer."""
        for seed in range(2 * SEEDS):
            dice = seeded(seed)
            model, graph = example(dice.choice(examples()))
            if dice.randrange(3) == 0:
                model = damaged_bytes(model, dice)
            else:
                graph = damaged_bytes(graph, dice)
            paths = self.path("model.fold", model), self.path("graph.fold", graph)
            status, out, said = run("explain", *paths)
            self.assertIn(status, (0, 1), f"seed {seed}: {said}")
            self.assertNotIn(b"NOT agree", out, f"seed {seed}")

    def test_figures(self):
        for seed in range(SEEDS):
            dice = seeded(seed)
            model, graph = example(dice.choice(examples()))
            paths = self.path("model.fold", model), self.path("graph.fold", damaged_bytes(graph, dice))
            self.holds(seed, "figures", *paths, "3", "7", "--nodes", "all")

    def test_random_bytes(self):
        for seed in range(SEEDS):
            dice = seeded(seed)
            data = bytes(dice.randrange(256) for _ in range(dice.randrange(200)))
            fold = self.path("x.fold", data)
            self.holds(seed, "show", fold)
            self.holds(seed, "model", fold, "-o", os.path.join(self.room, "y.fold"))
            self.holds(seed, "explain", fold, fold)


class Slips(unittest.TestCase):
    """What a modeller mistypes, and the line that tells."""

    def told(self, text):
        with self.assertRaises(InputError) as caught:
            write_model(text)
        return caught.exception.line, caught.exception.message

    def test_slips(self):
        head = "total 10\nvariable a 0..3 = 0\ntarget a = 2\n"
        self.assertEqual(self.told(head + "command a == 0\n")[0], 4)
        self.assertIn("write '='", self.told(head + "command a == 0\n")[1])
        self.assertIn("no variable 'b'", self.told(head + "command b < 2\n")[1])
        self.assertIn("smaller", self.told(head + "command a < 2\n  10: a' = min(a, 2)\n")[1])
        self.assertIn("line 5 ends in a comma", self.told(head + "command a < 2\n  10: a' = 1,\ncommand a = 0\n")[1])

    def test_deep_brackets(self):
        line, message = self.told("total 1\nvariable a 0..1 = 0\ntarget " + "(" * 5000 + "\n")
        self.assertEqual((line, message), (3, "the expression is nested too deep"))

    def test_names_are_checked(self):
        model, _ = example("pedal")
        variables = ("variable a\n", "variable a\nvariable a\n", "variable a\nvariable if\n")
        for text in (*variables, "model sha256 00\n", "x\n"):
            with self.assertRaises(InputError):
                parse_names(text, read_model(model), model)
        with self.assertRaises(InputError):
            show_model(model, ["a"])
        self.assertEqual(Names(["a"], [None]).command(0), "command 0")


class Accepted(unittest.TestCase):
    def test_examples_are_what_they_say(self):
        for name in examples():
            model, graph = example(name)
            expected = read(os.path.join(EXAMPLES, name, "expected.txt"), "r").split()
            try:
                answer = ["accepted", str(graph_check(model, graph).nodes)]
            except Refusal as refusal:
                answer = str(refusal).split()
            self.assertEqual(answer, expected[: len(answer)], name)


if __name__ == "__main__":
    unittest.main()
