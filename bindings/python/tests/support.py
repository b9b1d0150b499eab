"""What the tests share: where the package and the examples stand, folders of the examples, and damage by a seed."""
import contextlib
import io
import os
import random
import signal
import subprocess
import sys
import tempfile
import unittest

HERE = os.path.dirname(os.path.abspath(__file__))
ROOT = os.path.normpath(os.path.join(HERE, "..", "..", ".."))
EXAMPLES = os.path.join(ROOT, "examples")
LAGUIPY = os.path.join(ROOT, "laguipy")
PEDAL = os.path.join(EXAMPLES, "pedal")
SCAN = os.path.join(EXAMPLES, "scan_loop")

sys.dont_write_bytecode = True
sys.path.insert(0, os.path.join(ROOT, "bindings", "python"))

from laguipy import cli  # noqa: E402


def read(path, mode="rb"):
    with open(path, mode) as file:
        return file.read()


def example(name):
    """An example's model and graph folder."""
    return tuple(read(os.path.join(EXAMPLES, name, fold)) for fold in ("model.fold", "graph.fold"))


def examples():
    """The names of the examples that have folders."""
    return sorted(name for name in os.listdir(EXAMPLES) if os.path.isfile(os.path.join(EXAMPLES, name, "graph.fold")))


def texts(extension):
    """The examples' texts of a kind, with their directories."""
    found = []
    for name in examples():
        for file in sorted(os.listdir(os.path.join(EXAMPLES, name))):
            if file.endswith(extension):
                found.append((name, read(os.path.join(EXAMPLES, name, file), "r")))
    return found


def damaged_bytes(data, dice):
    """Some bytes changed, cut out, doubled or cut off."""
    data = bytearray(data)
    for _ in range(dice.choice((1, 1, 1, 2, 3, 8))):
        at = dice.randrange(len(data) + 1)
        way = dice.randrange(6)
        if way < 3 and at < len(data):
            data[at] = dice.choice((0, 1, 2, 3, 15, 16, 127, 128, 254, 255, dice.randrange(256)))
        elif way == 3:
            del data[at : at + dice.choice((1, 2, 4, 6, 8, 40))]
        elif way == 4:
            data[at:at] = data[at : at + dice.choice((1, 2, 4, 6, 8, 40))]
        else:
            del data[at:]
        if not data:
            break
    return bytes(data)


PIECES = (
    "if", "then", "else", "and", "or", "not", "true", "false", "smaller(", "larger(", "raw(", "branches 3", "none", "S",
    "total", "variable", "variables", "let", "entries", "target", "command", "node", "edge", "bytes", "contents", "=",
    "<", "<=", "+", "-", "*", "(", ")", ",", ":", "@9999", "'", "..", "#", "0", "1", "3", "65535", "65536", "-1",
    "99999999999", "999999999999999999999999", "a", "d", "é", "\u2212", "\t", "\n", "\0", "bytes edges 0",
    "contents 0 1 2", "kind 9", "set 65535",
)  # fmt: skip


def damaged_text(text, dice):
    """Some words and characters changed, left out, doubled or put in."""
    for _ in range(dice.choice((1, 1, 1, 2, 3, 8))):
        at = dice.randrange(len(text) + 1)
        way = dice.randrange(6)
        if way == 0:
            text = text[:at] + text[at + dice.choice((1, 1, 2, 5, 20)) :]
        elif way == 1:
            text = text[:at] + text[at : at + 10] + text[at:]
        elif way == 2:
            lines = text.split("\n")
            dice.shuffle(lines) if dice.randrange(9) == 0 else lines.pop(dice.randrange(len(lines)))
            text = "\n".join(lines)
        elif way == 3:
            text = text[:at] + chr(dice.randrange(32, 256)) + text[at + 1 :]
        else:
            text = text[:at] + " " + dice.choice(PIECES) + " " + text[at:]
    return text


def interruptible():
    """For a process that is to be interrupted: one that is started in the background ignores it, unless it is told."""
    signal.signal(signal.SIGINT, signal.SIG_DFL)


def seeded(seed):
    return random.Random(seed)


def run(*words):
    """The command line in this process: its status, and what it wrote and said."""
    out, said = io.TextIOWrapper(io.BytesIO(), encoding="utf-8", write_through=True), io.StringIO()
    with contextlib.redirect_stdout(out), contextlib.redirect_stderr(said):
        try:
            status = cli.main(list(words))
        except SystemExit as end:
            status = end.code
    return status, out.buffer.getvalue(), said.getvalue()


def start(*words, **more):
    """A process of the command line."""
    more = {"stdout": subprocess.PIPE, "stderr": subprocess.PIPE, "check": False, **more}
    return subprocess.run([sys.executable, LAGUIPY, *words], **more)


class Room(unittest.TestCase):
    """A folder of its own for each test."""

    def setUp(self):
        room = tempfile.TemporaryDirectory()
        self.addCleanup(room.cleanup)
        self.room = room.name

    def path(self, name, data=None):
        path = os.path.join(self.room, name)
        if data is not None:
            os.makedirs(os.path.dirname(path), exist_ok=True)
            with open(path, "wb") as file:
                file.write(data if isinstance(data, bytes) else data.encode())
        return path

    def large(self, folder, text, nodes, state):
        """A model, and a graph of as many nodes as may be: that of a text and, covered by node 1, many of a state."""
        more = [f"node {n} covered by 1 value S tracks {state} state {state}\n" for n in range(nodes, 4096)]
        source = self.path("large.graph", read(os.path.join(folder, text), "r") + "".join(more))
        paths = os.path.join(folder, "model.fold"), self.path("large.fold")
        self.assertEqual(run("graph", source, "-m", paths[0], "-o", paths[1])[0], 0)
        return paths
