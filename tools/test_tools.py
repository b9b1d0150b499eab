#!/usr/bin/env python3
"""The checks of documents and of the toolchain, shown to fail: each on a copy of the repository's documents with one
thing wrong."""
import os
import shutil
import subprocess
import sys
import tempfile
import unittest

ROOT = os.path.normpath(os.path.join(os.path.dirname(os.path.realpath(__file__)), ".."))


class Checks(unittest.TestCase):
    def setUp(self):
        room = tempfile.TemporaryDirectory()
        self.addCleanup(room.cleanup)
        self.room = room.name
        for name in sorted(os.listdir(ROOT)):
            if name in ("docs", "README.md", "crates.txt", "tools", "TOOLCHAIN"):
                copy = shutil.copytree if os.path.isdir(os.path.join(ROOT, name)) else shutil.copy
                copy(os.path.join(ROOT, name), os.path.join(self.room, name))
            elif name not in (".git", "target", "build"):
                os.symlink(os.path.join(ROOT, name), os.path.join(self.room, name))

    def change(self, name, old, new):
        path = os.path.join(self.room, name)
        with open(path, encoding="utf-8") as file:
            text = file.read()
        self.assertIn(old, text)
        with open(path, "w", encoding="utf-8") as file:
            file.write(text.replace(old, new, 1))

    def run_tool(self, *words, **more):
        line = [os.path.join(self.room, "tools", words[0]), *words[1:]]
        pipes = {"stdout": subprocess.PIPE, "stderr": subprocess.STDOUT}
        run = subprocess.run(line, check=False, env={**os.environ, **more}, **pipes)
        return run.returncode, run.stdout.decode()

    def assert_told(self, told, *words, **more):
        status, said = self.run_tool(*words, **more)
        self.assertEqual(status, 1, said)
        self.assertIn(told, said)

    def test_claims(self):
        self.assertEqual(self.run_tool("check_claims.py")[0], 0)
        wrong = (
            ("`figure-near`", "`figure-nearly`", "is not declared in"),
            ("`mdp/proofs/Figures.antt`", "`mdp/proofs/Figure.antt`", "is no file of the repository"),
            ("`FigureFits .near`", "`FigureFits .nearer`", "is not declared in"),
            ("`invented_counts`", "`invented_count`", "`invented_count`"),
            ("`model/specs/Valid.antt` `FolderRight", "`model/specs/Rules.antt` `FolderRight", "is not declared in"),
        )
        for old, new, told in wrong:
            self.change("docs/CLAIMS.md", old, new)
            self.assert_told(told, "check_claims.py")
            self.change("docs/CLAIMS.md", new, old)
        self.change("docs/AUDIT.md", "`demand-3`", "`demand-4`")
        self.assert_told("docs/AUDIT.md", "check_claims.py")

    def test_layers(self):
        self.assertEqual(self.run_tool("layers.py", "--check")[0], 0)
        self.change("README.md", "| `mdp`, `expressions` |", "| `mdp`, `expressions`, `evaluate` |")
        self.assert_told("tools/layers.py writes them", "layers.py", "--check")
        self.assertEqual(self.run_tool("layers.py")[0], 0)
        self.assertEqual(self.run_tool("layers.py", "--check")[0], 0)
        self.change("crates.txt", "view: folder model", "view: folder model evaluate")
        self.assert_told("are not those of crates.txt", "layers.py", "--check")

    def test_toolchain(self):
        self.assertEqual(self.run_tool("check_toolchain.sh")[0], 0)
        self.change("TOOLCHAIN", "logic ", "logic 0")
        self.assert_told("and TOOLCHAIN names", "check_toolchain.sh")

    def test_documents(self):
        text = "```text a/b\nx\n```\n\n```console\n$ cat a/b\nx\n$ echo y >&2\ny\n```\n"
        path = os.path.join(self.room, "page.md")
        output, file = text.replace("\ny\n", "\nz\n"), text.replace("\nx\n", "\nw\n", 1)
        for wrong, status in ((text, 0), (output, 1), (file, 1), (text[: text.rindex("`") - 2], 1), ("", 1)):
            with open(path, "w", encoding="utf-8") as file:
                file.write(wrong)
            self.assertEqual(self.run_tool("test_guide.py", path)[0], status, wrong)

    def test_words(self):
        """A word that is not known is refused and does nothing, and a document that is not there is told."""
        with open(os.path.join(self.room, "README.md"), encoding="utf-8") as file:
            before = file.read()
        self.change("README.md", "| `mdp`, `expressions` |", "| `mdp` |")
        for tool in ("layers.py", "check_claims.py", "test_guide.py"):
            self.assertEqual(self.run_tool(tool, "--chekc")[0], 2, tool)
            self.assertEqual(self.run_tool(tool, "--help")[0], 0, tool)
        self.change("README.md", "| `mdp` |", "| `mdp`, `expressions` |")
        with open(os.path.join(self.room, "README.md"), encoding="utf-8") as file:
            self.assertEqual(file.read(), before)
        for tool in ("check_claims.py", "test_guide.py"):
            status, said = self.run_tool(tool, "nowhere.md")
            self.assertEqual((status, said.count("\n")), (1, 1), said)
            self.assertIn("nowhere.md: No such file", said)


class Sources(unittest.TestCase):
    WIDEST = 120
    PLACES = ("bindings/python", "examples", "tools", ".ci", "laguipy", "Makefile")

    def test_lines(self):
        """No line of Python, shell or make is too wide."""
        wide, count = [], 0
        for path in self.files():
            with open(path, encoding="utf-8") as file:
                for number, line in enumerate(file, 1):
                    count += 1
                    if len(line.rstrip("\n")) > self.WIDEST:
                        wide.append(f"{os.path.relpath(path, ROOT)}:{number}")
        self.assertEqual(wide, [])
        self.assertGreater(count, 5000)

    def files(self):
        found = []
        for place in self.PLACES:
            top = os.path.join(ROOT, place)
            found += [top] if os.path.isfile(top) else []
            for folder, _, names in os.walk(top):
                wanted = [name for name in names if name.endswith((".py", ".sh")) or name == "run"]
                found += [os.path.join(folder, name) for name in wanted]
        return found


if __name__ == "__main__":
    sys.exit(unittest.main())
