#!/usr/bin/env python3
"""Runs the commands of documents and compares what they print. A block that starts with ```console has commands, after
`$ `, and what each prints, standard error too; a block that starts with ```text NAME is a file of that name. The
commands of a document run in one folder, which has what the checkout has.

  tools/test_guide.py FILE..
"""
import argparse
import os
import subprocess
import sys
import tempfile

ROOT = os.path.normpath(os.path.join(os.path.dirname(os.path.realpath(__file__)), ".."))
FENCE = "```"


def blocks(text):
    """The fenced blocks of a document: the words after the fence, the line, and the lines of the block."""
    found, lines = [], text.split("\n")
    start = None
    for number, line in enumerate(lines, 1):
        if not line.startswith(FENCE):
            continue
        if start is None:
            start = number
        else:
            found.append((lines[start - 1][len(FENCE) :].split(), start, lines[start : number - 1]))
            start = None
    if start is not None:
        sys.exit(f"the block of line {start} has no end")
    return found


def commands(lines, start):
    """The commands of a block, each with its line and what it is to print."""
    found = []
    for number, line in enumerate(lines, start + 1):
        if line.startswith("$ "):
            found.append((number, line[2:], []))
        elif found:
            found[-1][2].append(line)
    return [(number, command, "".join(line + "\n" for line in due)) for number, command, due in found]


class Document:
    """One document's blocks, in a folder of their own."""

    def __init__(self, path, room):
        self.path, self.room = path, room
        self.count = self.wrong = 0
        for name in os.listdir(ROOT):
            if not name.startswith("."):
                os.symlink(os.path.join(ROOT, name), os.path.join(room, name))

    def run(self):
        try:
            with open(self.path, encoding="utf-8") as file:
                text = file.read()
        except OSError as error:
            sys.exit(f"{self.path}: {error.strerror}")
        for words, start, lines in blocks(text):
            if words[:1] == ["console"]:
                for command in commands(lines, start):
                    self.compare(*command)
            elif words[:1] == ["text"] and len(words) == 2:
                self.write(words[1], lines)

    def write(self, name, lines):
        path = os.path.join(self.room, name)
        os.makedirs(os.path.dirname(path), exist_ok=True)
        with open(path, "w", encoding="utf-8") as file:
            file.write("".join(line + "\n" for line in lines))

    def compare(self, number, command, due):
        self.count += 1
        environment = {**os.environ, "PYTHONDONTWRITEBYTECODE": "1"}
        pipes = {"stdout": subprocess.PIPE, "stderr": subprocess.STDOUT}
        run = subprocess.run(["bash", "-c", command], cwd=self.room, env=environment, check=False, **pipes)
        came = run.stdout.decode("utf-8", "replace")
        if came != due:
            self.wrong += 1
            print(f"{self.path}:{number}: {command}\n--- it says\n{due}--- it prints\n{came}---", file=sys.stderr)


def main():
    parser = argparse.ArgumentParser(description=__doc__, formatter_class=argparse.RawDescriptionHelpFormatter)
    parser.add_argument("paths", nargs="+", metavar="FILE")
    total = wrong = 0
    for path in parser.parse_args().paths:
        with tempfile.TemporaryDirectory() as room:
            document = Document(path, room)
            document.run()
            total, wrong = total + document.count, wrong + document.wrong
    print(f"{total} commands of documents run, {wrong} print something else")
    return 1 if wrong or not total else 0


if __name__ == "__main__":
    sys.exit(main())
