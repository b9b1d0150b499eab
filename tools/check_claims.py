#!/usr/bin/env python3
"""Sees to it that what the claims quote is there: every file, and every name where it is said to stand.

  tools/check_claims.py [FILE..]     without a file docs/CLAIMS.md and docs/AUDIT.md

What stands in `backticks` is, in this order:
- a file or folder, from the top of the repository or below crates/; names after it stand in that file, up to the end of
  the paragraph or, in a table, in the same column up to the next file;
- a crate; an edit named after it is one of that crate's;
- a name that is declared in the file before it, also with what it takes, as in `step(model, state)`, or with fields of
  its record, as in `FigureFits .near`;
- a term, several words: each of its names is declared somewhere;
- an edit; or a name that is declared somewhere in the sources, where no file stands before it.
Words that are no names stand in "quotes" instead.
"""
import argparse
import functools
import os
import re
import sys

ROOT = os.path.normpath(os.path.join(os.path.dirname(os.path.realpath(__file__)), ".."))
DOCUMENTS = ("docs/CLAIMS.md", "docs/AUDIT.md")
QUOTED = re.compile(r"`([^`]+)`")
WORD = re.compile(r"[^\s().,;:{}λ→↔≡<≤×+*/=]+")
DECLARED = re.compile(r"^\s*(?:pub |abbrev |unfoldable |infix\S* \d+ )*([^\s:({]+(?: [^\s:({]+)*) :(?: |$)", re.M)
ANSWERS = {"Ok", "Err", "tt"}  # which terms have, and the toolchain declares


def files_below(top, endings):
    found = []
    for folder, folders, names in os.walk(os.path.join(ROOT, top)):
        folders[:] = [name for name in folders if name not in ("out", "must-fail")]
        found += [os.path.join(folder, name) for name in sorted(names) if name.endswith(endings)]
    return found


@functools.lru_cache(maxsize=None)
def text_of(path):
    with open(path, encoding="utf-8", errors="replace") as file:
        return file.read()


@functools.lru_cache(maxsize=None)
def declared_in(path):
    """The names that a source declares: definitions, records and their fields, data and constructors, functions."""
    text = text_of(path)
    if path.endswith(".antt"):
        names = {word for group in DECLARED.findall(text) for word in group.split()}
        return names | set(re.findall(r"\b(?:record|data|mutual) (\S+)", text))
    if path.endswith((".rt", ".rs")):
        return set(re.findall(r"\b(?:fn|struct|enum|const|mod|type) ([A-Za-z_][A-Za-z0-9_]*)", text)) | set(
            re.findall(r"^\s+(?:pub )?([A-Za-z_]\w*)(?::|\(|,)", text, re.M)
        )
    if path.endswith(".py"):
        return set(re.findall(r"^\s*(?:def|class) (\w+)", text, re.M)) | set(re.findall(r"^(\w+) = ", text, re.M))
    return set(re.findall(r"[\w.$-]+", text))


@functools.lru_cache(maxsize=None)
def declared_somewhere():
    return set().union(*(declared_in(path) for path in files_below("crates", (".antt", ".rt"))))


@functools.lru_cache(maxsize=None)
def edits():
    """The edits, by crate."""
    found = {}
    for top in (os.path.join(ROOT, "edits"), os.path.join(ROOT, "crates")):
        for crate in sorted(os.listdir(top)):
            folder = os.path.join(top, crate, "must-fail" if top.endswith("crates") else "")
            if os.path.isdir(folder):
                names = [name[:-5] for name in os.listdir(folder) if name.endswith(".edit")]
                found.setdefault(crate, set()).update(names)
    return found


def place_of(span):
    """The file or folder that a span names, or None."""
    for base in ("", "crates"):
        path = os.path.join(ROOT, base, span)
        if re.fullmatch(r"[\w./+-]+", span) and os.path.exists(path) and ("/" in span or os.path.isfile(path)):
            return path
    return None


def is_path(span):
    return re.fullmatch(r"[\w+-]+(/[\w.+-]+)+|[\w-]+\.(md|antt|rt|rs|py|sh|txt|h|c)", span) is not None


class Scope:
    """What stands before a span: the file and the crate that names are looked up in."""

    def __init__(self):
        self.file = self.crate = None

    def fault(self, span):
        """Why what a span quotes is not there; None if it is."""
        place = place_of(span)
        if place:
            self.file = place if os.path.isfile(place) else None
            return None
        if is_path(span):
            return "is no file of the repository"
        if os.path.isdir(os.path.join(ROOT, "crates", span)):
            self.crate = span
            return None
        name, *fields = re.sub(r"\(.*\)$", "", span).split(" .")
        if " " in name.strip() or "≡" in name:
            known = declared_somewhere() | ANSWERS
            unknown = [word for word in WORD.findall(span) if len(word) > 3 and word not in known]
            return f"has names that nothing declares: {', '.join(unknown)}" if unknown else None
        if "::" in name:
            crate, name = name.split("::")
            source = os.path.join(ROOT, "crates", crate, "src", "lib.rt")
            return None if os.path.isfile(source) and name in declared_in(source) else f"is not declared in {crate}"
        return self.name_fault(name.strip(), fields)

    def name_fault(self, name, fields):
        if self.file and {name, *fields} <= declared_in(self.file):
            return None
        if any(name in found for crate, found in edits().items() if self.crate in (None, crate)):
            return None
        if self.file:
            return f"is not declared in {os.path.relpath(self.file, ROOT)}"
        if {name, *fields} <= declared_somewhere():
            return None
        return "names nothing: no file, crate, edit or declaration"


def faults(path):
    """The spans of a document that quote what is not there."""
    found, columns, paragraph = [], {}, Scope()
    for number, line in enumerate(text_of(os.path.join(ROOT, path)).split("\n"), 1):
        if not line.startswith("|"):
            columns = {}
        if not line.strip() or line.startswith(("#", "- ")):
            paragraph = Scope()
        cells = line.strip("|").split("|") if line.startswith("|") else [line]
        for column, cell in enumerate(cells):
            scope = columns.setdefault(column, Scope()) if line.startswith("|") else paragraph
            scope.crate = None if line.startswith("|") else scope.crate
            for span in QUOTED.findall(cell):
                why = scope.fault(span)
                if why:
                    found.append(f"{path}:{number}: `{span}` {why}")
    return found


def main():
    parser = argparse.ArgumentParser(description=__doc__, formatter_class=argparse.RawDescriptionHelpFormatter)
    parser.add_argument("paths", nargs="*", metavar="FILE", default=DOCUMENTS)
    paths = parser.parse_args().paths
    try:
        wrong = [fault for path in paths for fault in faults(path)]
    except OSError as error:
        sys.exit(f"{error.filename}: {error.strerror}")
    for fault in wrong:
        print(fault, file=sys.stderr)
    count = sum(len(QUOTED.findall(text_of(os.path.join(ROOT, path)))) for path in paths)
    print(f"{count} names and files quoted by the claims, {len(wrong)} not there")
    return 1 if wrong or not count else 0


if __name__ == "__main__":
    sys.exit(main())
