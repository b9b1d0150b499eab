#!/usr/bin/env python3
"""Brings the repository's own definitions and lemmas to the spelling of today's Rattle: words in snake case.

usage: tools/respell.py [--check] [ROOT]

Run once, after the toolchain's port.py. Each name of an .antt file that begins in lower case and has a capital turns,
as `nodeCount` to `node_count`, in .antt and .rt files, edits and documents. Names of the toolchain's library that have
a capital behind an underscore stay, and so do names of types. It prints the names that would fall together with another
one of the same file. --check writes nothing.
"""
import glob
import os
import re
import sys

WORD = re.compile(r"(?<![\w'₀-₉′◌≡≤<∷-])[a-z][\w'₀-₉′-]*")
KEEP = re.compile(r"_[A-Z]|^is_T$|^to_ℕ")
# The parts of getD-tab and its like name the library's get_or, as their port does elsewhere.
ODD = {"at-mostZ": "at_most_z", "get_d_kept": "get_or-kept"}
# Lemmas that would have the new name of the function that they are about.
LEMMAS = {w: w + "_lem" for w in ("root_ends", "is_true", "number_step", "same_edges", "same_truth", "xor_low")}


def snake(part):
    if part == "getD":
        return "get_or"
    part = re.sub(r"(?<=[a-z0-9])(?=[A-Z])", "_", part)
    return part.lower() if part[:1].islower() else part


def turned(word):
    if word in ODD:
        return ODD[word]
    if KEEP.search(word) or not re.search(r"[a-z0-9][A-Z]", word):
        return word
    return "-".join(snake(p) if p[:1].islower() else p for p in word.split("-"))


def files(root):
    crates = [f"crates/*/{part}" for part in ("specs/**/*.antt", "proofs/**/*.antt", "src/**/*.rt", "must-fail/*")]
    for pattern in (*crates, "edits/*/*", "docs/**/*.md", "README.md"):
        yield from sorted(p for p in glob.glob(os.path.join(root, pattern), recursive=True) if os.path.isfile(p))


def main():
    words = [w for w in sys.argv[1:] if w != "--check"]
    root = words[0] if words else "."
    table = {}
    texts = {p: open(p, encoding="utf-8").read() for p in files(root)}
    for path, text in texts.items():
        if path.endswith(".antt"):
            for w in WORD.findall(text):
                if turned(w) != w:
                    table[w] = turned(w)
    for path, text in texts.items():
        if path.endswith((".antt", ".rt")):
            there = {}
            for m in WORD.finditer(text):
                if text[m.start() - 1 : m.start()] != "." and not (path.endswith(".antt") and m.group() in LEMMAS):
                    there[m.group()] = m.start()
            for old in sorted(set(there) & set(table)):
                if table[old] in there:
                    print(f"look: {path}: {old} and {table[old]}")
        lemmas = LEMMAS if path.endswith(".antt") else {}

        def new_name(m, text=text, lemmas=lemmas):
            is_part = text[m.start() - 1 : m.start()] == "."
            return table.get(m.group()) or (not is_part and lemmas.get(m.group())) or m.group()

        new = WORD.sub(new_name, text)
        if new != text and "--check" not in sys.argv:
            with open(path, "w", encoding="utf-8") as f:
                f.write(new)
    print(f"{len(table)} names")


if __name__ == "__main__":
    main()
