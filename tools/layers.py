#!/usr/bin/env python3
"""Writes the layers of crates.txt into README.md, between its marks: for each crate what it has, and the crates that it
stands on directly.

  tools/layers.py            writes them
  tools/layers.py --check    writes nothing, and exits with 1 if the README has others
"""
import argparse
import os
import sys

ROOT = os.path.normpath(os.path.join(os.path.dirname(os.path.realpath(__file__)), ".."))
START, END = "<!-- layers: tools/layers.py writes them from crates.txt -->", "<!-- end of layers -->"


def parts(text):
    """The parts of crates.txt, by their headings: of each crate what it depends on and what it has. A kind, as
    `staticlib`, stands after the name."""
    found, part = [], None
    for line in text.splitlines():
        named, _, has = line.partition("#")
        name, colon, words = named.partition(":")
        if colon:
            part[1][name.split()[0]] = words.split(), has.strip()
        elif line.startswith("# The "):
            part = line[2:].rstrip("."), {}
            found.append(part)
    return found


def below(name, known):
    """All crates that a crate stands on, directly or not."""
    found = set()
    for word in known.get(name, ()):
        found |= {word} | below(word, known)
    return found


def level(name, known):
    return 1 + max((level(word, known) for word in known.get(name, ()) if word in known), default=-1)


def direct(name, known):
    """What a crate stands on directly: not what another of these stands on."""
    words = known[name]
    return [word for word in words if not any(word in below(other, known) for other in words if other != word)]


def section(text):
    """The layers as tables, the highest first."""
    found = parts(text)
    known = {name: words for _, crates in found for name, (words, _) in crates.items()}
    lines = []
    for heading, crates in found:
        lines += [f"{heading}:", "", "| crate | has | stands on |", "|---|---|---|"]
        order = sorted(crates, key=lambda name: -level(name, known))
        for name in order:
            on = ", ".join(f"`{word}`" for word in direct(name, known)) or "nothing"
            lines.append(f"| `{name}` | {crates[name][1]} | {on} |")
        lines.append("")
    return "\n".join(lines)


def main():
    parser = argparse.ArgumentParser(description=__doc__, formatter_class=argparse.RawDescriptionHelpFormatter)
    parser.add_argument("--check", action="store_true", help="write nothing, and compare")
    args = parser.parse_args()
    with open(os.path.join(ROOT, "crates.txt"), encoding="utf-8") as file:
        made = section(file.read())
    path = os.path.join(ROOT, "README.md")
    with open(path, encoding="utf-8") as file:
        text = file.read()
    head, mark, rest = text.partition(START)
    _, end, tail = rest.partition(END)
    if not mark or not end:
        sys.exit(f"README.md has not the marks {START} and {END}")
    new = f"{head}{START}\n\n{made}{END}{tail}"
    if args.check:
        if new != text:
            print("the layers of README.md are not those of crates.txt: tools/layers.py writes them", file=sys.stderr)
        return int(new != text)
    with open(path, "w", encoding="utf-8") as file:
        file.write(new)
    return 0


if __name__ == "__main__":
    sys.exit(main())
