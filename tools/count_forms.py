#!/usr/bin/env python3
"""Counts, for each point of docs/DESIGN-PASS.md, the places in crates/*/src that it is about.

    tools/count_forms.py [--list POINT] [COMMIT]

Without COMMIT it reads the files as they stand; with --list it prints the places of a point too.
"""

import collections
import pathlib
import re
import subprocess
import sys

TOP = pathlib.Path(__file__).resolve().parent.parent
HEAD = re.compile(
    r"^(?:pub )?(?:extern \"C\" )?fn (\w+)[^(]*\((.*?)\)(?: -> [^\n]*)?\n"
    r"((?:    (?:requires|ensures)[^\n]*\n(?:        [^\n]*\n)*)*)\{"
    r"|^(?:pub )?fn (\w+)[^(]*\((.*?)\)[^\n]*\{$",
    re.M | re.S,
)
# Functions that only compare, copy, convert or print, by their names.
BY_HAND = re.compile(
    r"^\s*(?:pub )?fn (wide|larger|smaller|min|max|add|sub|mul|equal|less|at_most|same_\w+|union_of|bit_of|low_byte"
    r"|high_byte|pair|truth|flag_if|kept_if|either_up|mark_if|as_number|flag_of|content_of|plain_\w+|carry_\w+"
    r"|signed_of|unsigned_of|bits_of|small|field_of|is_accepted|is_move|is_true|number_of|places_of|\w+_number"
    r"|\w+_places|put_digits|put_decimal|byte_at|set_at|value_at|value_of|unit|element|wide_units|over)\b"
)
LINES = {
    "1a own enums": re.compile(r"^\s*(pub )?enum \w+"),
    "1b fields and parameters of type bool": re.compile(r"^    (pub )?\w+: bool,$"),
    "1c a number that says there is none": re.compile(r"^(?!use|ghost|pub const|const|//).*\bNO_(VARIABLE|NODE)\b"),
    "1d kinds of nodes by number": re.compile(r"^(?!use|pub const|//).*\b(WAITING|EXPANDED|COVERED|TARGET)\b"),
    "3 while and loop": re.compile(r"^\s+(while|loop)\b"),
    "3 for": re.compile(r"^\s+for "),
    "4 written by hand": BY_HAND,
    "7 arms by a number or a letter": re.compile(r"^\s+(b'[^']*'|\d+)( \|.*)? =>"),
}


def git(*words):
    return subprocess.run(["git", *words], cwd=TOP, check=True, capture_output=True, text=True).stdout


def files(commit, pattern):
    if commit:
        names = git("ls-tree", "-r", "--name-only", commit, "crates").split()
    else:
        names = [str(p.relative_to(TOP)) for p in sorted(TOP.glob("crates/**/*")) if p.is_file()]
    for name in names:
        if re.fullmatch(pattern, name):
            yield name, git("show", f"{commit}:{name}") if commit else (TOP / name).read_text()


def facts_of(clause):
    """The conjuncts of a clause."""
    found, depth, last = [], 0, ""
    for c in clause:
        depth += (c in "([{") - (c in ")]}")
        if c == "×" and depth == 0:
            found, last = [*found, last], ""
        else:
            last += c
    return [re.sub(r"^\(([^()]*)\)$", r"\1", it.strip()) for it in [*found, last]]


def count(commit):
    places = collections.defaultdict(list)
    names, facts, pairs = (collections.defaultdict(set) for _ in range(3))
    for file, text in files(commit, r"crates/\w+/src/.*\.rt"):
        for number, line in enumerate(text.split("\n"), 1):
            for point, pattern in LINES.items():
                if pattern.match(line):
                    places[point].append(f"{file}:{number}: {line.strip()}")
        for *with_clauses, plain, of_plain in HEAD.findall(text):
            name, params, clauses = with_clauses if with_clauses[0] else (plain, of_plain, "")
            here = f"{file.split('/')[1]}::{name}"
            names[name].add(here)
            for clause in re.findall(r"^    requires(?: \w+)? \{ (.*) \}$", clauses, re.M):
                for fact in facts_of(clause):
                    facts[fact].add(here)
            own = re.findall(r"(?:^|,)\s*(?:mut )?(\w+):", params.replace("\n", " "))
            for i, a in enumerate(own):
                for b in own[i + 1 :]:
                    pairs[f"{a}, {b}"].add(here)
    places["2 names in two crates or more"] = [f"{n}: {', '.join(sorted(w))}" for n, w in names.items() if len(w) > 1]
    places["5a facts required by three functions or more"] = [
        f"{len(w)} {f}" for f, w in sorted(facts.items(), key=lambda it: -len(it[1])) if len(w) > 2
    ]
    places["5b pairs of parameters in ten functions or more"] = [
        f"{len(w)} {p}" for p, w in sorted(pairs.items(), key=lambda it: -len(it[1])) if len(w) > 9
    ]
    answers = list(files(commit, r"crates/\w+/proofs/[^/]+/(Answers|Invariants)\.antt"))
    places["8 files of answers and invariants"] = [name for name, _ in answers]
    places["8 lines in them"] = [line for _, text in answers for line in text.split("\n") if line]
    return places


def main(words):
    listed = words[words.index("--list") + 1] if "--list" in words else None
    rest = [it for it in words if it not in ("--list", listed)]
    for point, found in sorted(count(rest[0] if rest else None).items()):
        print(f"{len(found):6} {point}")
        if listed and point.startswith(listed):
            print("\n".join(f"       {it}" for it in found))


if __name__ == "__main__":
    main(sys.argv[1:])
