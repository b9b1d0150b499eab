#!/usr/bin/env python3
"""Proves the programs and the library, and puts what comes of it into build/: bin, lib, and share/laguipy/proved, which
says what was proved. Nothing is done where that file's hash of the sources, and its toolchain, are those at hand.

  tools/prove.py           prove in a copy, so that any rt may run in the checkout meanwhile
  tools/prove.py --here    prove in the checkout itself, over what is proved there already

`./laguipy` does the first whenever it is run. One run proves and the others wait for it. The copy is kept below
laguipy/ in the user's cache folder, $XDG_CACHE_HOME or ~/.cache, so that what is unchanged is not proved again; it may
be removed. It does not stand in the checkout, where `rt ci` refuses sources that are no crate's.
"""
import argparse
import contextlib
import fcntl
import hashlib
import os
import re
import select
import shutil
import subprocess
import sys
import time

ROOT = os.path.normpath(os.path.join(os.path.dirname(os.path.realpath(__file__)), ".."))
BUILD = os.path.join(ROOT, "build")
CACHE = os.environ.get("XDG_CACHE_HOME") or os.path.join(os.path.expanduser("~"), ".cache")
COPY = os.path.join(CACHE, "laguipy", hashlib.sha256(os.fsencode(ROOT)).hexdigest()[:16])
PROVED = os.path.join("share", "laguipy", "proved")

LIBRARY, PROGRAM = "laguipy_c", "check_graph"
WANTED = (PROGRAM, LIBRARY)
PARTS = ("src", "specs", "proofs", "stdin", "stdout", "args", "status", "data")
MEMORY = 3 << 30  # what a crate may take while it is proved
SONAME = "liblaguipy.so.0"
HEAD = "# What was proved, by which toolchain, and the files that came of it: `sha256sum -c` with this checks them.\n"


TOLD = re.compile(r"error|: (not proved|no proof|failed)")  # among the lines of rt, those that tell why it failed


class Failed(Exception):
    """Why nothing was proved."""


def show(text):
    """Text on standard error, which may be closed or full: then the status tells."""
    if sys.stderr is not None:
        with contextlib.suppress(OSError, ValueError):
            print(text, end="", file=sys.stderr, flush=True)


def say(words):
    show(f"laguipy: {words}\n")


# ---- what there is to prove


def listed():
    """The crates of crates.txt, each with what it depends on and its line: the name, the kind if it is said, these."""
    found = {}
    with open(os.path.join(ROOT, "crates.txt"), encoding="utf-8") as file:
        for line in file:
            said, colon, words = line.split("#", 1)[0].partition(":")
            if colon and said.split():
                line = " ".join([" ".join(said.split()) + ":", *words.split()])
                found[said.split()[0]] = words.split(), line
    return found


def wanted_crates():
    """The crates behind the programs and the library, in the order in which they are proved."""
    known, levels = listed(), {}

    def level(name):
        if name not in known:
            raise Failed(f"crates.txt has no {name}")
        if name not in levels:
            own = [level(d) for d in known[name][0] if d in known]
            levels[name] = 1 + max(own, default=-1)
        return levels[name]

    for name in WANTED:
        level(name)
    order = list(known)
    return sorted(levels, key=lambda name: (levels[name], order.index(name)))


def crate_files(tree, crate):
    """The files of a crate that a proof or a run reads, by their paths below the tree."""
    found = []
    for part in PARTS:
        top = os.path.join("crates", crate, part)
        if os.path.isfile(os.path.join(tree, top)):
            found.append(top)
        for folder, _, names in os.walk(os.path.join(tree, top)):
            found += [os.path.relpath(os.path.join(folder, name), tree) for name in names]
    return sorted(found)


def digest(tree, crates):
    """A hash of all sources of these crates and of what they depend on."""
    known, total = listed(), hashlib.sha256()
    for crate in crates:
        total.update(f"{known[crate][1]}\n".encode())
        for path in crate_files(tree, crate):
            with open(os.path.join(tree, path), "rb") as file:
                total.update(f"{path} {hashlib.sha256(file.read()).hexdigest()}\n".encode())
    return total.hexdigest()


def toolchain():
    """The identity of the toolchain on the PATH, or None."""
    if shutil.which("rt") is None:
        return None
    run = subprocess.run(["rt", "version"], stdout=subprocess.PIPE, stderr=subprocess.DEVNULL, check=False)
    return run.stdout.decode("utf-8", "replace").strip() or None


# ---- what was proved


def proved():
    """The facts of build/share/laguipy/proved, and the hash of each file that came of it; nothing if there is none."""
    facts, files = {}, {}
    stamp = os.path.join(BUILD, PROVED)
    with contextlib.suppress(OSError), open(stamp, encoding="utf-8", errors="replace") as file:
        for line in file:
            words = line.rstrip("\n").split(" ", 2)
            if len(words) == 3 and words[0] == "#":
                facts[words[1]] = words[2]
            elif len(words) == 3:
                files[words[2]] = words[0]
    return facts, files


def file_hash(path):
    with open(path, "rb") as file:
        return hashlib.sha256(file.read()).hexdigest()


def current(crates):
    """Whether what stands in build/ was proved of these sources, by the toolchain at hand, if there is one."""
    facts, files = proved()
    if not files or facts.get("sources") != digest(ROOT, crates):
        return False
    if toolchain() not in (None, facts.get("toolchain")):
        return False
    try:
        return all(file_hash(os.path.join(BUILD, path)) == known for path, known in files.items())
    except OSError:
        return False


def commit():
    """The commit at hand, and whether the crates differ from it."""

    def git(*words):
        run = subprocess.run(["git", *words], cwd=ROOT, stdout=subprocess.PIPE, stderr=subprocess.DEVNULL, check=False)
        return run.stdout.decode("utf-8", "replace").strip() if run.returncode == 0 else None

    with contextlib.suppress(OSError):
        head = git("rev-parse", "HEAD")
        if head:
            return head + (" with changes" if git("status", "--porcelain", "--", "crates", "crates.txt") else "")
    return "unknown"


# ---- proving


def copy_sources(crates):
    """Makes the copy hold just the sources of these crates; what is unchanged stays, so that it is not proved again."""
    wanted = set()
    for crate in crates:
        for path in crate_files(ROOT, crate):
            wanted.add(path)
            source, copy = os.path.join(ROOT, path), os.path.join(COPY, path)
            os.makedirs(os.path.dirname(copy), exist_ok=True)
            if not os.path.isfile(copy) or file_hash(copy) != file_hash(source):
                shutil.copyfile(source, copy)
    for folder, below, names in os.walk(os.path.join(COPY, "crates")):
        if os.path.dirname(folder) == os.path.join(COPY, "crates"):
            below[:] = [name for name in below if name != "out"]  # what was proved there
        for name in names:
            path = os.path.join(folder, name)
            if os.path.relpath(path, COPY) not in wanted:
                os.remove(path)
    known = listed()
    with open(os.path.join(COPY, "crates.txt"), "w", encoding="utf-8") as file:
        file.writelines(known[crate][1] + "\n" for crate in crates)


class Progress:
    """A line for each crate as it is proved; on a terminal also how long it is since."""

    def __init__(self, crates):
        self.crates = crates
        self.seen = set()
        self.began = time.monotonic()
        self.live = sys.stderr is not None and sys.stderr.isatty()

    def line(self, text):
        """A line that rt has printed: it heads with "== NAME" what it says of a crate, once the crate is done."""
        name = text.removeprefix("== ")
        if name == text or name not in self.crates or name in self.seen:
            return
        self.seen.add(name)
        self.clear()
        say(f"proving {len(self.seen)} of {len(self.crates)}: {name}, after {time.monotonic() - self.began:.0f} s")

    def waiting(self):
        if self.live:
            show(f"\rlaguipy: at work, {time.monotonic() - self.began:.0f} s in all \033[K")

    def clear(self):
        if self.live:
            show("\r\033[K")


def at_a_time():
    """How many crates to prove at a time: four, or fewer on fewer processors or in less memory."""
    with contextlib.suppress(OSError, ValueError):
        memory = os.sysconf("SC_PAGE_SIZE") * os.sysconf("SC_PHYS_PAGES")
        return max(1, min(4, len(os.sched_getaffinity(0)), memory // MEMORY))
    return 1


def out(tree, crate):
    """The folder in which rt leaves what it makes of a crate."""
    return os.path.join(tree, "crates", crate, "out")


def rt(tree, crate, words, progress=None):
    """Runs rt on a crate, with its output in build/log, and shows progress; fails with that output."""
    log = os.path.join(BUILD, "log")
    with open(log, "w", encoding="utf-8") as kept:
        pipes = {"stdin": subprocess.DEVNULL, "stdout": subprocess.PIPE, "stderr": subprocess.STDOUT}
        run = subprocess.Popen(["rt", *words], cwd=os.path.join(tree, "crates", crate), **pipes)
        try:
            for text in lines_of(run.stdout, progress):
                kept.write(text + "\n")
                if progress:
                    progress.line(text)
            status = run.wait()
        finally:
            # Where this is interrupted, the checker is not left at work.
            if run.poll() is None:
                run.terminate()
                run.wait()
    if progress:
        progress.clear()
    if status:
        with open(log, encoding="utf-8") as kept:
            errors = [line.rstrip() for line in kept if line.startswith("rt:") or TOLD.search(line)]
        show("".join(f"{error}\n" for error in errors[-20:]))
        raise Failed(f"the program is not proved; {os.path.relpath(log, ROOT)} has all that the checker said")


def lines_of(stream, progress):
    """The lines of a pipe as they come."""
    held = b""
    while True:
        if progress and not select.select([stream], [], [], 1)[0]:
            progress.waiting()
            continue
        some = os.read(stream.fileno(), 65536)
        *whole, held = (held + some).split(b"\n")
        yield from (line.decode("utf-8", "replace") for line in whole)
        if not some:
            return


def link(archive, library):
    """The shared library of a static one, by the C compiler or, where there is none, the toolchain's linker."""
    whole = ["--whole-archive", archive, "--no-whole-archive"]
    compiler = shutil.which(os.environ.get("CC", "cc"))
    if compiler:
        words = [compiler, "-shared", f"-Wl,-soname,{SONAME}", "-Wl," + ",".join(whole), "-o", library]
    else:
        home = os.path.dirname(os.path.dirname(os.path.realpath(shutil.which("rt"))))
        linker = os.path.join(home, "toolchain", "bin", "ld.lld")
        words = [linker, "-shared", "-soname", SONAME, *whole, "-o", library]
    try:
        run = subprocess.run(words, stdout=subprocess.PIPE, stderr=subprocess.STDOUT, check=False)
    except OSError as error:
        raise Failed(f"the shared library cannot be linked: {words[0]}: {error.strerror}") from None
    if run.returncode:
        raise Failed(f"the shared library cannot be linked: {run.stdout.decode('utf-8', 'replace').strip()}")


def publish(tree, crates, sources, identity):
    """Puts programs and libraries into build/, each whole or not at all, and last what was proved."""
    static = os.path.join(out(tree, LIBRARY), f"lib{LIBRARY}.a")
    made = {"bin/check_graph": os.path.join(out(tree, PROGRAM), PROGRAM), "lib/liblaguipy.a": static}
    shared = os.path.join(BUILD, "liblaguipy.so.new")
    link(static, shared)
    made["lib/liblaguipy.so"] = shared
    facts = [("commit", commit()), ("toolchain", identity), ("sources", sources), ("crates", " ".join(crates))]
    lines = [HEAD] + [f"# {name} {fact}\n" for name, fact in facts]
    for path, source in made.items():
        target = os.path.join(BUILD, path)
        os.makedirs(os.path.dirname(target), exist_ok=True)
        shutil.copyfile(source, target + ".new")
        os.chmod(target + ".new", 0o755 if path.startswith("bin/") or path.endswith(".so") else 0o644)
        lines.append(f"{file_hash(target + '.new')}  {path}\n")
        os.replace(target + ".new", target)
    os.remove(shared)
    stamp = os.path.join(BUILD, PROVED)
    os.makedirs(os.path.dirname(stamp), exist_ok=True)
    with open(stamp + ".new", "w", encoding="utf-8") as file:
        file.writelines(lines)
    os.replace(stamp + ".new", stamp)


def prove(crates, here):
    """Proves, compiles and links what is at hand."""
    identity = toolchain()
    if identity is None:
        raise Failed("this has to be proved, and no rt is here: the Rattle toolchain has to be on the PATH")
    say("proving the programs and the library first, which takes some minutes; after that they are run at once")
    if not here:
        copy_sources(crates)
    tree = ROOT if here else COPY
    sources = digest(tree, crates)
    progress = Progress(crates)
    for crate in WANTED[::-1]:
        rt(tree, crate, ["all", "check", "--jobs", str(at_a_time())], progress)
    say("compiling the library and the program")
    rt(tree, LIBRARY, ["lib"])
    # rt builds a program where it runs it: here, where it finds no files, and says so.
    rt(tree, PROGRAM, ["run"])
    if digest(tree, crates) != sources:
        raise Failed("the sources changed while they were proved: run it again")
    publish(tree, crates, sources, identity)
    say("proved")


@contextlib.contextmanager
def locked():
    """Holds the lock: one run proves, and the others wait for it."""
    try:
        os.makedirs(BUILD, exist_ok=True)
        lock = open(os.path.join(BUILD, "lock"), "w", encoding="ascii")
    except OSError as error:
        raise Failed(f"this has to be proved, and {BUILD} cannot be written: {error.strerror}") from None
    with lock:
        try:
            fcntl.flock(lock, fcntl.LOCK_EX | fcntl.LOCK_NB)
        except OSError:
            say("another run is proving: waiting for it")
            fcntl.flock(lock, fcntl.LOCK_EX)
        yield


def ensure(here=False):
    """What stands in build/ is proved of the sources at hand, when this returns."""
    try:
        crates = wanted_crates()
        if current(crates):
            return
        with locked():
            if not current(crates):
                prove(crates, here)
    except OSError as error:
        raise Failed(f"{error.filename or 'proving'}: {error.strerror}") from None


def main():
    parser = argparse.ArgumentParser(description=__doc__, formatter_class=argparse.RawDescriptionHelpFormatter)
    parser.add_argument("--here", action="store_true", help="prove in the checkout itself")
    args = parser.parse_args()
    try:
        ensure(args.here)
    except Failed as why:
        say(why)
        return 3
    except KeyboardInterrupt:
        return 130
    return 0


if __name__ == "__main__":
    sys.exit(main())
