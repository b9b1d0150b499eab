#!/usr/bin/env python3
"""Installs what stands proved in build/, which `make install` sees to: programs, static and shared library, header,
pkg-config file, Python package, documents and examples, and share/laguipy/proved, which says what was proved and has
the sha256 of each library and program. No installed file names the prefix, so that the whole may be copied elsewhere.

  tools/install.py --prefix /usr/local [--destdir STAGE] [--remove]
"""
import argparse
import contextlib
import os
import shutil
import sys

sys.dont_write_bytecode = True
ROOT = os.path.normpath(os.path.join(os.path.dirname(os.path.realpath(__file__)), ".."))
BUILD = os.path.join(ROOT, "build")
PACKAGES = f"lib/python{sys.version_info[0]}.{sys.version_info[1]}/site-packages"
LISTED = "share/laguipy/installed"  # the files of an installation, for its removal

DOCUMENTS = ("FORMAT.md", "REFUSALS.md", "GUIDE.md", "GLOSSARY.md", "BENCH.md", "AUDIT.md", "CLAIMS.md", "DECISIONS.md")

COMMAND = f"""\
#!/usr/bin/env python3
import os
import sys

sys.dont_write_bytecode = True
PREFIX = os.path.dirname(os.path.dirname(os.path.realpath(__file__)))
sys.path.insert(0, os.path.join(PREFIX, *"{PACKAGES}".split("/")))

try:
    from laguipy.cli import main

    sys.exit(main())
except KeyboardInterrupt:
    sys.exit(130)
"""

PKG_CONFIG = """\
prefix=${{pcfiledir}}/../..
includedir=${{prefix}}/include
libdir=${{prefix}}/lib

Name: laguipy
Description: A proved checker of simulation graphs of Markov decision processes
Version: {version}
Cflags: -I${{includedir}}
Libs: -L${{libdir}} -llaguipy
"""


class Failed(Exception):
    """Why nothing was installed or taken away."""


def say(words):
    print(f"install: {words}", flush=True)


def failed(words):
    print(f"install: {words}", file=sys.stderr)
    return 3


class Installer:
    """Writes files below a top folder, and remembers which."""

    def __init__(self, top):
        self.top = top
        self.written = []

    def place(self, path):
        target = os.path.join(self.top, path)
        os.makedirs(os.path.dirname(target), exist_ok=True)
        if os.path.islink(target) or os.path.exists(target):
            os.remove(target)
        self.written.append(path)
        return target

    def copy(self, source, path, mode=0o644):
        target = self.place(path)
        shutil.copyfile(os.path.join(ROOT, source), target)
        os.chmod(target, mode)

    def write(self, text, path, mode=0o644):
        target = self.place(path)
        with open(target, "w", encoding="utf-8") as file:
            file.write(text)
        os.chmod(target, mode)

    def link(self, name, path):
        os.symlink(name, self.place(path))

    def tree(self, source, path, wanted=lambda name: True):
        for folder, _, names in os.walk(os.path.join(ROOT, source)):
            for name in sorted(names):
                if wanted(name):
                    own = os.path.relpath(os.path.join(folder, name), os.path.join(ROOT, source))
                    self.copy(os.path.join(source, own), os.path.join(path, own))


def read(path):
    with open(os.path.join(ROOT, path), encoding="utf-8") as file:
        return file.read()


def listed(top):
    """The files of the installation that is there; none where there is none."""
    with contextlib.suppress(FileNotFoundError), open(os.path.join(top, LISTED), encoding="utf-8") as file:
        return file.read().splitlines()
    return []


def take_away(top, paths):
    """Removes files, and the folders that they leave empty."""
    for path in paths:
        target = os.path.join(top, path)
        with contextlib.suppress(FileNotFoundError):
            os.remove(target)
        folder = os.path.dirname(target)
        with contextlib.suppress(OSError):  # one that is not empty, or is gone
            while folder.startswith(top.rstrip(os.sep) + os.sep):
                os.rmdir(folder)
                folder = os.path.dirname(folder)


def install(top):
    if not os.path.isfile(os.path.join(BUILD, "share", "laguipy", "proved")):
        raise Failed("nothing is proved yet: `make` does it")
    version, before = read("VERSION").strip(), listed(top)
    to = Installer(top)
    to.copy("build/bin/check_graph", "bin/check_graph", 0o755)
    to.write(COMMAND, "bin/laguipy", 0o755)
    to.copy("build/lib/liblaguipy.a", "lib/liblaguipy.a")
    to.copy("build/lib/liblaguipy.so", f"lib/liblaguipy.so.{version}", 0o755)
    to.link(f"liblaguipy.so.{version}", "lib/liblaguipy.so.0")
    to.link(f"liblaguipy.so.{version}", "lib/liblaguipy.so")
    to.copy("include/laguipy.h", "include/laguipy.h")
    to.write(PKG_CONFIG.format(version=version), "lib/pkgconfig/laguipy.pc")
    to.tree("bindings/python/laguipy", f"{PACKAGES}/laguipy", lambda name: name.endswith(".py"))
    to.copy("VERSION", f"{PACKAGES}/laguipy/VERSION")
    for name in DOCUMENTS:
        if os.path.isfile(os.path.join(ROOT, "docs", name)):
            to.copy(f"docs/{name}", f"share/doc/laguipy/docs/{name}")
    to.copy("README.md", "share/doc/laguipy/README.md")
    to.tree("examples", "share/doc/laguipy/examples", lambda name: name != "make.sh")
    to.copy("build/share/laguipy/proved", "share/laguipy/proved")
    to.write("".join(path + "\n" for path in [*to.written, LISTED]), LISTED)
    # What another version had and this one has not.
    take_away(top, sorted(set(before) - set(to.written)))
    say(f"laguipy {version} below {top}")
    say(f"Python finds the package with PYTHONPATH={os.path.join(top, PACKAGES)}")


def remove(top):
    paths = listed(top)
    if not paths:
        raise Failed(f"there is no laguipy below {top}: {os.path.join(top, LISTED)} is missing")
    take_away(top, paths)
    say(f"laguipy is no longer below {top}")


def main():
    parser = argparse.ArgumentParser(description=__doc__, formatter_class=argparse.RawDescriptionHelpFormatter)
    parser.add_argument("--prefix", default="/usr/local")
    parser.add_argument("--destdir", default="")
    parser.add_argument("--remove", action="store_true", help="take an installation away again")
    args = parser.parse_args()
    top = os.path.normpath(args.destdir + os.path.abspath(args.prefix))
    try:
        if args.remove:
            remove(top)
        else:
            install(top)
    except Failed as error:
        return failed(error)
    except OSError as error:
        return failed(f"{error.filename or 'standard output'}: {error.strerror}")
    except KeyboardInterrupt:
        return 130
    return 0


if __name__ == "__main__":
    sys.exit(main())
