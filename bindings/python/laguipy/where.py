"""Where the proved programs and the library stand: in the prefix that this package is installed under, or in build/
of a checkout. Both have the same folders below: bin, lib, share."""
import functools
import os

from .output import RunError

OWN = os.path.dirname(os.path.abspath(__file__))
PROVED = os.path.join("share", "laguipy", "proved")
LIBRARY = "liblaguipy.so"


@functools.lru_cache(maxsize=None)
def prefix():
    """The nearest folder above this package that says what was proved."""
    above = OWN
    while above != os.path.dirname(above):
        above = os.path.dirname(above)
        for place in (above, os.path.join(above, "build")):
            if os.path.isfile(os.path.join(place, PROVED)):
                return place
    return None


def needed():
    found = prefix()
    if found is None:
        raise RunError("the proved programs and library are not here: ./laguipy in a checkout makes them")
    return found


def program(name):
    return os.path.join(needed(), "bin", name)


def other_library():
    """The library that LAGUIPY_LIBRARY names in place of the proved one, or None."""
    return os.environ.get("LAGUIPY_LIBRARY") or None


def library():
    """The shared library: LAGUIPY_LIBRARY, or the one that was proved."""
    return other_library() or os.path.join(needed(), "lib", LIBRARY)


def example():
    """The example that is checked where nothing else is named."""
    for base in (os.path.join(OWN, "..", "..", ".."), os.path.join(prefix() or OWN, "share", "doc", "laguipy")):
        place = os.path.normpath(os.path.join(base, "examples", "pedal"))
        if os.path.isdir(place):
            return place
    raise RunError("no example is here: name a directory with model.fold and graph.fold")


def proved_facts():
    """What was proved: the version, commit, toolchain and sources, by their names."""
    facts = {}
    try:
        with open(os.path.join(needed(), PROVED), encoding="utf-8", errors="replace") as file:
            for line in file:
                words = line.rstrip("\n").split(" ", 2)
                if words[0] == "#" and len(words) == 3:
                    facts[words[1]] = words[2]
    except OSError as error:
        raise RunError(f"what was proved cannot be read: {error.strerror}") from None
    return facts
