"""The version, which one file has: VERSION, at the top of a checkout, or installed in this package."""
import os

OWN = os.path.dirname(os.path.abspath(__file__))


def version():
    for place in (OWN, os.path.join(OWN, "..", "..", "..")):
        try:
            with open(os.path.join(place, "VERSION"), encoding="ascii") as file:
                return file.read().strip()
        except OSError:
            continue
    return "unknown"
