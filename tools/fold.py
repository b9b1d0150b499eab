#!/usr/bin/env python3
"""Writes model and graph folders from text, and prints folders back as text: `fold.py --help` has the text form.

The work is done by the Python package, bindings/python/laguipy, of which this needs the text forms alone.
"""
import os
import sys

sys.dont_write_bytecode = True
sys.path.insert(0, os.path.join(os.path.dirname(os.path.realpath(__file__)), "..", "bindings", "python"))

from laguipy.fold import main  # noqa: E402

if __name__ == "__main__":
    sys.exit(main())
