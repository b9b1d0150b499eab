"""The words of a command line: help, version and faults go the way of all other output."""
import argparse

from .errors import UsageError
from .output import DONE, emit


class Parser(argparse.ArgumentParser):
    """Help goes where all output goes, so that what cannot be written is told; faults go where all others do."""

    def print_help(self, file=None):
        emit(self.format_help())

    def error(self, message):
        raise UsageError(f"{message}; `{self.prog} --help` has the usage")


class ShowVersion(argparse.Action):
    """Prints what `told` gives."""

    def __init__(self, *words, told, **more):
        super().__init__(*words, nargs=0, **more)
        self.told = told

    def __call__(self, *_):
        emit(self.told() + "\n")
        raise SystemExit(DONE)
