"""`laguipy check`: the report of a model and a graph, by the proved program; or, for files that it does not take, by
the proved library."""
import os
import subprocess
import tempfile

from . import native, where
from .advice import warnings
from .errors import InputError
from .files import named, why
from .findings import MEANING
from .folder import read_graph, read_model, shape_of
from .inputs import Pair
from .limits import PROGRAM_BYTES
from .output import DONE, REFUSED, RunError

PROGRAM = "check_graph"
FIGURES = range(4)  # the steps for which a report has the root's figure
NAMES = ("model.fold", "graph.fold")  # as the program reads them


# ---- the report


def run_program(folder):
    """What the check program prints of the two files in a folder."""
    program = where.program(PROGRAM)
    try:
        run = subprocess.run([program], cwd=folder, stdin=subprocess.DEVNULL, stdout=subprocess.PIPE, check=False)
    except OSError as error:
        raise RunError(f"the check program cannot be run: {program}: {error.strerror}") from None
    if run.returncode or not run.stdout.endswith(b"\n"):
        raise RunError(f"the check program ended with status {run.returncode}")
    return run.stdout


def program_report(pair):
    """The proved program's report on a pair of files, wherever they stand."""
    try:
        folders = {os.path.dirname(os.path.abspath(path)) for path in pair.paths}
        named_so = tuple(map(os.path.basename, pair.paths)) == NAMES
        if named_so and len(folders) == 1 and not pair.passing():
            return run_program(folders.pop())
        return report_elsewhere(pair)
    except OSError as error:
        raise RunError(f"there is no place for the check program to run in: {why(error)}") from None


def report_elsewhere(pair):
    """The report, by links to the files in a folder of its own. What comes only once may come to this process alone, as
    a pipe of the shell does: the program gets a copy."""
    copies = {path: pair.bytes_of(path)[: PROGRAM_BYTES + 1] for path in pair.passing()}
    with tempfile.TemporaryDirectory(prefix="laguipy-") as room:
        for name, path in zip(NAMES, pair.paths):
            place = os.path.join(room, name)
            if path in copies:
                with open(place, "wb") as file:
                    file.write(copies[path])
            else:
                os.symlink(os.path.realpath(path), place)
        return run_program(room)


def library_report(pair):
    """The same report by the library, whose limits alone hold."""
    model, graph = pair.model_bytes, pair.graph_bytes
    try:
        summary = native.graph_check(model, graph)
        lines = [
            f"accepted {summary.nodes} nodes {summary.expanded} expanded {summary.covered} covered "
            f"{summary.target} target {summary.waiting} waiting",
            f"root {summary.root}",
        ]
        if summary.waiting == 0:
            lines += [f"within {h} {native.figure(model, graph, h)[0]}" for h in FIGURES]
    except native.Refusal as refusal:
        lines = [str(refusal)]
    return "".join(line + "\n" for line in lines).encode()


def status_of(report):
    """The exit status that a report gives, by its first word."""
    word = report.split(None, 1)[0] if report.strip() else b""
    if word == b"accepted":
        return DONE
    if word in (b"refused", b"no", b"too"):
        return REFUSED
    raise RunError(f"the check program printed something else than a report: {report[:60]!r}")


# ---- what is said beside it


def remarks(pair, report, command):
    """What stands beside a report, on standard error: what keeps it from being one, or what is worth a second look."""
    if report.startswith(b"no file"):
        return unreadable(pair)
    if report.startswith(b"too long"):
        most = f"more than the {PROGRAM_BYTES} bytes that the check program reads"
        return [f"{path} has {most}" for path in too_long(pair)] + [f"`{command}` checks it by the library"]
    if report.startswith(b"accepted"):
        return [f"warning: {line}" for line in pair_warnings(pair)]
    return []


def unreadable(pair):
    """What keeps the files from being read; one that came only once was."""
    found = []
    for path in dict.fromkeys(pair.paths):
        try:
            if path not in pair.held:
                with open(path, "rb") as file:
                    file.read(1)
        except (OSError, ValueError) as error:
            found.append(f"cannot read {named(path)}: {why(error)}")
    return found


def too_long(pair):
    """The files that the check program does not take."""
    return [path for path in dict.fromkeys(pair.paths) if size_of(pair, path) > PROGRAM_BYTES]


def size_of(pair, path):
    """How many bytes a file has; 0 where it is gone meanwhile."""
    try:
        return len(pair.held[path]) if path in pair.held else os.path.getsize(path)
    except OSError:
        return 0


def pair_warnings(pair):
    """The warnings on an accepted pair. Where a file has changed meanwhile there are none."""
    try:
        model = read_model(pair.model_bytes)
        graph = read_graph(pair.graph_bytes, shape_of(pair.model_bytes))
        names, wrong = pair.names()
        return ([wrong] if wrong else []) + warnings(model, graph, names)
    except (InputError, IndexError):
        return []


# ---- the report as data


def refusal_data(pair, line):
    """A refusal as JSON has it. The report's line has no second place: the library is asked for that."""
    try:
        native.graph_check(pair.model_bytes, pair.graph_bytes)
        told = "accepted"
    except native.Refusal as refusal:
        told = str(refusal)
        if told == line:
            return {**refusal.data(), "meaning": MEANING[refusal.number]}
    raise RunError(f"the report is {line!r}, and the library's answer is {told!r}: has a file changed meanwhile?")


def report_data(pair, report, notes):
    """A report as JSON has it."""
    words = [line.split() for line in report.decode().splitlines()]
    first = words[0]
    if first[0] == "accepted":
        names = ("nodes", "expanded", "covered", "target", "waiting")
        data = {"answer": "accepted", **{name: int(number) for name, number in zip(names, first[1::2])}}
        data["root"] = int(words[1][1])
        if len(words) > 2:
            data["within"] = [int(line[2]) for line in words[2:]]
    elif first[0] == "refused":
        data = refusal_data(pair, " ".join(first))
    else:
        data = {"answer": " ".join(first)}
    return {**data, "warnings": notes}


def full_report(pair: Pair, any_size):
    """The report's bytes, by the program or by the library."""
    return library_report(pair) if any_size else program_report(pair)
