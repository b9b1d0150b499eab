"""The command line: `laguipy --help`."""
import argparse
import difflib
import json
import os
import re
import shlex
import sys

from . import builder, check, explain, graphs, models, native, series, shared, texts, where
from .errors import InputError, UsageError
from .files import STANDARD, at_most_one_standard, load, named, of, save
from .findings import ADVICE, CALL_REFUSALS, MEANING
from .inputs import model_names, pair_of
from .model_rules import model_finding
from .names import save_model
from .output import DONE, REFUSED, USAGE, emit, guarded, plain, say, say_error
from .version import version
from .words import Parser, ShowVersion

PROGRAM = "laguipy"
COMMANDS = ("check", "figures", "index", "model", "build", "graph", "show", "explain")

ABOUT = """\
Checks simulation graphs of Markov decision processes. What it reports of an accepted graph is proved: no strategy
reaches a target with a greater chance than the root value.

  laguipy [check] DIR        the report on model.fold and graph.fold in DIR; or name the two files
  laguipy figures DIR H..    the chance at worst within H steps, for any H to 10000, of any node
  laguipy index DIR          which nodes share a concrete state, and which node has a given one
  laguipy explain DIR        what a refusal means here, and what to do
  laguipy model FILE         text to a model folder, checked
  laguipy build DIR          a graph of model.fold in DIR, built by the proved library
  laguipy graph FILE         text to a graph folder, checked
  laguipy show FOLD          a folder as text

`laguipy COMMAND --help` has more. Each takes --json, and - for standard input or output where a file is meant.
"""
STATUSES = """\
Exit status: 0 accepted or done; 1 refused, or an input cannot be read; 2 bad usage; 3 not proved, could not run, or the
output cannot be written.
"""


# ---- the commands


def say_names(wrong):
    if wrong:
        say(PROGRAM, f"{wrong}; v0, v1 and so on stand for names")


def run_check(args):
    pair = pair_of(args.places, where.example)
    report = check.full_report(pair, args.any_size)
    status = check.status_of(report)
    again = " ".join([PROGRAM, "check", "--any-size", *map(shlex.quote, args.places)])
    notes = [] if args.quiet else check.remarks(pair, report, again)
    if args.json:
        emit(json.dumps(check.report_data(pair, report, notes)) + "\n")
    else:
        emit(report)
        for note in notes:
            say(PROGRAM, note)
    return status


def run_explain(args):
    pair = pair_of(args.places, where.example)
    names, wrong = pair.names()
    say_names(wrong)
    explanation = explain.explain(pair.model_bytes, pair.graph_bytes, names)
    emit(json.dumps(explanation.data()) + "\n" if args.json else "\n".join(explanation.lines()) + "\n")
    return REFUSED if explanation.number else DONE


def is_number(word):
    return re.fullmatch("-?[0-9]+", word) is not None and not os.path.exists(word)


def is_option(word):
    return word.startswith("-") and word != STANDARD and not re.fullmatch("-[0-9][0-9, +-]*", word)


def run_figures(args):
    places = [word for word in args.words if not is_number(word)]
    for place in places:
        if place != STANDARD and not os.path.exists(place):
            raise UsageError(f"{series.shown(place)} is no whole number of steps, and no file or directory")
    if args.json and args.csv:
        raise UsageError("--json or --csv, and not both")
    steps = series.steps_of([word for word in args.words if is_number(word)], args.upto)
    ranges = series.node_ranges(args.nodes)
    pair = pair_of(places, where.example)
    model, graph = pair.model_bytes, pair.graph_bytes
    try:
        summary = native.graph_check(model, graph)
        rows = native.units(summary.nodes), native.units(summary.nodes)
        native.figure_refusal(model, graph, steps[-1], *rows)
    except native.Refusal as refusal:
        return refused(args, refusal)
    kind = series.Json if args.json else series.Csv if args.csv else series.Lines
    form = kind(summary.root, series.nodes_of(ranges, summary.nodes))
    series.write_figures(form, series.figures_for(model, graph, steps))
    return DONE


def refused(args, refusal):
    """A refusal in place of what was asked for."""
    meaning = MEANING[refusal.number]
    if args.json:
        emit(json.dumps({**refusal.data(), "meaning": meaning}) + "\n")
    else:
        emit(f"{refusal}\n")
        # What the checks accept, explain has nothing to say of.
        more = ADVICE[refusal.number] if refusal.number in CALL_REFUSALS else f"`{PROGRAM} explain` says more"
        say(PROGRAM, f"{refusal.number}: {meaning}; {more}")
    return REFUSED


def is_state(word):
    return re.fullmatch("[^/]*=.*|[+-]?[0-9][0-9, +-]*", word) is not None and not os.path.exists(word)


def run_index(args):
    pair = pair_of([word for word in args.words if not is_state(word)], where.example)
    model, graph = pair.model_bytes, pair.graph_bytes
    try:
        native.graph_check(model, graph)
    except native.Refusal as refusal:
        return refused(args, refusal)
    names, wrong = pair.names()
    say_names(wrong)
    if args.states is not None:
        at_most_one_standard(*pair.paths, args.states)
    states = [shared.state_of(text, names.variables) for text in filter(is_state, args.words)]
    if args.states is not None:
        states += of(args.states, lambda: shared.states_in(args.states, names.variables))
    twins, found = shared.look_up(model, graph, states)
    if args.json:
        emit(json.dumps(shared.data(twins, found, names.variables)) + "\n")
    else:
        emit(*(line + "\n" for line in shared.lines(twins, found, names.variables)))
    return DONE


def check_room(args, out):
    if args.json and out == STANDARD:
        raise UsageError("with --json standard output has no room for the folder: name its file with -o")


def finish_text(args, out, written, wrong, store):
    """Stores what a text gave, if it is right or wanted all the same, and says what it is."""
    check_room(args, out)
    if wrong and not args.anyway:
        if args.json:
            emit(json.dumps(wrong.data()) + "\n")
        say_error(PROGRAM, wrong)
        say(PROGRAM, "nothing is written; --anyway writes folders that are wrong on purpose")
        return REFUSED
    if wrong:
        say_error(PROGRAM, wrong)
        say(PROGRAM, "written all the same")
    if out == STANDARD:
        emit(written.data)
        say(PROGRAM, written.told)
        return DONE
    store()
    if args.json:
        counts = {word: count for count, word in written.counts}
        emit(json.dumps({"answer": "done", "file": out, "bytes": len(written.data), **counts}) + "\n")
    else:
        emit(f"{plain(out)}: {written.told}\n")
    return DONE


def run_model(args):
    written, wrong = texts.model_of(args.file)
    out = texts.default_out(args.file, args.out, "model.fold")
    return finish_text(args, out, written, wrong, lambda: save_model(out, written, args.file))


def run_graph(args):
    model_path = args.model
    if model_path is None:
        model_path = os.path.join(os.path.dirname(args.file) if args.file != STANDARD else "", "model.fold")
    at_most_one_standard(args.file, model_path)
    model = load(model_path)
    say_names(of(model_path, lambda: model_names(model_path, model))[1])
    written, wrong = texts.graph_of(args.file, model_path, model)
    out = texts.default_out(args.file, args.out, "graph.fold")
    return finish_text(args, out, written, wrong, lambda: save(out, written.data, [args.file, model_path]))


def refused_model(args, path, model, refusal):
    """A refusal of a model in place of its graph, with what is there and what to do."""
    names, wrong = model_names(path, model)
    say_names(wrong)
    found = texts.matching(model_finding(model, names), refusal)
    told = found.placed if found else MEANING[refusal.number]
    advice = found.advice if found and found.advice else ADVICE[refusal.number]
    if args.json:
        more = {"meaning": MEANING[refusal.number], "file": named(path), "message": told, "advice": advice}
        emit(json.dumps({**refusal.data(), **more}) + "\n")
    else:
        emit(f"{refusal}\n")
        say("", f"{named(path)}: {told} [{refusal.number}]; {advice}")
    return REFUSED


def finish_build(args, out, built, notes):
    """Says what was built, and what is worth knowing of it."""
    if out == STANDARD:
        emit(built.data)
        notes = [*built.told, *notes]
    elif args.json:
        emit(json.dumps({"answer": "done", "file": out, **built.values(), "notes": notes}) + "\n")
        notes = []
    else:
        emit(f"{plain(out)}: " + "\n".join(built.told) + "\n")
    for note in notes:
        say(PROGRAM, note)
    return DONE


def run_build(args):
    asked = builder.asked_for(args.rounds, args.nodes)
    path, model = builder.model_in(args.place)
    out = texts.default_out(path, args.out, "graph.fold")
    check_room(args, out)
    try:
        built = builder.patiently(lambda: builder.build(model, asked), "building")
    except native.Refusal as refusal:
        if refusal.number in CALL_REFUSALS:
            return refused(args, refusal)
        return refused_model(args, path, model, refusal)
    notes = builder.notes(built, path, out)
    if out != STANDARD:
        if builder.other_graph(out, built.data):
            notes.insert(0, f"{out} was there, and is replaced")
        save(out, built.data, [path])
    return finish_build(args, out, built, [] if args.quiet else notes)


def run_show(args):
    names = args.names.split(",") if args.names is not None else None
    at_most_one_standard(args.fold, args.model)
    if args.model is None and os.path.isdir(args.fold):
        folds = [os.path.join(args.fold, name) for name in check.NAMES]
        model, graph = texts.show(folds[0], None, names, args.entries), texts.show(folds[1], folds[0], names, False)
        text = "".join(f"# {plain(fold)}\n{shown.text}" for fold, shown in zip(folds, (model, graph)))
        data, wrong = {"model": model.data, "graph": graph.data}, model.wrong
    else:
        text, data, wrong = texts.show(args.fold, args.model, names, args.entries)
    say_names(wrong)
    emit(json.dumps(data) + "\n" if args.json else text)
    return DONE


# ---- the words


def told_version():
    """The version, and of what stands proved the commit and the toolchain."""
    lines = [f"{PROGRAM} {version()}"]
    if where.prefix():
        facts = where.proved_facts()
        lines += [f"{name} {facts[name]}" for name in ("commit", "toolchain") if name in facts]
    return "\n".join(lines)


def add(commands, name, run, about, more=""):
    command = commands.add_parser(
        name,
        help=about,
        description=f"{about}\n\n{more}".rstrip() + "\n",
        epilog=STATUSES,
        formatter_class=argparse.RawDescriptionHelpFormatter,
    )
    command.add_argument("--json", action="store_true", help="the answer as JSON")
    command.add_argument("--version", action=ShowVersion, told=told_version, help="the version, and what was proved")
    command.set_defaults(run=run)
    return command


def add_check(commands):
    more = "PLACE is a directory with model.fold and graph.fold, or the two files; without one, the pedal example."
    command = add(commands, "check", run_check, "Prints the report on a model and a graph.", more)
    command.add_argument("places", nargs="*", metavar="PLACE")
    command.add_argument(
        "--any-size", action="store_true", help="by the library, which takes graphs over 65536 bytes too"
    )
    command.add_argument("-q", "--quiet", action="store_true", help="no warnings")


FIGURES = """\
Units are billionths. PLACE is as for check; a graph in which a node waits has no figures.

Figures are written as they come, so that what is interrupted is lost in no part; JSON that is then cut short ends with
"complete": false. Each number of steps is worked out from the start, so that --upto H takes time in the square of H, up
to where the figures no longer change. Where it takes long, standard error has how far it has come and an estimate of
the time that is left.
"""


def add_figures(commands):
    command = add(commands, "figures", run_figures, "Prints figures: the chance at worst within H steps.", FIGURES)
    command.add_argument("words", nargs="*", metavar="PLACE | H")
    command.add_argument("--upto", metavar="H", help="for every number of steps from 0 to H")
    command.add_argument("--nodes", default="0", metavar="all|0,3|2-5", help="of these nodes; else the root's, node 0")
    command.add_argument("--csv", action="store_true", help="as comma-separated values")


INDEX = """\
PLACE is as for check. Each node that is listed is uncovered and has the concrete state of a lower uncovered node: an
explorer might have covered one of the two by the other. `shared 0` says that there is none.

A state is a value for each variable, by name or in the order of the model: a=0,d=1 or 0,1. Its answer is the lowest
node with that concrete label, also a covered one.
"""


def add_index(commands):
    command = add(commands, "index", run_index, "Lists nodes that share a concrete state, and finds states.", INDEX)
    command.add_argument("words", nargs="*", metavar="PLACE | STATE")
    command.add_argument("--states", metavar="FILE", help="states to find, one to a line; - for standard input")


EXPLAIN = """\
PLACE is as for check. 19 and 21 have a second place, a variable's number or 65535, which the report does not print:
here a line of its own tells it. What --json prints of a refusal, of any command, has it as "second".
"""


def add_explain(commands):
    about = "Says what a refusal means here, and what to do."
    command = add(commands, "explain", run_explain, about, EXPLAIN)
    command.add_argument("places", nargs="*", metavar="PLACE")


def add_show(commands):
    more = "A directory shows its model.fold and graph.fold."
    command = add(commands, "show", run_show, "Prints a folder as text.", more)
    command.add_argument("fold", metavar="FOLD", help="a model folder, a graph folder, or a directory")
    command.add_argument("model", metavar="MODEL", nargs="?", help="the graph's model folder")
    command.add_argument("--names", metavar="a,d", help="the variables' names, in order")
    command.add_argument("--entries", action="store_true", help="list a model's entries with their numbers in any case")


BUILD = """\
PLACE is a directory with model.fold, or a model folder. The graph is graph.fold beside it, or OUT; one that is there is
replaced. It keeps every rule, whatever the model is: `laguipy check` accepts it.

Nodes start with labels that track nothing, and track what a rule asks for. Building ends when no node waits, or when
the next expansion would give more than N nodes; nodes that wait then count as certainty, the root value is a bound all
the same, and there are no figures.

Values start at certainty, and N rounds over the nodes lower them. A lower value moves up about one level of the graph
in a round, and what can go on for ever counts as reaching a target, however many rounds there are. Figures do not
depend on the values: `laguipy figures` has the chance within H steps.
"""


def add_build(commands):
    command = add(commands, "build", run_build, "Builds a graph of a model.", BUILD)
    command.add_argument("place", metavar="PLACE")
    command.add_argument("-o", "--out", metavar="OUT", help="the graph; without it graph.fold beside the model")
    command.add_argument("--rounds", metavar="N", help="of the values, 0 to 1000; without it 1000")
    command.add_argument("--nodes", metavar="N", help="at most so many, 1 to 4096; without it 4096")
    command.add_argument("-q", "--quiet", action="store_true", help="no remarks")


def add_texts(commands):
    model = add(commands, "model", run_model, "Writes a model folder, and its names beside it, from text.", models.TEXT)
    graph = add(commands, "graph", run_graph, "Writes a graph folder from text.", graphs.TEXT)
    graph.add_argument("-m", "--model", metavar="MODEL", help="its model folder; without it model.fold beside FILE")
    for command, name in ((model, "model.fold"), (graph, "graph.fold")):
        command.add_argument("file", metavar="FILE", help="the text")
        command.add_argument("-o", "--out", metavar="OUT", help=f"the folder; without it {name} beside FILE")
        command.add_argument("--anyway", action="store_true", help="write it though it is refused")


def parser():
    whole = Parser(
        prog=PROGRAM,
        usage="%(prog)s COMMAND ..",
        description=ABOUT,
        epilog=STATUSES,
        formatter_class=argparse.RawDescriptionHelpFormatter,
    )
    whole.add_argument("--version", action=ShowVersion, told=told_version, help="the version, and what was proved")
    kept = {"metavar": "COMMAND", "dest": "command", "required": True, "parser_class": Parser}
    commands = whole.add_subparsers(prog=PROGRAM, **kept)
    add_check(commands)
    add_figures(commands)
    add_index(commands)
    add_explain(commands)
    add_build(commands)
    add_texts(commands)
    add_show(commands)
    return whole


def with_command(words):
    """`laguipy DIR` is `laguipy check DIR`."""
    if words and words[0] in (*COMMANDS, "-h", "--help", "--version"):
        return list(words)
    if words and not os.path.exists(words[0]):
        near = difflib.get_close_matches(words[0], COMMANDS, 1)
        if near:
            raise UsageError(f"there is no command {words[0]!r}: did you mean {near[0]!r}?")
    return ["check", *words]


def needs_nothing(words):
    """Whether these words ask for help or for the version alone, for which nothing need be proved."""
    return any(word in ("-h", "--help", "--version") for word in words)


def parsed(words):
    """The words of a command. Those that name places or numbers may stand before and after options."""
    args, rest = parser().parse_known_args(with_command(words))
    listed = getattr(args, "words", getattr(args, "places", None))
    wrong = [word for word in rest if listed is None or is_option(word)]
    if wrong:
        raise UsageError(f"unknown: {' '.join(wrong)}; `{PROGRAM} {args.command} --help` has the usage")
    if rest:
        listed += rest
    return args


def run(words):
    args = parsed(words)
    if where.other_library():
        say(PROGRAM, f"the library is {where.other_library()}, as LAGUIPY_LIBRARY says: that it is proved is not known")
    try:
        return args.run(args)
    except InputError as error:
        if args.json:
            emit(json.dumps({"answer": "error", "message": error.message}) + "\n")
        raise
    except UsageError as error:
        say(PROGRAM, f"{error}; `{PROGRAM} {args.command} --help` has the usage")
        return USAGE


def main(words=None):
    return guarded(PROGRAM, lambda: run(sys.argv[1:] if words is None else words))
