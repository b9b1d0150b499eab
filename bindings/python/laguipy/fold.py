"""The tool that writes folders from text and prints them back, and needs nothing else: tools/fold.py."""
from . import graphs, models
from .errors import InputError
from .files import load, load_text, of, save
from .folder import read_model, shape_of
from .names import find_names, save_model
from .output import DONE, emit, guarded, plain
from .version import version
from .words import Parser, ShowVersion

HELP = f"""\
Writes model and graph folders from text, and prints folders back as text.

  fold.py model IN.model OUT.fold               text to a model folder
  fold.py graph IN.graph MODEL.fold OUT.fold    text to a graph folder of that model
  fold.py show MODEL.fold                       a model folder as text
  fold.py show GRAPH.fold MODEL.fold            a graph folder as text
    --names a,d                                 the variables' names, in order; else those beside the model, or v0, v1
    --entries                                   list a model's entries with their numbers in any case

What `show` prints gives the same bytes again. It stands on a right table of contents and on nothing else: a folder
that breaks a later rule is shown too. Comments give the numbers that a refusal returns as its place.

`laguipy model`, `laguipy graph` and `laguipy show` do the same and check what is written; this tool writes whatever
fits its fields, checks no rule, and needs no library.

{models.TEXT}
{graphs.TEXT}
BOTH

  # starts a comment. 10_000 is 10000. Numbers are whole.

RAW, for folders that are wrong on purpose. Whatever fits its field is written and left to the checker; what would
be a slip of the pen is refused with its line, unless it is said in one of these ways.

  in an expression      @7                    entry 7, there or not, of whatever sort
                        raw(9, 0, 2, 0)       a new entry with these four fields
  after a guard         branches 3            the branch count as given
  in a node             kind 7                in place of the kind's name: any number
                        edges 3               the edge count as given
                        set 5                 the tracked set as given, bit i for variable i, in place of tracks
                        label d=1             a label value of a variable that is not tracked
                        by 4                  a cover, of any kind of node
  below a node          edge raw 9: 1 2       an edge that need not fit the model
  on a line of its own  bytes edges 01 00     bytes at the end of a body (terms, variables, expressions, commands,
                                              branches; nodes, edges)
                        contents 1 60 12      start and length of a contents entry as given
"""


# ---- the program


def report(path, written):
    emit(f"{plain(path)}: {written.told}\n")


def run_model(args):
    text = load_text(args.text)
    written = of(args.text, lambda: models.write_model(text))
    save_model(args.out, written, args.text)
    report(args.out, written)


def run_graph(args):
    text, model = load_text(args.text), load(args.model)
    of(args.model, lambda: shape_of(model))
    names, _ = find_names(args.model, read_model(model), model)
    written = of(args.text, lambda: graphs.write_graph(text, model, names))
    save(args.out, written.data, [args.text, args.model])
    report(args.out, written)


def run_show(args):
    data = load(args.fold)
    path, model = (args.fold, data) if args.model is None else (args.model, load(args.model))
    of(path, lambda: shape_of(model))
    names = find_names(path, read_model(model), model)[0] if args.names is None else args.names.split(",")
    if args.model is None:
        text = models.show_model(data, names, args.entries)
        again = models.write_model(text).data
    else:
        text = of(args.fold, lambda: graphs.show_graph(data, model, names))
        again = graphs.write_graph(text, model).data
    if again != data:
        raise InputError(f"{args.fold}: its text does not give the same bytes again; this is a fault of fold.py")
    emit(text)


def arguments():
    class Whole(Parser):
        def format_help(self):
            return HELP if self.prog == "fold.py" else super().format_help()

    parser = Whole(prog="fold.py")
    parser.add_argument("--version", action=ShowVersion, told=lambda: f"fold.py {version()}")
    commands = parser.add_subparsers(required=True, metavar="model|graph|show", dest="command")
    model = commands.add_parser("model", help="text to a model folder")
    model.add_argument("text", metavar="IN.model")
    model.add_argument("out", metavar="OUT.fold")
    model.set_defaults(run=run_model)
    graph = commands.add_parser("graph", help="text to a graph folder")
    graph.add_argument("text", metavar="IN.graph")
    graph.add_argument("model", metavar="MODEL.fold")
    graph.add_argument("out", metavar="OUT.fold")
    graph.set_defaults(run=run_graph)
    show = commands.add_parser("show", help="a folder as text")
    show.add_argument("fold", metavar="FOLD", help="a model folder; a graph folder where its model's is given too")
    show.add_argument("model", metavar="MODEL.fold", nargs="?", help="the graph's model folder")
    show.add_argument("--names", metavar="a,d", help="the variables' names, in order")
    show.add_argument("--entries", action="store_true", help="list a model's entries with their numbers in any case")
    show.set_defaults(run=run_show)
    return parser.parse_args()


def run():
    args = arguments()
    args.run(args)
    return DONE


def main():
    return guarded("fold.py", run)
