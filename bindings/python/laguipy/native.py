"""The proved library's calls. Each believes nothing of its arguments, and answers or raises `Refusal`; refused, a row
that was lent stays as it was. Calls may be made from any number of threads at once.

Folders are bytes. `bytes` are passed as they are; of anything else that holds bytes (bytearray, memoryview, mmap) a
copy is taken first, because nobody may write to a folder during a call, and only `bytes` cannot be written to.

Rows are lent to be written: any writable buffer of unsigned 4-byte (figures), unsigned 2-byte (nodes) or signed 2-byte
(states) elements, as array('I'), array('H'), array('h') or such an array of numpy; and of bytes (a graph), as a
bytearray. They are written where they stand; nobody else may use them during the call, and no two may overlap.
"""
import ctypes
import functools
import operator
from array import array
from typing import NamedTuple

from . import where
from .errors import counted
from .limits import GRAPH_BYTES, MOST_NODES, MOST_ROUNDS, MOST_VARIABLES, SLOTS
from .output import RunError

UNIT = ("I", 4)  # a row of figures: unsigned, 4 bytes
VALUE = ("h", 2)  # a state: signed, 2 bytes
NODE = ("H", 2)  # a row of nodes: unsigned, 2 bytes
BYTE = ("B", 1)  # a slice for a graph
FORMATS = {"I": ("I", "L"), "h": ("h",), "H": ("H",), "B": ("B",)}
VARIABLE_BYTES = 6  # of a variable's record in the model folder
MOST_SIZE = 2 ** (8 * ctypes.sizeof(ctypes.c_size_t)) - 1


class Refusal(Exception):
    """The first broken rule: its number, and the two places returned with it (docs/REFUSALS.md). The second is 0 but
    for 19 and 21, where it is a variable or NO_VARIABLE."""

    def __init__(self, number, place, second=0):
        super().__init__(number, place, second)
        self.number = number
        self.place = place
        self.second = second

    def data(self):
        """The refusal as JSON has it."""
        return {"answer": "refused", "number": self.number, "place": self.place, "second": self.second}

    def __str__(self):
        return f"refused {self.number} {self.place}"

    def __eq__(self, other):
        return isinstance(other, Refusal) and self.args == other.args

    def __hash__(self):
        return hash(self.args)


class Summary(NamedTuple):
    """What is told of an accepted graph: the root value in units, and how many nodes there are of each kind."""

    root: int
    waiting: int
    expanded: int
    covered: int
    target: int

    @property
    def nodes(self):
        return self.waiting + self.expanded + self.covered + self.target


class Shared(NamedTuple):
    """What the index call finds, as parts of the rows that it was lent: every uncovered node that is not the lowest
    uncovered one of its concrete label, ascending; and for each state the lowest node with it, or NO_NODE."""

    listed: memoryview
    answers: memoryview


# ---- the library

SIZE = ctypes.c_size_t
FOLDER = (ctypes.c_char_p, SIZE)
ROW = (ctypes.c_void_p, SIZE)
NUMBERS = ctypes.POINTER(SIZE)
PLACES = SIZE * 2  # of a refusal

# include/laguipy.h: what each call takes. All return a number but the view.
CALLS = {
    "laguipy_model_check": (*FOLDER, NUMBERS),
    "laguipy_record_part": (*FOLDER, SIZE, SIZE, NUMBERS),
    "laguipy_graph_check": (*FOLDER, *FOLDER, NUMBERS, NUMBERS),
    "laguipy_figure_refusal": (*FOLDER, *FOLDER, SIZE, *ROW, *ROW, NUMBERS),
    "laguipy_figure_rows": (*FOLDER, *FOLDER, SIZE, *ROW, *ROW, NUMBERS),
    "laguipy_figure": (*FOLDER, *FOLDER, SIZE, *ROW, *ROW, NUMBERS, NUMBERS),
    "laguipy_step": (*FOLDER, *ROW, SIZE, SIZE, *ROW, NUMBERS),
    "laguipy_index": (*FOLDER, *FOLDER, *ROW, *ROW, *ROW, *ROW, NUMBERS, NUMBERS),
    "laguipy_build": (*FOLDER, SIZE, *ROW, NUMBERS, NUMBERS),
}


@functools.lru_cache(maxsize=None)
def loaded():
    """The shared library, with its calls declared."""
    path = where.library()
    try:
        library = ctypes.CDLL(path)
        for name, arguments in CALLS.items():
            call = getattr(library, name)
            call.argtypes = arguments
            call.restype = None if name == "laguipy_record_part" else SIZE
    except (OSError, AttributeError, ValueError) as error:
        # A path that is no UTF-8 is not even named by the loader.
        told = path if isinstance(error, ValueError) else error
        raise RunError(f"the library cannot be loaded: {told}") from None
    return library


# ---- arguments


def folder_bytes(data):
    """A folder's bytes, which nobody can change."""
    if isinstance(data, bytes):
        return data
    try:
        view = memoryview(data)
    except TypeError:
        own = type(data).__name__
        raise TypeError(f"a folder is bytes, or something that holds bytes, and this is {own}") from None
    if view.itemsize != 1:
        raise TypeError(f"a folder's elements are bytes, and these have {view.itemsize}")
    return view.obj if isinstance(view.obj, bytes) and view.nbytes == len(view.obj) else view.tobytes()


def passed(data):
    return data, len(data)


class Row:
    """A row that is lent for one call: its elements stand where they are, and its buffer cannot be resized."""

    def __init__(self, row, element, what):
        code, size = element
        view = row_view(row, what)
        if view.itemsize != size or view.format[-1:] not in FORMATS[code]:
            asked = f"{counted(size, 'byte')}, {'signed' if code == 'h' else 'unsigned'} (array({code!r}))"
            raise TypeError(f"{what} has elements of {asked}, and these are {view.format!r} of {view.itemsize}")
        if view.readonly:
            raise TypeError(f"{what} is written to, and this one can only be read")
        self.length = view.nbytes // size
        # An empty row has an address too.
        self.held = (ctypes.c_char * view.nbytes).from_buffer(view.cast("B")) if view.nbytes else EMPTY
        self.address = ctypes.addressof(self.held)
        if self.address % size:
            raise ValueError(f"{what} does not start at a multiple of {size} bytes")

    @property
    def arguments(self):
        return self.address, self.length

    def overlaps(self, other):
        return (
            self.length > 0
            and other.length > 0
            and self.address < other.address + len(other.held)
            and other.address < self.address + len(self.held)
        )


EMPTY = (ctypes.c_uint64 * 1)()


def row_view(row, what):
    try:
        view = memoryview(row)
    except TypeError:
        raise TypeError(f"{what} is a writable buffer, as array('I'), and this is {type(row).__name__}") from None
    if view.ndim != 1 or not view.c_contiguous:
        raise TypeError(f"the elements of {what} stand one after the other")
    return view


def apart(*rows):
    """Rows of which no two overlap."""
    for n, row in enumerate(rows):
        if any(row.overlaps(other) for other in rows[:n]):
            raise ValueError("two rows overlap")
    return rows


def two_rows(first, second):
    return apart(Row(first, UNIT, "the first row"), Row(second, UNIT, "the second row"))


def size(number, what):
    """A number as the library takes it."""
    number = operator.index(number)
    if not 0 <= number <= MOST_SIZE:
        raise ValueError(f"{what} is {number}: it must be 0 to {MOST_SIZE}")
    return number


def units(count):
    """A row of so many figures, all 0."""
    return array("I", bytes(4 * count))


def nodes(count):
    """A row of so many nodes, all 0."""
    return array("H", bytes(2 * count))


def answered(number, places):
    if number:
        raise Refusal(number, *places)


# ---- the calls


def model_check(model):
    """The model check: refusals 1 to 11."""
    places = PLACES()
    answered(loaded().laguipy_model_check(*passed(folder_bytes(model)), places), places)


def record_part(model, body, record):
    """The view: a record of the model folder, by the number of its body (0 terms, 1 variables, 2 expressions, 3
    commands, 4 branches) and its own, as a memoryview of the folder. It is empty, at the folder's start, where the
    model check refuses with 1, 2 or 3, or there is no such body or record."""
    data, part = folder_bytes(model), (SIZE * 2)()
    loaded().laguipy_record_part(*passed(data), size(body, "the body"), size(record, "the record"), part)
    return memoryview(data)[part[0] : part[0] + part[1]]


def graph_check(model, graph):
    """The graph check: refusals 1 to 11, then 12 to 25. Accepted, the `Summary`."""
    places, values = PLACES(), (SIZE * 5)()
    folders = *passed(folder_bytes(model)), *passed(folder_bytes(graph))
    answered(loaded().laguipy_graph_check(*folders, places, values), places)
    return Summary(*values)


def figure_refusal(model, graph, h, first, second):
    """Raises what `figure` would on these arguments; the rows are not written."""
    places, rows = PLACES(), two_rows(first, second)
    folders = *passed(folder_bytes(model)), *passed(folder_bytes(graph))
    lent = *rows[0].arguments, *rows[1].arguments
    answered(loaded().laguipy_figure_refusal(*folders, size(h, "h"), *lent, places), places)


def figure_rows(model, graph, h, first, second):
    """The figures for h steps, one per node: round h in the first row if h is even, else in the second, and round
    h - 1 in the other, which is untouched at h = 0. Elements past the node count stay. Refused like `figure`."""
    places, rows = PLACES(), two_rows(first, second)
    folders = *passed(folder_bytes(model)), *passed(folder_bytes(graph))
    lent = *rows[0].arguments, *rows[1].arguments
    answered(loaded().laguipy_figure_rows(*folders, size(h, "h"), *lent, places), places)


def figure(model, graph, h, first=None, second=None):
    """The figures for h steps, one per node: the part of a row that holds them, as a memoryview. The rows are left as
    `figure_rows` leaves them; without rows, new ones serve.

    Each figure is an upper bound of the best chance, from that node's concrete state, to reach a target within h
    steps, and at most h units above it. Refused with the graph check's refusal; then 26 where a node waits, 27 where
    h is over MOST_STEPS, 28 where a row is shorter than the nodes.
    """
    held = [units(MOST_NODES) if row is None else row for row in (first, second)]
    places, part, rows = PLACES(), (SIZE * 2)(), two_rows(*held)
    folders = *passed(folder_bytes(model)), *passed(folder_bytes(graph))
    lent = *rows[0].arguments, *rows[1].arguments
    answered(loaded().laguipy_figure(*folders, size(h, "h"), *lent, places, part), places)
    return memoryview(held[part[0]])[: part[1]]


def step(model, state, command, branch, result=None):
    """The step of a state by a branch of a command, also from a target: the new state, as a memoryview of the part of
    `result` that holds it. Later elements of `result` stay; without one, a new one serves.

    Refused with the model check's refusal; then 29 where the state is not one value per variable or the result row is
    shorter, 30 where a value is outside its range, 31 where there is no such command, 32 where its guard is false, 33
    where it has no such branch.
    """
    values = state_values(state)
    held = array("h", [0] * MOST_VARIABLES) if result is None else result
    places, given, row = PLACES(), Row(values, VALUE, "the state"), Row(held, VALUE, "the result row")
    numbers = size(command, "the command"), size(branch, "the branch")
    call = loaded().laguipy_step
    answered(call(*passed(folder_bytes(model)), *given.arguments, *numbers, *row.arguments, places), places)
    return memoryview(held)[: len(values)]


def index(model, graph, batch=(), slots=None, answers=None, listing=None):
    """Which nodes share a concrete state: `Shared`. The batch is states one after the other, of one value per variable
    each. The slots are filled afresh with the nodes by the hash of their concrete label; later elements of answers and
    listing stay. For rows that are not lent, new ones serve.

    Refused with the graph check's refusal; then 34, at 0 where the slots are not SLOTS, at 1 where the batch is not
    whole states, at 2 where the answers are fewer than the states, at 3 where the listing is shorter than the nodes.
    """
    values = batch if isinstance(batch, array) and batch.typecode == "h" else state_values(batch)
    held = nodes(SLOTS) if slots is None else slots
    # A state has a value at least, so that there are no more states than values.
    found = nodes(len(values)) if answers is None else answers
    listed = nodes(MOST_NODES) if listing is None else listing
    places, count = PLACES(), SIZE()
    rows = apart(
        Row(held, NODE, "the slots"),
        Row(values, VALUE, "the batch"),
        Row(found, NODE, "the answer row"),
        Row(listed, NODE, "the listing"),
    )
    folders = *passed(folder_bytes(model)), *passed(folder_bytes(graph))
    lent = [argument for row in rows for argument in row.arguments]
    answered(loaded().laguipy_index(*folders, *lent, places, count), places)
    states = len(values) // max(1, variables_of(model))
    return Shared(memoryview(listed)[: count.value], memoryview(found)[:states])


def build_in(model, rounds, out):
    """The builder: a graph of the model, as a memoryview of the part of `out` that holds it, from its start. Later
    bytes of `out` stay. `graph_check` accepts every graph that is built.

    Building ends when no node waits, or when the next expansion would pass MOST_NODES, GRAPH_BYTES or `out`; what waits
    then stays waiting. Values start at CERTAIN, and so many rounds lower them, each over the nodes upward and in place.

    Refused with the model check's refusal; then 35, at 0 where `out` is too short for a graph of one node, at 1 where
    the rounds are over MOST_ROUNDS.
    """
    places, count, lent = PLACES(), SIZE(), Row(out, BYTE, "the slice")
    call = loaded().laguipy_build
    arguments = *passed(folder_bytes(model)), size(rounds, "the number of rounds"), *lent.arguments
    answered(call(*arguments, places, count), places)
    return memoryview(out)[: count.value]


def build(model, rounds=MOST_ROUNDS, room=GRAPH_BYTES):
    """The graph that `build_in` builds in a slice of so many bytes. More than GRAPH_BYTES change nothing."""
    return bytes(build_in(model, rounds, bytearray(min(size(room, "the room"), GRAPH_BYTES))))


def variables_of(model):
    """How many variables an accepted model has: its second body, by the second entry of its table of contents."""
    return int.from_bytes(folder_bytes(model)[12:16], "little") // VARIABLE_BYTES


def state_values(state):
    """A state's values, in a row of our own."""
    try:
        return array("h", state)
    except OverflowError:
        raise ValueError("a value of a state is -32768 to 32767") from None
