"""Yuccadice for Python: red/green refinement of tetrahedral meshes, every promise of the library proved.

A mesh is `positions`, three whole numbers a corner in tenths of a millimetre, and `cells`, four corner numbers a cell. Both are given as rows,
[(0, 0, 0), (16, 0, 0), ..], or as one flat list, [0, 0, 0, 16, 0, 0, ..]. `status` and `marks` have a number a cell: bytes, or any list of numbers.

A refusal raises Refused, which has its number and says it in words. A number that does not fit its table raises OverflowError, a row of a wrong length
ValueError. What each table holds is said in include/yuccadice.h.

    import yuccadice as yd
    positions, cells = [(0, 0, 0), (16, 0, 0), (0, 16, 0), (0, 0, 16)], [(0, 1, 2, 3)]
    status = yd.step(positions, cells, [yd.LEAF], [yd.REFINE])
    layout = yd.Layout(positions, cells, status)
    print(len(layout.cells), layout.position(4))
"""

from array import array
from collections import namedtuple
from ctypes import CDLL, byref, c_double, c_size_t, c_uint8, c_void_p
import os

# The limits.
MOST_COARSE_CORNERS, MOST_COARSE_CELLS, MOST_COORDINATE = 512, 256, 500000
MOST_CELLS, MOST_CORNERS, MOST_LEVELS, MOST_BYTES, MOST_PARTS = 4096, 16384, 11, 65536, 16
STACK = 1048576  # bytes of stack: more than any call needs

# The full lengths of the tables that the library fills.
DIGITS_LENGTH, TABLE_LENGTH, ENDS_LENGTH, SUMS_LENGTH, COUNTS_LENGTH, STATUS_LENGTH = 32, 32768, 32768, 49152, 44, 4096
POSITIONS_LENGTH, COARSE_CELLS_LENGTH, MARKED_LENGTH, MARKS_LENGTH, STEP_ENDS_LENGTH, BYTES_LENGTH = 1536, 1024, 16384, 16384, 65536, 65536
STORE_LENGTH, STORES_LENGTH, MESSAGE_LENGTH, HELD_LENGTH = 226488, 3623808, 9, 57344

# A status (1 to 63: green, closed with that pattern), a mark, and the parent of a coarse cell in the library's own table.
LEAF, RED = 0, 64
REFINE, DELETE = 1, 2
NO_PARENT = 65535

# The stage of a part.
RUNNING, DONE = 1, 2

# Answers.
ACCEPTED = 0
REFUSED_COUNTS, REFUSED_RANGE, REFUSED_NUMBERS, REFUSED_FLAT, REFUSED_FACES, REFUSED_STATUS = 1, 2, 3, 4, 5, 6
REFUSED_MARKS, REFUSED_LEVEL, REFUSED_CELLS, REFUSED_PARTS, REFUSED_OWNERS = 7, 8, 9, 10, 11
REFUSED_MESSAGE, REFUSED_TAKEN, REFUSED_EARLY, REFUSED_SHORT, REFUSED_STORE, REFUSED_FORM = 12, 13, 14, 15, 16, 17

#: What each refusal says.
REFUSALS = {
    REFUSED_COUNTS: "too few or too many corners or cells, or a list's length no multiple of 3 or 4",
    REFUSED_RANGE: "a coordinate out of its range",
    REFUSED_NUMBERS: "a cell's corner numbers do not ascend strictly, or are not below the count",
    REFUSED_FLAT: "a flat cell",
    REFUSED_FACES: "two cells with the same corners, or a face in three cells",
    REFUSED_STATUS: "a status table that is not sound, or a pattern above 63",
    REFUSED_MARKS: "marks of wrong length, above 2 or not 0 on a refined cell, or a cell or corner number not below the count",
    REFUSED_LEVEL: "a level above 10 would arise",
    REFUSED_CELLS: "more than 4,096 cells would arise",
    REFUSED_PARTS: "a number of parts that is not 1 to 16",
    REFUSED_OWNERS: "owners of wrong length or out of range, or two in a family",
    REFUSED_MESSAGE: "a message of no known form, for another part, of what the part does not hold, or with a value out of range",
    REFUSED_TAKEN: "a message that was taken before",
    REFUSED_EARLY: "a message that comes too early, or to a part that is done",
    REFUSED_SHORT: "a lent table is shorter than its full length",
    REFUSED_STORE: "a store out of range, or at a stage that the call does not fit, or stores that do not make one table",
    REFUSED_FORM: "an archive's bytes are not in the form, or would be more than 65,536",
}


class Refused(Exception):
    """A refused call; `number` is the refusal's number."""

    def __init__(self, number):
        super().__init__("refused %d: %s" % (number, REFUSALS[number]))
        self.number = number


class Cell(namedtuple("Cell", "level parent child regular corners")):
    """A cell of a layout. `parent` is None for a coarse cell, `child` its place in the parent's family from 0; `corners` are in local order."""


class Counts(namedtuple("Counts", "cells red green leaves")):
    """How many cells a level has, and of which kinds."""


class Stage(namedtuple("Stage", "done round result")):
    """How far a part is: whether it is done; the round of a running one, from 0; and the number 8 or 9 that a done one's step ended with, else 0."""


class Held(namedtuple("Held", "ghost status coarse children")):
    """A master or ghost: its coarse cell, and the child numbers from there down to it, as many as its level."""


class Job(namedtuple("Job", "positions cells steps")):
    """A coarse mesh and, for each step, a list of (cell, mark), the cells ascending."""


# The library and its functions.

_here = os.path.dirname(os.path.abspath(__file__))


def _first(places):
    """The first file of some places that is there, or None."""
    return next((place for place in places if os.path.exists(place)), None)


def _version():
    """What VERSION says: in the repository, or where tools/install put it."""
    place = _first(os.path.join(_here, *way, "VERSION") for way in (["..", ".."], ["..", "..", "share", "yuccadice"]))
    if place is None:
        return "1.3.0"
    with open(place) as file:
        return file.read().strip()


def _load():
    """The shared library: of YUCCADICE_LIB_DIR, or of the repository, or of the installed tree."""
    if "YUCCADICE_LIB_DIR" in os.environ:
        directories = [os.environ["YUCCADICE_LIB_DIR"]]
    else:
        directories = [os.path.normpath(os.path.join(_here, *way)) for way in (["..", "..", "target", "staticlib"], [".."])]
    place = _first(os.path.join(directory, "libyuccadice.so") for directory in directories)
    if place is None:
        raise ImportError(
            "libyuccadice.so is not in %s: in the repository 'tools/build library' and then bindings/build-shared make it; "
            "YUCCADICE_LIB_DIR names another directory" % " or ".join(directories)
        )
    return CDLL(place)


#: The version of the library that this module belongs to.
__version__ = VERSION = _version()
_library = _load()
_nothing = array("q", [0])  # an empty table points here: no pointer is null
_KINDS = {"u8": "B", "u16": "H", "i32": "i"}

# What each function takes, in the header's order: [] is a table with its length, = is lent to be written. tools/check-bindings reads this.
_FUNCTIONS = {
    "yd_cut": "u8 u8[]= size=",
    "yd_examine_mesh": "i32[] u16[]",
    "yd_examine_table": "i32[] u16[] u8[]",
    "yd_lay_out": "i32[] u16[] u8[] u16[]= u16[]= i32[]= size= size= size=",
    "yd_position": "i32[] size size f64= f64= f64=",
    "yd_ancestor": "i32[] u16[] u8[] size size= size=",
    "yd_counts": "i32[] u16[] u8[] u16[]= size=",
    "yd_step": "i32[] u16[] u8[] u8[] u8[]= size=",
    "yd_read": "u8[] i32[]= u16[]= u16[]= u8[]= u16[]= size= size= size= size=",
    "yd_write": "i32[] u16[] u16[] u8[] u16[] u8[]= size=",
    "yd_replay": "u8[] u8[]= u16[]= size= size=",
    "yd_split": "i32[] u16[] u8[] size u8[] u16[]=",
    "yd_start": "u16[]= u8[]",
    "yd_part_step": "u16[]=",
    "yd_fetch": "u16[]= u8[]= size=",
    "yd_hand_over": "u16[]= u8[]",
    "yd_stage": "u16[] size= size= size=",
    "yd_held": "u16[] u16[]= size=",
    "yd_merge": "u16[] u8[]= size=",
}


def _call(name, *given):
    """Calls a function with what is given, in its order, and gives the numbers that it was lent to write."""
    given, flat, numbers = iter(given), [], []
    for kind in _FUNCTIONS[name].split():
        if kind in ("size=", "f64="):
            numbers.append(c_size_t() if kind == "size=" else c_double())
            flat.append(byref(numbers[-1]))
        elif "[]" in kind:
            table = next(given)
            assert table.typecode == _KINDS[kind.split("[")[0]]
            address, length = table.buffer_info() if table else (_nothing.buffer_info()[0], 0)
            flat += [c_void_p(address), c_size_t(length)]
        elif kind == "u8":
            flat.append(c_uint8(array("B", [next(given)])[0]))  # array raises OverflowError where ctypes would cut
        else:
            flat.append(c_size_t(array("Q", [next(given)])[0]))
    function = getattr(_library, name)
    function.restype = c_uint8
    answer = function(*flat)
    if answer != ACCEPTED:
        raise Refused(answer)
    return [number.value for number in numbers]


def _room(kind, length):
    return array(kind, [0]) * length


def _flat(kind, table, width, name):
    """A flat table of rows, or of numbers."""
    table = list(table)
    if table and hasattr(table[0], "__len__"):
        for k, row in enumerate(table):
            if len(row) != width:
                raise ValueError("a row of %s has %d numbers, row %d has %d" % (name, width, k, len(row)))
        table = [number for row in table for number in row]
    return array(kind, table)


def _mesh(positions, cells):
    return _flat("i", positions, 3, "positions"), _flat("H", cells, 4, "cells")


def _given(positions, cells, status):
    return (*_mesh(positions, cells), array("B", list(status)))


def _rows(table, width, count):
    return [tuple(table[width * k : width * (k + 1)]) for k in range(count)]


# The calls.


def cut(pattern):
    """The children of a cell by its pattern of split edges, four digits each."""
    digits = _room("B", DIGITS_LENGTH)
    (count,) = _call("yd_cut", pattern, digits)
    return _rows(digits, 4, count)


def examine_mesh(positions, cells):
    """Raises Refused where the coarse mesh is not accepted."""
    _call("yd_examine_mesh", *_mesh(positions, cells))


def examine_table(positions, cells, status):
    """Raises Refused where the coarse mesh or the status table over it is not accepted."""
    _call("yd_examine_table", *_given(positions, cells, status))


class Layout:
    """The cells and corners of a status table.

    `cells` has a Cell for each cell, `levels` is the number of levels. `ends` has for each corner the two corners in whose middle it lies, both of
    them lower numbers than its own; a coarse corner has its own number twice.
    """

    def __init__(self, positions, cells, status):
        table, ends, self._sums = _room("H", TABLE_LENGTH), _room("H", ENDS_LENGTH), _room("i", SUMS_LENGTH)
        count, corners, self.levels = _call("yd_lay_out", *_given(positions, cells, status), table, ends, self._sums)
        row = lambda r: Cell(r[0], None if r[1] == NO_PARENT else r[1], r[2], r[3] == 1, r[4:8])
        self.cells = [row(r) for r in _rows(table, 8, count)]
        self.ends = _rows(ends, 2, corners)

    def position(self, corner):
        """A corner's position in tenths of a millimetre, three floats, exact."""
        return tuple(_call("yd_position", self._sums, len(self.ends), corner))

    def weights(self):
        """Each corner's name, which no step changes: pairs of a coarse corner and its weight, the corners ascending. Weights add to 1,024."""
        weights = []
        for corner, (a, b) in enumerate(self.ends):
            if a == b:
                weights.append(((corner, 1024),))
            else:
                sums = dict(weights[a])
                for coarse, weight in weights[b]:
                    sums[coarse] = sums.get(coarse, 0) + weight
                weights.append(tuple(sorted((coarse, weight // 2) for coarse, weight in sums.items())))
        return weights


def match_corners(old, new):
    """For each corner of the layout `new` the number that it had in `old`, or None where it was not there; both over one coarse mesh.

    A step may renumber corners that stay, so values at corners are carried over by this. It goes by weights; it is not proved.
    """
    known = {weights: corner for corner, weights in enumerate(old.weights())}
    return [known.get(weights) for weights in new.weights()]


def ancestor(positions, cells, status, cell):
    """A cell's coarse ancestor, and the number of turns from parent to parent, which is the cell's level."""
    return tuple(_call("yd_ancestor", *_given(positions, cells, status), cell))


def counts(positions, cells, status):
    """For each level its Counts."""
    table = _room("H", COUNTS_LENGTH)
    (levels,) = _call("yd_counts", *_given(positions, cells, status), table)
    return [Counts(*row) for row in _rows(table, 4, levels)]


def step(positions, cells, status, marks):
    """The status table after one step, as bytes. It may renumber cells, and corners that stay: see match_corners."""
    table = _room("B", STATUS_LENGTH)
    (count,) = _call("yd_step", *_given(positions, cells, status), array("B", list(marks)), table)
    return bytes(table[:count])


def read(archive):
    """The Job of an archive's bytes, its tables flat."""
    positions, cells = _room("i", POSITIONS_LENGTH), _room("H", COARSE_CELLS_LENGTH)
    marked, marks, ends = _room("H", MARKED_LENGTH), _room("B", MARKS_LENGTH), _room("H", STEP_ENDS_LENGTH)
    v, t, m, g = _call("yd_read", array("B", archive), positions, cells, marked, marks, ends)
    pairs = list(zip(marked[:m], marks[:m]))
    starts = [0] + list(ends[:g])
    return Job(list(positions[: 3 * v]), list(cells[: 4 * t]), [pairs[starts[k] : starts[k + 1]] for k in range(g)])


def write(job):
    """The bytes of a Job's archive."""
    positions, cells = _mesh(job.positions, job.cells)
    pairs = [pair for marked in job.steps for pair in marked]
    marked, marks = array("H", [cell for cell, _ in pairs]), array("B", [mark for _, mark in pairs])
    if len(pairs) > 65535:
        raise _too_long(job)
    ends, end = array("H"), 0
    for pairs in job.steps:
        end += len(pairs)
        ends.append(end)
    room = _room("B", BYTES_LENGTH)
    (count,) = _call("yd_write", positions, cells, marked, marks, ends, room)
    return bytes(room[:count])


def _too_long(job):
    """Why a job of more marks than yd_write can be told of is refused: by its mesh, by a step, or because its bytes would be too many."""
    try:
        examine_mesh(job.positions, job.cells)
        status = bytes(len(_flat("H", job.cells, 4, "cells")) // 4)
        for pairs in job.steps:
            marks, last = bytearray(len(status)), -1
            for cell, mark in pairs:
                if not last < cell < len(status) or mark == 0:
                    return Refused(REFUSED_MARKS)
                marks[cell], last = mark, cell
            status = step(job.positions, job.cells, status, marks)
    except Refused as refused:
        return refused
    return Refused(REFUSED_FORM)


def replay(archive):
    """The status table after all steps of an archive, and the Counts of its levels."""
    table, rows = _room("B", STATUS_LENGTH), _room("H", COUNTS_LENGTH)
    count, levels = _call("yd_replay", array("B", archive), table, rows)
    return bytes(table[:count]), [Counts(*row) for row in _rows(rows, 4, levels)]


# Split jobs: one step of a table over 1 to 16 parts, which may run apart and in any order.


class Store:
    """A part of a split job. `numbers` is its store, an array("H") to be kept, copied or sent as it is; docs/PARTS.md says what stands where."""

    def __init__(self, numbers):
        self.numbers = array("H", numbers)

    def start(self, marks):
        """Starts the part with a mark for each of its masters, in the order of cells."""
        _call("yd_start", self.numbers, array("B", list(marks)))

    def part_step(self):
        """Leads the part to its next round, and at last to its end."""
        _call("yd_part_step", self.numbers)

    def fetch(self):
        """The next message that the part has written, bytes; None where there is none to send. Its second byte is the sender, its third the receiver."""
        room = _room("B", MESSAGE_LENGTH)
        (count,) = _call("yd_fetch", self.numbers, room)
        return bytes(room[:count]) if count else None

    def hand_over(self, message):
        """Hands a message over to the part."""
        _call("yd_hand_over", self.numbers, array("B", list(message)))

    def stage(self):
        """The Stage of the part."""
        stage, turn, result = _call("yd_stage", self.numbers)
        return Stage(stage == DONE, turn, result)

    def held(self):
        """The masters and ghosts of the part, once it is done: a list of Held."""
        rows = _room("H", HELD_LENGTH)
        (count,) = _call("yd_held", self.numbers, rows)
        return [Held(row[0] == 1, row[1], row[3], row[4 : 4 + row[2]]) for row in _rows(rows, 14, count)]


def split(positions, cells, status, parts, owners):
    """The Store of each part of a status table, from part 1. `owners` has the part of each cell, from 1; the children of one cell are with one part."""
    stores = _room("H", STORES_LENGTH)
    _call("yd_split", *_given(positions, cells, status), parts, array("B", list(owners)), stores)
    return [Store(stores[STORE_LENGTH * k : STORE_LENGTH * (k + 1)]) for k in range(parts)]


def merge(stores):
    """The table that the stores of all parts make, in any order, once all are done: the table of `step`, as bytes."""
    stores = list(stores)
    if any(len(store.numbers) < STORE_LENGTH for store in stores):
        raise Refused(REFUSED_SHORT)
    if len(stores) > MOST_PARTS or any(store.numbers[2] != len(stores) for store in stores):
        raise Refused(REFUSED_STORE)
    numbers = array("H")
    for store in stores:
        numbers += store.numbers[:STORE_LENGTH]
    numbers += _room("H", STORES_LENGTH - len(numbers))
    table = _room("B", STATUS_LENGTH)
    (count,) = _call("yd_merge", numbers, table)
    return bytes(table[:count])
