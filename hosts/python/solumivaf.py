"""The proved library for Python hosts: what is lent to the calls, and each call as a method. Python 3.8 or later, x86-64 Linux.

    lent = Lent(Sizes(2, 1, 1), [0.25, -0.125, -0.5, 1])
    lent.open()
    lent.run()
    lent.solve([0.25, 4])       # [4.0, 6.0]

Loads libsolumivaf.so from the folder that SOLUMIVAF_LIB names, else from target/staticlib, where hosts/build writes it.

A call that the library refuses raises Refused and changes nothing. The library computes in the floating-point mode of the calling thread: where that
is not IEEE 754's default, a call that depends on it raises ArithmeticMode and changes nothing.

During a call other threads run. Threads that share a Lent share one lock as well, and each holds it while it calls or looks at the Lent.
"""
from __future__ import annotations

import ctypes
import enum
import operator
import os
import struct
from typing import Iterable, List, NamedTuple, Sequence, Tuple

VERSION = 5
MOST_TILES, MOST_SIDE, MOST_TASKS, SLOTS = 16, 16, 1496, 32
TO_THE_END = 2 ** 64 - 1

# What each refusal means, the word for its place, and what to do.
REFUSALS = {
    1: ("tiles or side is outside 1 to 16, or workers outside 1 to 32", None, "Give sizes in range."),
    2: ("a length, or the count of the workers lent, is not the one that the sizes call for", None, "Compare each length with the sizes."),
    3: ("a number isn't finite", "offset", "Replace the infinity or NaN there."),
    4: ("what was lent is damaged: a record, a worker's slot, the run's number, an entry of a list or a number is not as the calls leave it", None,
        "Go back to a copy from before the damage, or open the system again."),
    5: ("the worker does not exist, is busy and cannot take, or is idle and has no column to do", "worker",
        "Name a worker below W, an idle one to take and a busy one for a column."),
    6: ("the task does not exist", None, "Name a task below the number of records."),
    7: ("the task is not ready", "task", "Take another one, or finish the tasks before it first."),
    8: ("a solve comes before all tasks are finished", "task", "Finish the work first."),
    9: ("the outcome is overflow, so there is no solution", "task", "Look for very large numbers in the system."),
    10: ("the outcome is singular, so there is no solution", "row", "Look for rows of the system that depend on each other."),
    11: ("solving meets a number that isn't finite", "stage, tile row or row", "Look for very large numbers on the right side."),
    12: ("the line is malformed", "line", "Take the file from its source again."),
    13: ("the line has another frame than the one that is due", "line", "Look whether it is the right kind of file, in the right order."),
    14: ("the file ends before this line, or goes on with it where it should end", "line", "Look whether the file is whole, and a single one."),
    15: ("the text lent to a writer is too short", None, "Lend the length that the sizes call for."),
}


class Refused(Exception):
    """A refusal of the library: its number, 1 to 15, and its place, 0 where it has none. In a file the place is a line, counted from 1."""

    def __init__(self, number: int, place: int, in_file: bool = False) -> None:
        super().__init__(number, place, in_file)
        self.number, self.place, self.in_file = number, place, in_file

    def __str__(self) -> str:
        meaning, word, advice = REFUSALS.get(self.number, ("it is not in the list of refusals", "place", "Run hosts/build."))
        if self.in_file and self.place:
            word = "line"
        where = " at %s %d" % (word, self.place) if word else ""
        return "refusal %d%s: %s. %s" % (self.number, where, meaning, advice)


class ArithmeticMode(Exception):
    """The floating-point mode of this thread is not IEEE 754's default."""

    def __init__(self) -> None:
        super().__init__("the floating-point mode of this thread is not IEEE 754's default (round to nearest even, subnormal numbers kept), so other "
                         "bits would come out: set it back, and load no library that was linked with -ffast-math or -Ofast")


# ---- sizes and lengths

class Sizes(NamedTuple):
    """N, t and W as told to a call, in range or not."""
    tiles: int
    side: int
    workers: int


def right_length(tiles: int, side: int) -> int:
    """The count of rows: the length of a right side, and of the answers."""
    return tiles * side


def matrix_length(tiles: int, side: int) -> int:
    """The count of numbers in a matrix."""
    return (tiles * side) ** 2


def lists_length(tiles: int, side: int) -> int:
    """The count of entries in all row lists."""
    return tiles * tiles * side


def records_length(tiles: int) -> int:
    """The count of tasks."""
    return tiles * (tiles + 1) * (2 * tiles + 1) // 6


def system_length(tiles: int, side: int) -> int:
    """The count of bytes in a system file."""
    return 7 + tiles * tiles * (7 + 16 * side * side)


def result_length(tiles: int, side: int) -> int:
    """The count of bytes in a result file."""
    return system_length(tiles, side) + tiles * (tiles + 1) // 2 * (7 + 2 * side) + 9


def _in_range(tiles: int, side: int) -> bool:
    return 1 <= tiles <= MOST_TILES and 1 <= side <= MOST_SIDE


# ---- what crosses

class Mark(enum.IntEnum):
    """The mark of a task. From DONE on it is finished."""
    WAITING = 0
    TAKEN = 1
    DONE = 2
    FAILED = 3
    SPOILED = 4


class Record(ctypes.Structure):
    """A task: its kind, 1 to 4 for T-1 to T-4, k, i and j, 0 where the kind has none, its mark, the worker that ended it, the sum of its ties, and
    the numbers of the calls that took and ended it. Worker and calls are 0 until then. They tell the order of work: two runs of a system may differ
    in them, and in nothing else. A number of more than one byte crosses as its bytes, the low one first."""
    _fields_ = [(name, ctypes.c_uint8) for name in ("kind", "k", "i", "j", "mark", "worker")] + [
        ("_ties", ctypes.c_uint8 * 2), ("_took", ctypes.c_uint8 * 4), ("_ended", ctypes.c_uint8 * 4)]

    @property
    def ties(self) -> int:
        """The sum of its ties: in each column that a T-1 or T-3 has completed, the other candidates of the pivot's magnitude. A pivot of zero has
        none. T-2, T-4 and spoiled tasks have 0."""
        return int.from_bytes(self._ties, "little")

    @ties.setter
    def ties(self, value: int) -> None:
        self._ties[:] = _whole(value, 2 ** 16 - 1).to_bytes(2, "little")

    @property
    def took(self) -> int:
        """The number of the take that gave the task to a worker, 0 while it waits."""
        return int.from_bytes(self._took, "little")

    @took.setter
    def took(self, value: int) -> None:
        self._took[:] = _whole(value, 2 ** 32 - 1).to_bytes(4, "little")

    @property
    def ended(self) -> int:
        """The number of the column that ended the task, done, failed or spoiled, 0 before that. A task that had to wait for this one was taken
        later."""
        return int.from_bytes(self._ended, "little")

    @ended.setter
    def ended(self, value: int) -> None:
        self._ended[:] = _whole(value, 2 ** 32 - 1).to_bytes(4, "little")


class Workers(ctypes.Structure):
    """The worker slots: slot v has whether worker v is busy (any byte but 0), its task and its next column. The first `count` are lent. With them
    goes the run's number, which crosses by its address where a call may write it."""
    _fields_ = [("count", ctypes.c_size_t), ("busy", ctypes.c_uint8 * SLOTS), ("task", ctypes.c_uint16 * SLOTS), ("column", ctypes.c_uint8 * SLOTS),
                ("_number", ctypes.c_uint32 * 1)]

    @property
    def number(self) -> int:
        """The run's number: how many takes and columns were accepted since the opening, those inside a run among them. Each has the next one as its
        own, from 1 on."""
        return self._number[0]

    @number.setter
    def number(self, value: int) -> None:
        self._number[0] = _whole(value, 2 ** 32 - 1)


class Run(NamedTuple):
    """How a run ended: whether all tasks are finished, and the calls that it made."""
    finished: bool
    calls: int


class Ending(enum.IntEnum):
    """The kinds of outcomes."""
    GOOD = 0
    OVERFLOW = 1
    SINGULAR = 2
    UNFINISHED = 3


class Outcome(NamedTuple):
    """An outcome and its place: the lowest task that failed, the lowest row with a zero on the diagonal, or the lowest unfinished task."""
    kind: Ending
    place: int


class _Told(ctypes.Structure):
    _fields_ = [("place", ctypes.c_size_t), ("count", ctypes.c_uint64), ("number", ctypes.c_uint8), ("kind", ctypes.c_uint8)]


class _Read(ctypes.Structure):
    _fields_ = [("place", ctypes.c_size_t), ("tiles", ctypes.c_size_t), ("side", ctypes.c_size_t), ("at", ctypes.c_uint16),
                ("number", ctypes.c_uint8), ("kind", ctypes.c_uint8)]


# ---- the library

_SIZE = ctypes.c_size_t
_NUMBERS = [ctypes.POINTER(ctypes.c_double), _SIZE]
_BYTES = [ctypes.POINTER(ctypes.c_uint8), _SIZE]
_TEXT = [ctypes.c_char_p, _SIZE]
_SLOTS = [ctypes.POINTER(kind * SLOTS) for kind in (ctypes.c_uint8, ctypes.c_uint16, ctypes.c_uint8)]
_LENT = [_SIZE] * 3 + _NUMBERS + _BYTES + [ctypes.POINTER(Record), _SIZE] + _SLOTS + [_SIZE]
_WRITTEN, _READ = _LENT + [ctypes.POINTER(ctypes.c_uint32)], _LENT + [ctypes.c_uint32]
_FUNCTIONS = {
    "solumivaf_open": (_Told, _WRITTEN),
    "solumivaf_take": (_Told, _WRITTEN + [_SIZE, _SIZE]),
    "solumivaf_column": (_Told, _WRITTEN + [_SIZE]),
    "solumivaf_run": (_Told, _WRITTEN + [ctypes.c_uint64]),
    "solumivaf_outcome": (_Told, _READ),
    "solumivaf_solve": (_Told, _READ + _NUMBERS + _NUMBERS),
    "solumivaf_read_sizes": (_Read, _TEXT),
    "solumivaf_read_system": (_Read, _TEXT + _NUMBERS),
    "solumivaf_read_result": (_Read, _TEXT + _NUMBERS + _BYTES),
    "solumivaf_write_system": (_Told, [_SIZE, _SIZE] + _NUMBERS + _BYTES),
    "solumivaf_write_result": (_Told, [_SIZE, _SIZE] + _NUMBERS + _BYTES + [ctypes.c_uint8, ctypes.c_uint16] + _BYTES),
}


def _load() -> ctypes.CDLL:
    """The library, with each function declared as in hosts/solumivaf.h."""
    here = os.path.dirname(os.path.abspath(__file__))
    folder = os.environ.get("SOLUMIVAF_LIB") or os.path.join(os.path.dirname(os.path.dirname(here)), "target", "staticlib")
    path = os.path.join(folder, "libsolumivaf.so")
    if not os.path.exists(path):
        raise ImportError("%s is missing: run hosts/build, or name its folder in SOLUMIVAF_LIB" % path)
    try:
        library = ctypes.CDLL(path)
    except OSError as error:
        raise ImportError("%s cannot be loaded: run hosts/build (%s)" % (path, error)) from None
    version = getattr(library, "solumivaf_version", None)
    if version is None:
        raise ImportError("%s is older than version %d, which this module is for: run hosts/build" % (path, VERSION))
    version.restype, version.argtypes = _SIZE, []
    if version() != VERSION:
        raise ImportError("%s has version %d, and this module is for version %d: run hosts/build" % (path, version(), VERSION))
    for name, (told, passed) in _FUNCTIONS.items():
        function = getattr(library, name)
        function.restype, function.argtypes = told, passed
    return library


_library = _load()


# ---- the floating-point mode

def _number(bits: int) -> float:
    return struct.unpack("<d", struct.pack("<Q", bits))[0]


def _bits(number: float) -> int:
    return struct.unpack("<Q", struct.pack("<d", number))[0]


# Two operands and the bits of their sum: rounded neither up, nor down, nor toward zero, and ties to even. Then two products: a subnormal number as
# a result, and one as an operand. The operands come out of bits when the module is loaded, so that no sum is computed before it is asked.
_ONE = 0x3FF0000000000000
_SUMS = [(_number(x), _number(y), bits) for x, y, bits in (
    (_ONE, 0x3C30000000000000, _ONE), (0xBFF0000000000000, 0xBC30000000000000, 0xBFF0000000000000), (_ONE, 0x3CA0200000000000, _ONE + 1),
    (_ONE, 0x3CA0000000000000, _ONE), (_ONE + 1, 0x3CA0000000000000, _ONE + 2))]
_PRODUCTS = [(_number(x), _number(y), bits) for x, y, bits in (
    (0x0010000000000000, 0x3FE0000000000000, 0x0008000000000000), (1, 0x7E70000000000000, 0x3B50000000000000))]


def arithmetic_is_default() -> bool:
    """Whether this thread is in IEEE 754's default mode. Bits are compared, since a comparison can take a subnormal number for zero."""
    return all(_bits(x + y) == bits for x, y, bits in _SUMS) and all(_bits(x * y) == bits for x, y, bits in _PRODUCTS)


def _test_arithmetic() -> None:
    if not arithmetic_is_default():
        raise ArithmeticMode()


# ---- arguments

def _whole(value: int, largest: int = 2 ** 64 - 1) -> int:
    """An argument as it crosses. ctypes would take a number that is too large without its upper digits."""
    value = operator.index(value)
    if not 0 <= value <= largest:
        raise ValueError("%d is not a whole number from 0 to %d" % (value, largest))
    return value


def _numbers(values: Sequence[float]) -> ctypes.Array:
    return (ctypes.c_double * len(values))(*values)


def _entries(values: Iterable[int]) -> ctypes.Array:
    data = bytes(iter(values))
    return (ctypes.c_uint8 * len(data)).from_buffer_copy(data)


def _accept(told: ctypes.Structure, in_file: bool = False) -> None:
    if told.number:
        raise Refused(told.number, told.place, in_file)


# ---- the calls on what is lent

class Lent:
    """Everything lent to a call, around a copy of the matrix, whose numbers stand tile after tile and each tile row by row.

    The attributes are ctypes arrays: `matrix[:]` and `lists[:]` are lists, `records[p].mark` is a task's mark and `records[p].ties` the sum of its
    ties, `records[p].worker`, `.took` and `.ended` tell who did it and when, `workers.busy[w]` is a worker's byte and `workers.number` the run's
    number. For sizes out of range, lists and records are empty, so that opening is refused."""

    def __init__(self, sizes: Tuple[int, int, int], matrix: Sequence[float]) -> None:
        self.sizes = Sizes(*(_whole(size) for size in sizes))
        tiles, side, workers = self.sizes
        good = _in_range(tiles, side)
        self.matrix = _numbers(matrix)
        self.lists = (ctypes.c_uint8 * (lists_length(tiles, side) if good else 0))()
        self.records = (Record * (records_length(tiles) if good else 0))()
        self.workers = Workers(count=workers)

    def _call(self, function: str, *more: object) -> _Told:
        tiles, side, workers = (_whole(size) for size in self.sizes)
        slots = self.workers
        told = getattr(_library, function)(tiles, side, workers, self.matrix, len(self.matrix), self.lists, len(self.lists), self.records,
                                           len(self.records), slots.busy, slots.task, slots.column, slots.count, *more)
        _accept(told)
        return told

    def open(self) -> None:
        """Starts the work on the matrix: row lists of 0, every task waiting and without ties, worker and calls, every worker idle, the run's number
        0."""
        _test_arithmetic()
        self._call("solumivaf_open", self.workers._number)

    def take(self, worker: int, task: int) -> None:
        """A worker takes a task that is ready. The run's number grows by 1, and the task's record gets it."""
        self._call("solumivaf_take", self.workers._number, _whole(worker), _whole(task))

    def column(self, worker: int) -> None:
        """A busy worker does the next column of its task. The ties of a completed column join the task's sum. The run's number grows by 1, and where
        the task ends, its record gets it and the worker."""
        _test_arithmetic()
        self._call("solumivaf_column", self.workers._number, _whole(worker))

    def run(self, budget: int = TO_THE_END) -> Run:
        """The workers take turns from 0 on until all tasks are finished, or as many calls are made as the budget allows."""
        _test_arithmetic()
        told = self._call("solumivaf_run", self.workers._number, _whole(budget))
        return Run(told.kind == 1, told.count)

    def outcome(self) -> Outcome:
        """The outcome by the marks and the diagonal, or the lowest unfinished task."""
        _test_arithmetic()
        told = self._call("solumivaf_outcome", self.workers.number)
        return Outcome(Ending(told.kind), told.place)

    def solve(self, right: Sequence[float]) -> List[float]:
        """The answers for one right side."""
        _test_arithmetic()
        tiles, side, _ = self.sizes
        lent, answers = _numbers(right), (ctypes.c_double * (right_length(tiles, side) if _in_range(tiles, side) else 0))()
        self._call("solumivaf_solve", self.workers.number, lent, len(lent), answers, len(answers))
        return answers[:]


# ---- files

def _text(text: bytes) -> bytes:
    return memoryview(text).tobytes()


def read_sizes(text: bytes) -> Tuple[int, int]:
    """N and t by line 1 of a system or a result."""
    text = _text(text)
    read = _library.solumivaf_read_sizes(text, len(text))
    _accept(read, True)
    return read.tiles, read.side


def read_system(text: bytes) -> Tuple[int, int, List[float]]:
    """N, t and the matrix of a system file."""
    text = _text(text)
    matrix = (ctypes.c_double * matrix_length(*read_sizes(text)))()
    read = _library.solumivaf_read_system(text, len(text), matrix, len(matrix))
    _accept(read, True)
    return read.tiles, read.side, matrix[:]


def read_result(text: bytes) -> Tuple[int, int, List[float], List[int], Outcome]:
    """N, t, the matrix, the row lists and the outcome of a result file."""
    text = _text(text)
    tiles, side = read_sizes(text)
    matrix, lists = (ctypes.c_double * matrix_length(tiles, side))(), (ctypes.c_uint8 * lists_length(tiles, side))()
    read = _library.solumivaf_read_result(text, len(text), matrix, len(matrix), lists, len(lists))
    _accept(read, True)
    return tiles, side, matrix[:], lists[:], Outcome(Ending(read.kind), read.at)


def write_system(tiles: int, side: int, matrix: Sequence[float]) -> bytes:
    """A system file."""
    tiles, side, numbers = _whole(tiles), _whole(side), _numbers(matrix)
    text = (ctypes.c_uint8 * (system_length(tiles, side) if _in_range(tiles, side) else 0))()
    told = _library.solumivaf_write_system(tiles, side, numbers, len(numbers), text, len(text))
    _accept(told)
    return bytes(text[:told.count])


def write_result(tiles: int, side: int, matrix: Sequence[float], lists: Iterable[int], outcome: Outcome) -> bytes:
    """A result file."""
    kind, place = Ending(outcome[0]), _whole(outcome[1], 2 ** 16 - 1)
    if kind == Ending.UNFINISHED:
        raise ValueError("an unfinished system has no result: finish the work first")
    tiles, side, numbers, entries = _whole(tiles), _whole(side), _numbers(matrix), _entries(lists)
    text = (ctypes.c_uint8 * (result_length(tiles, side) if _in_range(tiles, side) else 0))()
    told = _library.solumivaf_write_result(tiles, side, numbers, len(numbers), entries, len(entries), kind, place, text, len(text))
    _accept(told)
    return bytes(text[:told.count])
