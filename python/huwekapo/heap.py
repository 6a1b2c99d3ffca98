"""A heap that owns its buffers, with the library's calls as methods."""

from __future__ import annotations

import ctypes
import operator
import threading
from typing import Any, Iterable, List, NamedTuple, Sequence, Union

from . import library
from .library import MAX_BLOCKS, MAX_NUMBER, MAX_ROOTS, MAX_SECTION, MAX_WIDTH, REPORT_BLOCKS, REPORT_ROOTS, REPORT_WIDTH
from .refused import Refused
from .runs import Run

#: What is readable as bytes.
Bytes = Union[bytes, bytearray, memoryview]

#: The formats of memoryviews, by the bytes of a number.
_FORMATS = {1: "B", 4: "I"}


class Look(NamedTuple):
    """What a look at an object finds: its size in blocks, and its count."""

    size: int
    count: int  # type: ignore[assignment]


class Stepped(NamedTuple):
    """What steps of a collection did: how many were taken, and the blocks that they freed."""

    steps: int
    freed: int


class Reply(NamedTuple):
    """A reply of a list of calls, as the library gave it: number 0 is acceptance."""

    number: int
    value: int
    second: int


class Heap:
    """A formatted heap of so many blocks, with counts of so many bits and so many roots.

    blocks is a power of two from 8 to 65,536, width 1 to 4, and there are 1 to 64 roots; else `Refused` 1 is raised. Each method is one
    call of the library, and hands on what it answers: a refusal is raised as `Refused`, and has changed nothing. References are 0, or
    1 + the first block of an object; cells of an object made as data hold any 32-bit number.

    The buffers are readable as memoryviews: `a`, `b`, `counts`, `data` and `marks` of bytes, `cells`, `roots`, `waiting`, `sections` and
    `list` of 32-bit numbers. They show the heap as it is, also after later calls. A heap may be used from several threads: its calls wait
    for each other.

    A collection is made at once by `collect`, or in small steps: `open_collection`, then `step_collection` until `is_open` is false. While
    one is open every other call may be made, but a second opening and `collect`. Nothing that a root leads to is ever freed; what no root
    led to at the opening, and no object of a later store was or led to, is gone at the end; and the steps are at most the objects at the
    opening.

    Two heaps are equal where blocks, width and all buffers but the waiting lists are; `copy` makes another that is.
    """

    def __init__(self, blocks: int = REPORT_BLOCKS, width: int = REPORT_WIDTH, roots: int = REPORT_ROOTS) -> None:
        blocks, width, roots = _word(blocks), _word(width), _word(roots)
        sizes = (min(blocks, MAX_BLOCKS), min(width, MAX_WIDTH), min(roots, MAX_ROOTS + 1))
        self._lend(blocks, width, {buffer.name: buffer.length(*sizes) for buffer in library.BUFFERS})
        self.format()

    @classmethod
    def from_buffers(cls, blocks: int, width: int, **buffers: Sequence[int]) -> Heap:
        """A heap of copies of given buffers, which may hold anything: every call tests them. `waiting` may be left out."""
        buffers.setdefault("waiting", bytes(min(_word(blocks), MAX_BLOCKS)))
        names = [buffer.name for buffer in library.BUFFERS]
        if sorted(names) != sorted(buffers):
            raise TypeError(f"the buffers are {', '.join(names)}")
        heap = cls.__new__(cls)
        heap._lend(_word(blocks), _word(width), {name: len(numbers) for name, numbers in buffers.items()})
        for name, array in heap._arrays.items():
            numbers = list(map(operator.index, buffers[name]))
            if any(not 0 <= number < 256 ** ctypes.sizeof(array._type_) for number in numbers):
                raise OverflowError(f"a number of {name} is out of range")
            array[:] = numbers
        return heap

    def copy(self) -> Heap:
        """A heap of its own with the same content."""
        heap = Heap.__new__(type(self))
        heap._lend(self._blocks, self._width, {name: len(array) for name, array in self._arrays.items()})
        with self._lock:
            heap._became_stuck = self._became_stuck
            for name, array in self._arrays.items():
                ctypes.memmove(heap._arrays[name], array, ctypes.sizeof(array))
        return heap

    __copy__ = copy

    def __deepcopy__(self, _: object) -> Heap:
        return self.copy()

    def __eq__(self, other: object) -> bool:
        """Whether blocks, width and all buffers but the waiting lists are equal: that list is working space."""
        if not isinstance(other, Heap):
            return NotImplemented
        names = [buffer.name for buffer in library.BUFFERS if buffer.name != "waiting"]
        return (self._blocks, self._width) == (other._blocks, other._width) and all(
            self._view(name) == other._view(name) for name in names
        )

    # Its content changes.
    __hash__ = None  # type: ignore[assignment]

    def __repr__(self) -> str:
        used = bin(int.from_bytes(self.a, "little")).count("1")
        roots = len(self._arrays["roots"])
        return f"<Heap of {self._blocks:,} blocks, width {self._width}, {roots} roots: {used:,} blocks in use>"

    def __str__(self) -> str:
        """The map of the heap, its objects and its free chunks, for reading."""
        from .show import text

        return text(self).rstrip("\n")

    def _repr_html_(self) -> str:
        """The map, for notebooks."""
        from .show import page

        return page(self)

    def _lend(self, blocks: int, width: int, lengths: dict[str, int]) -> None:
        self._functions = library.load()
        self._lock = threading.Lock()
        self._blocks, self._width = blocks, width
        self._became_stuck = False
        self._arrays = {buffer.name: (buffer.number * lengths[buffer.name])() for buffer in library.BUFFERS}
        self._heap: list[Any] = [blocks, width]
        for array in self._arrays.values():
            self._heap += [ctypes.addressof(array), len(array)]

    def _call(self, name: str, *arguments: Any) -> Any:
        with self._lock:
            return self._functions[name](*self._heap, *arguments)

    def _value(self, name: str, *arguments: int) -> int:
        return int(_accepted(self._call(name, *map(_word, arguments))).value)

    def _stored(self, name: str, *arguments: int) -> int:
        reply = _accepted(self._call(name, *map(_word, arguments)))
        self._became_stuck = bool(reply.second)
        return int(reply.value)

    def _view(self, name: str) -> memoryview:
        view = memoryview(self._arrays[name]).cast("B").toreadonly()
        return view.cast(_FORMATS[ctypes.sizeof(self._arrays[name]._type_)])

    @property
    def blocks(self) -> int:
        """The number of blocks."""
        return self._blocks

    @property
    def width(self) -> int:
        """The count width in bits."""
        return self._width

    @property
    def capacity(self) -> int:
        """The largest count, at which an object is stuck."""
        return (1 << self._width) - 1

    @property
    def became_stuck(self) -> bool:
        """Whether the last accepted allocation or store brought the count of the object that it stored to the capacity."""
        return self._became_stuck

    @property
    def a(self) -> memoryview:
        """The A-map: 1 is allocated, 0 is free. Block i is bit i % 8 (bit 0 is the least) of byte i // 8."""
        return self._view("a")

    @property
    def b(self) -> memoryview:
        """The B-map: 0 on the last block of each object, 1 everywhere else."""
        return self._view("b")

    @property
    def counts(self) -> memoryview:
        """The count maps, one after another, the least significant bit first."""
        return self._view("counts")

    @property
    def cells(self) -> memoryview:
        """Cells 4i to 4i + 3 are those of block i."""
        return self._view("cells")

    @property
    def roots(self) -> memoryview:
        """The roots."""
        return self._view("roots")

    @property
    def waiting(self) -> memoryview:
        """The working space. It is no part of what the heap holds."""
        return self._view("waiting")

    @property
    def sections(self) -> memoryview:
        """The size of the largest free chunk of each section, 0 where it has none. A chunk is s blocks starting at a multiple of s, s a
        power of two."""
        return self._view("sections")

    @property
    def data(self) -> memoryview:
        """The D-map: 1 on the first block of each object made as data, 0 everywhere else."""
        return self._view("data")

    @property
    def marks(self) -> memoryview:
        """The mark map: while a collection is open, 1 on the first block of each object that it has met; else all 0."""
        return self._view("marks")

    @property
    def list(self) -> memoryview:
        """The second list: 1 + the first blocks of the marked objects that a collection has still to look at, strictly rising, then 0s.
        The last place is 1 while one is open and else 0."""
        return self._view("list")

    @property
    def is_open(self) -> bool:
        """Whether a collection in small steps is open."""
        places = self._arrays["list"]
        return bool(self._blocks < len(places) and places[self._blocks] == 1)

    @property
    def section_blocks(self) -> int:
        """The blocks of a section: 256, or all where there are fewer."""
        return min(self._blocks, MAX_SECTION)

    def format(self) -> None:
        """Makes an empty heap of whatever the buffers held. Refusals: 1."""
        self._value("format")

    def check(self) -> None:
        """Tests the whole heap. Refusals: 1, 2, 11, 13."""
        self._value("check")

    def allocate(self, n: int, r: int) -> int:
        """Allocates n blocks into root r. The value is the first block. Refusals: 1, 2, 11, 13, 3, 4, 5."""
        return self._stored("allocate", n, r)

    def allocate_data(self, n: int, r: int) -> int:
        """Allocates n blocks of data into root r: its cells are 0, and hold any number. The value is the first block.
        Refusals: 1, 2, 11, 13, 3, 4, 5."""
        return self._stored("allocate_data", n, r)

    def write_number(self, at: int, j: int, v: int) -> None:
        """Writes v, 0 to 4,294,967,295, into cell j of the data at block `at`, and changes nothing else. Another v is no number of a
        cell: OverflowError. Refusals: 1, 2, 11, 13, 6, 7, 12."""
        if not 0 <= operator.index(v) <= MAX_NUMBER:
            raise OverflowError(f"{v} is no number from 0 to {MAX_NUMBER:,}")
        self._value("write_number", at, j, v)

    def read_number(self, at: int, j: int) -> int:
        """The number in cell j of the data at block `at`. Refusals: 1, 2, 11, 13, 6, 7, 12."""
        return self._value("read_number", at, j)

    def store_root(self, r: int, v: int) -> int:
        """Stores v in root r. The value is the number of blocks freed. Refusals: 1, 2, 11, 13, 4, 8."""
        return self._stored("store_root", r, v)

    def store_cell(self, at: int, j: int, v: int) -> int:
        """Stores v in cell j of the object at block `at`. The value is the number of blocks freed.
        Refusals: 1, 2, 11, 13, 6, 7, 12, 8."""
        return self._stored("store_cell", at, j, v)

    def return_roots(self, chosen: int) -> int:
        """Clears the roots of a set, bit r of `chosen` for root r. The value is the number of blocks freed in all.
        Refusals: 1, 2, 11, 13, 4."""
        return self._value("return_roots", chosen)

    def collect(self) -> int:
        """Frees the objects that no root reaches, and counts the references of the others anew. The value is the number of blocks
        freed. Refusals: 1, 2, 11, 13, 14."""
        return self._value("collect")

    def open_collection(self) -> None:
        """Opens a collection in small steps: marks and lists every object that a root names, and changes nothing else.
        Refusals: 1, 2, 11, 13, 14 (one is open)."""
        self._value("open_collection")

    def step_collection(self, budget: int) -> Stepped:
        """Takes at most `budget` steps of the open collection: as many, unless the list runs out. A step takes the lowest object off the
        list, and marks and lists what its cells name that is unmarked. Where the list is empty then, and the budget is not 0, the
        collection closes: it frees what is unmarked. Refusals: 1, 2, 11, 13, 14 (none is open)."""
        reply = _accepted(self._call("step_collection", _word(budget)))
        return Stepped(reply.value, reply.second)

    def look(self, at: int) -> Look:
        """Looks at the object at block `at`. Refusals: 1, 2, 11, 13, 6."""
        reply = _accepted(self._call("look", _word(at)))
        return Look(reply.value, reply.second)

    def free_blocks(self) -> int:
        """The number of free blocks. Refusals: 1, 2, 11, 13."""
        return self._value("free_blocks")

    def reason(self, at: int) -> str:
        """Why the object at block `at` is kept, as a sentence with a line end: a chain, `root 1 cell 2 block 4`, with `cell J` once for
        each link followed; or `no root reaches block 4`, where none does. The chain has the fewest links; among those the lowest root,
        then the lowest cell at the first difference. `read_reason` reads it back. Refusals: 1, 2, 11, 13, 6."""
        output = (ctypes.c_uint8 * library.reason_length(min(self._blocks, MAX_BLOCKS)))()
        reply = _accepted(self._call("reason", _word(at), ctypes.addressof(output), len(output)))
        return bytes(output[: reply.value]).decode("ascii")

    def shape(self) -> List[int]:
        """The shape of what the roots reach, as numbers: the number of roots, each root's object number or 0, then, for each object, its
        size, its D bit and its cells, references as object numbers. Objects are numbered from 1 as first met, breadth first. Two heaps have
        equal ones exactly where `same_shape` says so. Refusals: 1, 2, 11, 13."""
        roots = min(len(self._arrays["roots"]), MAX_ROOTS)
        output = (library.REF * library.shape_length(min(self._blocks, MAX_BLOCKS), roots))()
        reply = _accepted(self._call("shape", ctypes.addressof(output), len(output)))
        return output[: reply.value]

    def copy_into(self, second: Heap) -> int:
        """Copies what the roots reach into another heap, which may have another number of blocks and another width, and has as many
        roots: into a formatted one, whatever stood there, in the order of the shape's numbers, each object to the lowest free chunk then,
        so that free blocks lie together again. Both then have one shape; this one is only read. Answers the number of blocks in use in
        the other. Refusals, which change neither: 1, 2, 11, 13, 14 (a collection is open here), 17 (an object finds no chunk)."""
        if second is self:
            raise ValueError("a heap can't be copied into itself")
        # Two threads that copy both ways wait for each other in one order.
        first, last = sorted((self._lock, second._lock), key=id)
        with first, last:
            return int(_accepted(self._functions["copy"](*self._heap, *second._heap)).value)

    def replay(self, calls: Iterable[Sequence[int]]) -> List[Reply]:
        """Formats the heap and makes a list of calls, each a code and its arguments, as include/huwekapo.h has them: `(2, n, r)` is an
        allocation. Answers a reply for each; a refused call of the list raises nothing. Refusals: 1, 9."""
        return self._listed("replay", calls)

    def make_calls(self, calls: Iterable[Sequence[int]]) -> List[Reply]:
        """Makes a list of calls, in the form of `replay`, on the heap as it stands. The heap is tested once for all of them, where calls
        one by one test it each time. Answers a reply for each; a refused call of the list raises nothing. Refusals: 1, 2, 11, 13, 9."""
        return self._listed("make_calls", calls)

    def _listed(self, name: str, calls: Iterable[Sequence[int]]) -> List[Reply]:
        words: list[int] = []
        for call in calls:
            if len(call) > 4:
                raise ValueError(f"a call has at most four words: {call!r}")
            words += [_word(word) for word in call] + (4 - len(call)) * [0]
        entries = (ctypes.c_uint64 * len(words))(*words)
        replies = (ctypes.c_uint64 * (len(words) // 4 * 3))()
        # An empty array has an address too.
        lists = [ctypes.addressof(entries), len(entries), ctypes.addressof(replies), len(replies)]
        made = _accepted(self._call(name, *lists)).value
        return [Reply(*replies[3 * call : 3 * call + 3]) for call in range(made)]

    def run_records(self, run: Run, piece: Bytes) -> Run:
        """Runs a piece of a history from where `run` stands, and answers where it stands then. Only the last piece may end inside a
        record, since that stops the run; a run that was stopped is answered as it is. Refusals: 1, 2, 11, 13, 19."""
        array = (ctypes.c_uint8 * len(piece)).from_buffer_copy(piece)
        return self._run(run, ctypes.addressof(array), len(array))

    def _run(self, run: Run, address: int, length: int) -> Run:
        """The same, of bytes at an address, which must be good for the length and held by the caller."""
        ran = self._call("run_records", run._so_far(), address, length)
        _accepted(ran.reply)
        return Run._of(ran.run)


def _word(number: int) -> int:
    """A number that the library takes whole; ctypes alone would cut off what is beyond 64 bits, and take -1."""
    number = operator.index(number)
    if not 0 <= number < 2**64:
        raise OverflowError(f"{number} is no 64-bit number")
    return number


def _accepted(reply: library.Reply) -> library.Reply:
    if reply.number != 0:
        raise Refused(reply.number, reply.value)
    return reply
