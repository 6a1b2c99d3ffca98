"""Histories as small Java programs might leave them, from a seed.

A program here has a frame of variables, which are roots, and objects, which it remembers, so that every record it writes can be
run. Where a history stops it is for want of room.
"""

from __future__ import annotations

from typing import Callable, Dict, Iterator, List, Optional

from .library import REPORT_ROOTS
from .record import ALLOCATE, ALLOCATE_DATA, CLEAR, COPY, READ, RECORD, WRITE, WRITE_NUMBER, record

#: Variables of a program, as many as the program `report` has roots.
_ROOTS = REPORT_ROOTS

#: Is told how many bytes are written.
Progress = Callable[[int], object]

#: The colours of a pixel.
_COLOURS = 256 * 256


class _Object:
    """An object as the program knows it: what each of its cells names."""

    __slots__ = ("cells",)

    def __init__(self, size: int) -> None:
        self.cells: List[Optional[_Object]] = [None] * (4 * size)


class _Full(Exception):
    """The history has as many records as are wanted."""


class _Program:
    """Writes records, and carries them out on objects of its own."""

    def __init__(self, seed: int, records: int) -> None:
        # Slow to import, and no other command needs it.
        from random import Random

        self._random = Random(seed)
        self._records = records
        self.history = bytearray()
        self.variables: List[Optional[_Object]] = [None] * _ROOTS

    def below(self, number: int) -> int:
        """A number from 0 on. `random` is the one method whose numbers Python promises to keep."""
        return int(self._random.random() * number)

    def chance(self, part: float) -> bool:
        return self._random.random() < part

    def _record(self, operation: int, d: int = 0, s: int = 0, c: int = 0, size: int = 0) -> None:
        if len(self.history) == RECORD * self._records:
            raise _Full
        self.history += record(operation, d, s, c, size)

    def new(self, size: int, d: int) -> None:
        """d = new Object"""
        self._record(ALLOCATE, d=d, size=size)
        self.variables[d] = _Object(size)

    def pixels(self, size: int, d: int) -> None:
        """d = new int[4 * size]"""
        self._record(ALLOCATE_DATA, d=d, size=size)
        # Its cells name nothing.
        self.variables[d] = _Object(0)

    def draw(self, number: int, c: int, d: int) -> None:
        """d[c] = number"""
        self._record(WRITE_NUMBER, d=d, c=c, size=number)

    def copy(self, s: int, d: int) -> None:
        """d = s"""
        self._record(COPY, d=d, s=s)
        self.variables[d] = self.variables[s]

    def write(self, s: int, c: int, d: int) -> None:
        """d.c = s"""
        owner = self.variables[d]
        assert owner
        self._record(WRITE, d=d, s=s, c=c)
        owner.cells[c] = self.variables[s]

    def read(self, c: int, s: int, d: int) -> bool:
        """d = s.c; whether that is an object"""
        owner = self.variables[s]
        assert owner
        self._record(READ, d=d, s=s, c=c)
        self.variables[d] = owner.cells[c]
        return owner.cells[c] is not None

    def clear(self, *variables: int) -> None:
        """The variables' scope ends."""
        for d in variables:
            self._record(CLEAR, d=d)
            self.variables[d] = None

    def progress(self) -> float:
        """The part of the records that is written."""
        return len(self.history) / (RECORD * self._records)


def _loops(program: _Program) -> Iterator[None]:
    """An array of particles. Each turn of the loop makes a new position for one, and writes the field of another with what it holds
    already, as loops do."""
    array, particle, position, other = range(4)
    program.new(16, array)
    for cell in range(64):
        program.new(2, particle)
        program.write(particle, cell, array)
    program.clear(particle)
    while True:
        for cell in range(64):
            program.read(cell, array, particle)
            program.new(1 + program.below(2), position)
            program.write(position, 0, particle)
            if program.chance(0.5):
                program.read(program.below(64), array, other)
                if program.read(0, other, position):
                    program.write(position, 0, other)
            if program.chance(0.1):
                program.read(program.below(64), array, other)
                program.write(other, 1 + program.below(3), particle)
        program.clear(particle, position, other)
        yield


def _calls(program: _Program) -> Iterator[None]:
    """Methods that call each other. A request is handed down from frame to frame, some of what they make names it, and some results
    are written into it; a frame's variables end together."""
    settings, frames = 0, 1
    program.new(4, settings)

    def method(depth: int) -> None:
        this, request, scratch = range(frames + 3 * depth, frames + 3 * depth + 3)
        if depth == 0:
            program.new(2, request)
            program.write(settings, 0, request)
        else:
            program.copy(request - 3, request)
        program.new(1 + program.below(3), this)
        for cell in range(1, 2 + program.below(3)):
            program.new(1, scratch)
            if program.chance(0.3):
                program.write(request, 0, scratch)
            program.write(scratch, cell, this)
        for _ in range(2):
            if depth < 15 and program.chance(0.42):
                method(depth + 1)
        if program.chance(0.2):
            program.new(1, scratch)
            program.write(scratch, 1 + program.below(7), request)
        program.clear(this, request, scratch)

    while True:
        method(0)
        if program.chance(0.01):
            program.new(4, settings)
        yield


def _lists(program: _Program) -> Iterator[None]:
    """A queue of nodes that are linked both ways. One is added at the tail, one leaves at the head, and now and then all are walked.
    What leaves takes a cycle with it where its links are not cleared."""
    head, tail, node, payload = range(4)
    length = 0
    while True:
        program.new(1, node)
        program.new(1 + program.below(4), payload)
        program.write(payload, 2, node)
        if length:
            program.write(node, 0, tail)
            program.write(tail, 1, node)
        else:
            program.copy(node, head)
        program.copy(node, tail)
        length += 1
        while length > 20 + program.below(60):
            program.read(0, head, node)
            if program.chance(0.9):
                # A careful program unlinks the node that leaves.
                program.clear(payload)
                program.write(payload, 1, node)
            program.copy(node, head)
            length -= 1
        if program.chance(0.02):
            program.copy(head, node)
            while program.read(0, node, node):
                if program.chance(0.2):
                    program.read(2, node, payload)
        program.clear(node, payload)
        yield


def _trees(program: _Program) -> Iterator[None]:
    """A search tree whose nodes name their parents. Leaves are added, and branches are cut off and thrown away: each is a cycle."""
    root, node, child, value = range(4)
    program.new(1, root)
    nodes = 1

    def weigh(one: _Object) -> int:
        return 1 + sum(weigh(below) for below in one.cells[:2] if below)

    while True:
        program.copy(root, node)
        while program.read(program.below(2), node, child):
            program.copy(child, node)
        program.new(1, child)
        program.new(1 + program.below(2), value)
        program.write(value, 3, child)
        program.write(node, 2, child)
        at = program.variables[node]
        assert at
        program.write(child, 0 if at.cells[0] is None else 1, node)
        nodes += 1
        if nodes > 90:
            side = program.below(2)
            if program.read(side, root, node) and program.read(program.below(2), node, child):
                cut = program.variables[child]
                held = program.variables[node]
                assert cut and held
                nodes -= weigh(cut)
                program.clear(value)
                program.write(value, held.cells.index(cut), node)
        program.clear(node, child, value)
        yield


def _caches(program: _Program) -> Iterator[None]:
    """A cache: buckets of entries, each of which names a key and a value. Few values are wanted by many keys; old entries are
    dropped, and now and then the values are loaded anew."""
    buckets, entry, key, value, values = range(5)
    program.new(32, buckets)
    program.new(8, values)
    for cell in range(32):
        program.new(2, value)
        program.write(value, cell, values)
    while True:
        popular = min(program.below(32), program.below(32), program.below(32))
        if program.chance(0.1):
            program.new(1 + program.below(4), value)
            program.write(value, popular, values)
        program.new(1, entry)
        program.new(1, key)
        program.write(key, 0, entry)
        program.read(popular, values, value)
        program.write(value, 1, entry)
        program.write(entry, program.below(128), buckets)
        # A hit or two.
        for _ in range(program.below(3)):
            if program.read(program.below(128), buckets, entry):
                program.read(1, entry, value)
        program.clear(entry, key, value)
        yield


def _leak(program: _Program) -> Iterator[None]:
    """Work that leaves nothing, beside a list of listeners that is only added to: some 4,000 blocks at the end."""
    listeners, listener, event, text = range(4)
    kept = 0
    while True:
        program.new(1 + program.below(2), event)
        program.new(1 + program.below(6), text)
        program.write(text, 0, event)
        program.write(event, 1, text)
        program.clear(text)
        program.write(text, 1 + program.below(3), event)
        if program.chance(0.7):
            program.write(text, 0, event)
        if kept < 4000 * program.progress():
            program.new(1, listener)
            if program.variables[listeners]:
                program.write(listeners, 0, listener)
            program.copy(listener, listeners)
            program.clear(listener)
            kept += 1
        program.clear(event)
        yield


def _images(program: _Program) -> Iterator[None]:
    """A viewer: an album of pictures, each of which names its pixels, a thumbnail of them and the picture that it was made from. The
    pixels are data, which whatever is drawn there leaves alone."""
    album, picture, pixels, thumbnail, other = range(5)
    program.new(4, album)
    while True:
        place, size = program.below(16), 4 << program.below(3)
        program.new(1, picture)
        program.pixels(size, pixels)
        for _ in range(2 + program.below(4)):
            # Numbers that would be references elsewhere are among them.
            program.draw(program.below(_COLOURS) if program.chance(0.5) else program.below(1024), program.below(4 * size), pixels)
        program.write(pixels, 0, picture)
        program.pixels(1, thumbnail)
        program.draw(program.below(_COLOURS), program.below(4), thumbnail)
        program.write(thumbnail, 1, picture)
        if program.chance(0.3) and program.read(program.below(16), album, other):
            # A picture made from another; some know what was made of them, and are on a cycle then.
            program.write(other, 2, picture)
            if program.chance(0.2):
                program.write(picture, 3, other)
            if program.chance(0.5) and program.read(0, other, pixels):
                program.draw(program.below(_COLOURS), program.below(16), pixels)
        program.write(picture, place, album)
        program.clear(picture, pixels, thumbnail, other)
        yield


#: The programs by name.
PROGRAMS: Dict[str, Callable[[_Program], Iterator[None]]] = {
    "loops": _loops,
    "calls": _calls,
    "lists": _lists,
    "trees": _trees,
    "caches": _caches,
    "leak": _leak,
    "images": _images,
}


def example(name: str, records: int, seed: int = 1, progress: Optional[Progress] = None) -> bytes:
    """A history of so many records. The same name, number and seed give the same bytes."""
    program = _Program(seed, records)
    if records == 0:
        return b""
    try:
        for _ in PROGRAMS[name](program):
            if progress:
                progress(len(program.history))
    except _Full:
        pass
    return bytes(program.history)
