"""The objects of a heap that no root reaches, by what holds them. Read off the heap's buffers."""

from __future__ import annotations

from typing import AbstractSet, Iterable, NamedTuple

from .heap import Heap


class Held(NamedTuple):
    """Some objects, and the blocks that they have together."""

    objects: int
    blocks: int


class Kinds(NamedTuple):
    """Some objects by their kind: ordinary ones, and those made as data."""

    objects: Held
    data: Held


class Garbage(NamedTuple):
    """The objects that no root reaches, by what holds them.

    Take away from the garbage, again and again, each object that no cell of what is left names. What goes is held by stuck counts
    alone; what stays is on a cycle of garbage or behind one.
    """

    #: held by stuck counts alone: counts without a limit would have freed it
    stuck: Held
    #: held by cycles alone: no width of counts would free it, and no stuck garbage leads to it
    cycles: Held
    #: held by both: no width would free it, and it is stuck itself, or a stuck object of garbage leads to it
    both: Held

    @property
    def blocks(self) -> int:
        """The blocks of all garbage."""
        return self.stuck.blocks + self.cycles.blocks + self.both.blocks


def in_use(heap: Heap) -> int:
    """The number of allocated blocks."""
    return bin(_map(heap.a)).count("1")


def objects(heap: Heap) -> dict[int, int]:
    """The size of each object, by its first block, of a heap that is not damaged."""
    a, b = _map(heap.a), _map(heap.b)
    # A first block follows no allocated block whose B bit is 1; a last block has B bit 0.
    firsts = _blocks(a & ~((a & b) << 1))
    lasts = _blocks(a & ~b)
    return {first: last + 1 - first for first, last in zip(firsts, lasts)}


def stuck(heap: Heap) -> list[int]:
    """The first blocks of the objects whose count is at its capacity."""
    length = heap.blocks // 8
    at_capacity = -1
    for plane in range(heap.width):
        at_capacity &= _map(heap.counts[plane * length : (plane + 1) * length])
    return _blocks(at_capacity)


def kinds(heap: Heap) -> Kinds:
    """The objects of a heap that is not damaged, by their kind: reached or not."""
    return _by_kind(objects(heap), data(heap))


def data(heap: Heap) -> set[int]:
    """The first blocks of the objects made as data, of a heap that is not damaged."""
    return set(_blocks(_map(heap.data)))


def garbage(heap: Heap) -> Garbage:
    """What no root reaches, of a heap that is not damaged. Cells of data are numbers, and lead nowhere."""
    return survey(heap)[1]


def counts(heap: Heap) -> dict[int, int]:
    """The count of each object, by its first block, of a heap that is not damaged."""
    length = heap.blocks // 8
    planes = [_map(heap.counts[plane * length : (plane + 1) * length]) for plane in range(heap.width)]
    return {first: sum((bits >> first & 1) << plane for plane, bits in enumerate(planes)) for first in objects(heap)}


def references(heap: Heap) -> list[int]:
    """The cells of a heap that is not damaged, with 0 in place of the numbers that data holds."""
    sizes, cells = objects(heap), heap.cells.tolist()
    for first in data(heap):
        cells[4 * first : 4 * (first + sizes[first])] = 4 * sizes[first] * [0]
    return cells


def reached(heap: Heap) -> set[int]:
    """The first blocks of the objects that a root reaches, of a heap that is not damaged."""
    return _led_to((v - 1 for v in heap.roots.tolist() if v), objects(heap), references(heap), set())


def survey(heap: Heap) -> tuple[Kinds, Garbage]:
    """What a root reaches, by its kind, and what none does, by what holds it, of a heap that is not damaged."""
    found = Unreached(heap)
    return _by_kind({first: found.sizes[first] for first in found.reached}, data(heap)), found.garbage()


class Unreached:
    """The objects that no root reaches, of a heap that is not damaged, by their first blocks; those of them on a cycle of garbage or behind
    one; and those that are stuck, or to which stuck ones of them lead."""

    def __init__(self, heap: Heap) -> None:
        self.sizes = objects(heap)
        self.cells = references(heap)
        self.reached = _led_to((v - 1 for v in heap.roots.tolist() if v), self.sizes, self.cells, set())
        self.objects = self.sizes.keys() - self.reached
        self.by_cycles = self.objects - _unnamed(self.objects, self.sizes, self.cells)
        self.by_stuck = _led_to((first for first in stuck(heap) if first not in self.reached), self.sizes, self.cells, self.reached)

    def garbage(self) -> Garbage:
        """These, by what holds them."""
        parts = (self.objects - self.by_cycles, self.by_cycles - self.by_stuck, self.by_cycles & self.by_stuck)
        return Garbage(*(_held(some, self.sizes) for some in parts))

    def names(self, first: int) -> list[tuple[int, int]]:
        """The cells of an object that name one of these, each its number and the first block of what it names."""
        own = self.cells[4 * first : 4 * (first + self.sizes[first])]
        return [(j, v - 1) for j, v in enumerate(own) if v and v - 1 in self.objects]


def _held(some: Iterable[int], sizes: dict[int, int]) -> Held:
    found = [sizes[first] for first in some]
    return Held(len(found), sum(found))


def _by_kind(sizes: dict[int, int], numbers: AbstractSet[int]) -> Kinds:
    return Kinds(_held(sizes.keys() - numbers, sizes), _held(sizes.keys() & numbers, sizes))


def _unnamed(some: AbstractSet[int], sizes: dict[int, int], cells: list[int]) -> set[int]:
    """What goes if each of these objects that no cell of one of them names is taken away, again and again."""
    names = {first: [v - 1 for v in cells[4 * first : 4 * (first + sizes[first])] if v and v - 1 in some] for first in some}
    references = dict.fromkeys(some, 0)
    for named in names.values():
        for first in named:
            references[first] += 1
    to_take = [first for first in some if references[first] == 0]
    taken: set[int] = set()
    while to_take:
        first = to_take.pop()
        taken.add(first)
        for named_one in names[first]:
            references[named_one] -= 1
            if references[named_one] == 0:
                to_take.append(named_one)
    return taken


def _led_to(start: Iterable[int], sizes: dict[int, int], cells: list[int], left_out: set[int]) -> set[int]:
    """The objects of `start` and those that they lead to, but for those that are left out."""
    found: set[int] = set()
    found.update(start)
    to_follow = list(found)
    while to_follow:
        first = to_follow.pop()
        for v in cells[4 * first : 4 * (first + sizes[first])]:
            if v and v - 1 not in found and v - 1 not in left_out:
                found.add(v - 1)
                to_follow.append(v - 1)
    return found


def _map(view: memoryview) -> int:
    """A map as one number, with bit i for block i."""
    return int.from_bytes(view, "little")


def _blocks(number: int) -> list[int]:
    """The bits that are 1."""
    digits = bin(number)[:1:-1]
    blocks, at = [], digits.find("1")
    while at >= 0:
        blocks.append(at)
        at = digits.find("1", at + 1)
    return blocks
