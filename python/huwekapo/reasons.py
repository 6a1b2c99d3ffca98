"""Why an object is kept: a sentence of the library read back, and what holds an object that no root reaches."""

from __future__ import annotations

import ctypes
from typing import Dict, Iterable, Iterator, List, NamedTuple, Optional, Tuple

from . import library
from .heap import Heap
from .unreached import Unreached, stuck

#: A cell that names an object: the first block of its owner, and its number there.
Naming = Tuple[int, int]


class Reason(NamedTuple):
    """What a sentence says: a root, the cells followed from the object that it names, and the block. Where no root reaches the block,
    the root is None. Its text is the sentence."""

    root: Optional[int]
    cells: Tuple[int, ...]
    block: int

    def __str__(self) -> str:
        if self.root is None:
            return f"no root reaches block {self.block}\n"
        return f"root {self.root}{''.join(f' cell {cell}' for cell in self.cells)} block {self.block}\n"


def read_reason(sentence: str) -> Reason:
    """Reads a sentence of `Heap.reason` back, line end included. Each can be read in only one way; any other text is a ValueError."""
    text = sentence.encode()
    given = (ctypes.c_uint8 * len(text)).from_buffer_copy(text)
    # A link takes seven bytes at least.
    cells = (ctypes.c_uint32 * (len(text) // 7))()
    found = library.load()["read_reason"](ctypes.addressof(given), len(given), ctypes.addressof(cells), len(cells))
    if found.kind == 0:
        raise ValueError(f"no sentence that says why an object is kept: {sentence!r}")
    return Reason(found.root if found.kind == 1 else None, tuple(cells[: found.links]), found.block)


def holds(heap: Heap, block: int) -> List[str]:
    """What holds the object at a block that no root reaches, in words: the nearest stuck count, and the shortest cycle that it is on, or
    else one that leads to it. Nothing where a root reaches it. The heap is not damaged."""
    found = Unreached(heap)
    if block not in found.objects:
        return []
    namings: Dict[int, List[Naming]] = {first: [] for first in found.objects}
    for owner in sorted(found.objects):
        for j, first in found.names(owner):
            namings[first].append((owner, j))
    # From each object that leads to the block, the link to follow: backwards, breadth first.
    links: Dict[int, Tuple[int, int]] = {}
    order, around = [block], None
    for first in order:
        for owner, j in namings[first]:
            if owner == block:
                around = around or (j, first)
            elif owner not in links:
                links[owner] = (j, first)
                order.append(owner)
    words = []
    at_capacity = set(stuck(heap))
    by_count = next((first for first in order if first in at_capacity), None)
    if by_count == block:
        words.append("its count is stuck")
    elif by_count is not None:
        words.append(f"the count of what leads to it is stuck: {_chain(by_count, _followed(links, by_count))}")
    if around:
        words.append(f"it is on a cycle: {_chain(block, [around, *_followed(links, around[1])])}")
    elif block in found.by_cycles:
        cycle, lead = _cycle_before(block, namings, found)
        words.append(f"a cycle leads to it: {_chain(cycle[-1][1], cycle)}, and {_chain(cycle[-1][1], lead)}")
    return words


def _followed(links: Dict[int, Tuple[int, int]], first: int) -> Iterator[Tuple[int, int]]:
    """The links from an object to the block that they lead to."""
    while first in links:
        yield links[first]
        first = links[first][1]


def _cycle_before(block: int, namings: Dict[int, List[Naming]], found: Unreached) -> Tuple[List[Tuple[int, int]], List[Tuple[int, int]]]:
    """A cycle that leads to an object on none, and the way from it: back from the object by the lowest cell, until one comes again."""
    walked: List[Tuple[int, int]] = []
    places: Dict[int, int] = {}
    first = block
    while first not in places:
        places[first] = len(walked)
        owner, j = next(naming for naming in namings[first] if naming[0] in found.by_cycles)
        walked.append((j, first))
        first = owner
    lead = places[first]
    return walked[lead:][::-1], walked[:lead][::-1]


def _chain(first: int, links: Iterable[Tuple[int, int]]) -> str:
    """The links from an object, in words."""
    return f"block {first}" + "".join(f" cell {j} block {named}" for j, named in links)
