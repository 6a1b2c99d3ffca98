"""What a copy into an empty heap of the same size gains: free blocks that lie together."""

from __future__ import annotations

from itertools import islice
from typing import TYPE_CHECKING, NamedTuple, Optional

from .heap import Heap
from .record import ALLOCATE, ALLOCATE_DATA, records
from .refused import Number, Refused

if TYPE_CHECKING:
    from .history import Source


class Compacted(NamedTuple):
    """A heap before and after a copy: the blocks in use and the blocks of the largest free chunk. Less are in use after it where there
    was garbage."""

    used_before: int
    used_after: int
    chunk_before: int
    chunk_after: int


def largest_chunk(heap: Heap) -> int:
    """The size of the largest free chunk, s blocks starting at a multiple of s, s a power of two; 0 where no block is free."""
    blocks = heap.blocks
    free = ~int.from_bytes(heap.a, "little") & ((1 << blocks) - 1)
    largest, size = 0, 1
    while free:
        largest = size
        if 2 * size > blocks:
            break
        # A chunk of twice the size is two that are free, of which the first starts at a multiple of it.
        starts = ((1 << blocks) - 1) // ((1 << 2 * size) - 1)
        free &= free >> size & starts
        size *= 2
    return largest


def compact(heap: Heap) -> Compacted:
    """What a copy of the heap into an empty one of its size, width and roots would gain. The heap itself stays as it is. Refusals:
    1, 2, 11, 13, 14."""
    return _gain(heap, _copy(heap))


def lets_go_on(heap: Heap, source: Source, record: int) -> Optional[bool]:
    """Of a heap whose run stopped with 5 at a record of a history: whether a copy of it has a chunk for what the record allocates; None
    where the record allocates nothing."""
    found = next(islice(records(source), record, None), None)
    if found is None or found.operation not in (ALLOCATE, ALLOCATE_DATA):
        return None
    try:
        _copy(heap).allocate(found.size, found.d)
    except Refused as refused:
        if refused.number != Number.NO_CHUNK:
            raise
        return False
    return True


def _copy(heap: Heap) -> Heap:
    second = Heap(heap.blocks, heap.width, len(heap.roots))
    heap.copy_into(second)
    return second


def _gain(heap: Heap, second: Heap) -> Compacted:
    used = [some.blocks - some.free_blocks() for some in (heap, second)]
    chunks = [largest_chunk(some) for some in (heap, second)]
    return Compacted(*used, *chunks)
