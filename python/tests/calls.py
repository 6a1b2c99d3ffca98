"""Every call once, with right numbers of its own, on a heap that tests spoil."""

from __future__ import annotations

from typing import Callable, Dict, List

from huwekapo import Heap, Run, library

from .records import COLLECT

Call = Callable[[Heap], object]

#: Calls whose own numbers are right, on the heap of `lent`. The first two format the heap, and so look at no content.
FORMATTING: Dict[str, Call] = {
    "format": lambda heap: heap.format(),
    "replay": lambda heap: heap.replay([]),
}
OTHERS: Dict[str, Call] = {
    "check": lambda heap: heap.check(),
    "allocate": lambda heap: heap.allocate(1, 1),
    "store_root": lambda heap: heap.store_root(1, 1),
    "store_cell": lambda heap: heap.store_cell(0, 0, 1),
    "return_roots": lambda heap: heap.return_roots(1),
    "collect": lambda heap: heap.collect(),
    "look": lambda heap: heap.look(0),
    "free_blocks": lambda heap: heap.free_blocks(),
    "allocate_data": lambda heap: heap.allocate_data(1, 1),
    "write_number": lambda heap: heap.write_number(1, 3, library.MAX_NUMBER),
    "read_number": lambda heap: heap.read_number(1, 3),
    "open_collection": lambda heap: heap.open_collection(),
    "step_collection": lambda heap: heap.step_collection(1),
    "reason": lambda heap: heap.reason(0),
    "shape": lambda heap: heap.shape(),
    "copy": lambda heap: heap.copy_into(Heap(8, 2, 4)),
    "make_calls": lambda heap: heap.make_calls([(6, 0), (7,)]),
    "run_records": lambda heap: heap.run_records(Run(), COLLECT),
}

#: The calls that are refused 14 while a collection is open, and while none is.
OUT_OF_TURN = {True: {"collect", "open_collection", "copy"}, False: {"step_collection"}}


def buffers(heap: Heap) -> Dict[str, List[int]]:
    return {buffer.name: getattr(heap, buffer.name).tolist() for buffer in library.BUFFERS}


def lent(blocks: int, is_open: bool = False) -> Dict[str, List[int]]:
    """The buffers of a heap of width 2 and 4 roots, with a collection open or not, and anything in the waiting list. The object of one
    block at block 0 is in root 0, and cell 3 of it names that at block 2; data of one block at block 1 is in root 2."""
    heap = Heap(blocks, 2, 4)
    heap.allocate(1, 0)
    heap.allocate_data(1, 2)
    heap.allocate(1, 1)
    heap.store_cell(0, 3, 3)
    heap.store_root(1, 0)
    if is_open:
        heap.open_collection()
    return {**buffers(heap), "waiting": blocks * [99]}
