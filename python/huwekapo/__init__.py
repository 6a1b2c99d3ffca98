"""Runs recorded histories on a proved heap of 16-byte blocks in bitmaps, with reference counts of one to four bits.

`run` takes a history (a path, a binary file that is open, or bytes) through a new heap, and gives its figures:

    >>> import huwekapo
    >>> from huwekapo.record import ALLOCATE, record
    >>> history = b"".join(record(ALLOCATE, d=root, size=size) for root, size in [(0, 2), (1, 1), (2, 3)])
    >>> ran = huwekapo.run(history, blocks=1024, width=2)
    >>> ran.figures.peak, ran.line()
    (6, '3 6 3 0 6 0\\n')

A history that can't be run to its end has no such figures. `run` raises `Stopped` then, unless it is told that it may stop:

    >>> try:
    ...     huwekapo.run(history + record(ALLOCATE, d=3, size=9), blocks=8)
    ... except huwekapo.Stopped as stopped:
    ...     print(stopped)
    bytes: refused 3 at record 3: the size is 0 or above the number of blocks
    >>> huwekapo.run(history + b"...", blocks=8, may_stop=True).stop()
    'refused 10 at record 3'

`Heap` has the calls of the heap itself, `History` runs in pieces, `garbage` says what no root reaches and what holds it:

    >>> heap = huwekapo.Heap(blocks=8, width=2, roots=4)
    >>> heap.allocate(2, 0), heap.allocate(1, 1), heap.allocate(3, 2)
    (0, 2, 4)
    >>> heap.look(4)
    Look(size=3, count=1)
    >>> heap.a[0], heap.b[0]
    (119, 185)
    >>> heap.sections.tolist(), heap.free_blocks()
    ([1], 2)
    >>> try:
    ...     heap.allocate(2, 3)
    ... except huwekapo.Refused as refused:
    ...     refused.number, refused.name
    (5, 'NO_CHUNK')
    >>> heap
    <Heap of 8 blocks, width 2, 4 roots: 6 blocks in use>

Cells of an object made as data hold any 32-bit number, and no reference:

    >>> heap.format()
    >>> pixels = heap.allocate_data(2, 0)
    >>> heap.write_number(pixels, 7, 4294967295)
    >>> heap.read_number(pixels, 7), heap.data[0]
    (4294967295, 1)

A collection that may not stop the program for long is opened and stepped. Two objects that name each other, and that no root names:

    >>> for root in 1, 2:
    ...     heap.allocate(1, root)
    2
    3
    >>> heap.store_cell(2, 0, 4), heap.store_cell(3, 0, 3), heap.return_roots(6)
    (0, 0, 0)
    >>> heap.open_collection()
    >>> while heap.is_open:
    ...     heap.step_collection(10)
    Stepped(steps=1, freed=2)

Why an object is kept is a sentence; and two heaps mean the same where their shapes are equal, wherever objects lie:

    >>> heap.allocate(1, 1)
    2
    >>> heap.store_cell(2, 3, 1 + pixels), heap.store_root(0, 0)
    (0, 0)
    >>> heap.reason(pixels)
    'root 1 cell 3 block 0\\n'
    >>> huwekapo.read_reason(heap.reason(pixels))
    Reason(root=1, cells=(3,), block=0)
    >>> huwekapo.same_shape(heap, heap.copy()), len(heap.shape())
    (True, 21)

`Recorder` writes a history as a program runs, and `records` reads one:

    >>> import io
    >>> file = io.BytesIO()
    >>> with huwekapo.Recorder(file) as recorder:
    ...     recorder.allocate(2, 0)
    ...     recorder.copy(0, 1)
    >>> list(huwekapo.records(file.getvalue()))
    [Record(operation=1, d=0, s=0, c=0, size=2, unused=0), Record(operation=2, d=1, s=0, c=0, size=0, unused=0)]

A history of before version 0.7.0, when a record had eight bytes, is widened first:

    >>> huwekapo.widened(bytes([1, 0, 0, 0, 0, 0, 2, 0])) == huwekapo.Record(1, size=2).packed()
    True

`python3 -m huwekapo` has the commands. The heap is the library libhuwekapo.so; this package lends it buffers and hands on what it
answers. Nothing is proved of the package itself.
"""

from .unreached import Garbage, Held, Kinds, data, garbage, in_use, kinds, objects, stuck
from .compact import Compacted, compact, largest_chunk
from .heap import Heap, Look, Reply, Stepped
from .history import History, run
from .library import VERSION, Figures, LibraryMissing
from .reasons import Reason, holds, read_reason
from .record import CutOff, Record, records
from .recorder import Recorder
from .refused import Damage, Number, Refused
from .runs import Run, Stopped
from .shapes import same_shape
from .widening import widen, widened

__version__ = VERSION

__all__ = [
    "Compacted",
    "CutOff",
    "Damage",
    "Figures",
    "Garbage",
    "Heap",
    "Held",
    "History",
    "Kinds",
    "LibraryMissing",
    "Look",
    "Number",
    "Reason",
    "Record",
    "Recorder",
    "Refused",
    "Reply",
    "Run",
    "Stepped",
    "Stopped",
    "compact",
    "data",
    "garbage",
    "holds",
    "in_use",
    "kinds",
    "largest_chunk",
    "objects",
    "read_reason",
    "records",
    "run",
    "same_shape",
    "stuck",
    "widen",
    "widened",
]
