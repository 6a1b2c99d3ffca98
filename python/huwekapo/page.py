"""A history as a page to look at in a browser: the map of the heap over time, for each count width, in one file that fetches nothing.

A page has some moments of the run. Of each it keeps what changed in the heap's buffers since the one before, so that the page can show every
object with its size and count, and find the chain that keeps it.
"""

from __future__ import annotations

import base64
import json
import os
import zlib
from typing import Dict, Iterator, List, Optional, Sequence, Set, Tuple

from . import library
from .files import shown
from .heap import Heap
from .history import History, Progress, Source
from .measures import FIGURE_WORDS, GARBAGE_WORDS
from .record import RECORD
from .runs import Run
from .unreached import Unreached, data, in_use

#: The moments of a page, at most, beside the beginning.
MOMENTS = 250

#: The lists of a moment, in the order in which the page reads them, and the bytes of a number of each. The first five are the heap's maps;
#: `reached`, `cycles` and `stuck` have a bit on the first block of each object that a root reaches, that is garbage on a cycle or behind one,
#: and that is stuck garbage or behind some.
LISTS = {"a": 1, "b": 1, "counts": 1, "data": 1, "reached": 1, "cycles": 1, "stuck": 1, "roots": 4, "cells": 4}

#: The bytes that are compared at once.
_STRETCH = 256


def page(
    history: Source,
    blocks: int,
    widths: Sequence[int],
    roots: int,
    title: str,
    progress: Optional[Progress] = None,
) -> Tuple[str, List[Run]]:
    """The page, and where the run at each width ends."""
    source = History.of(history)
    size = source.size() or 0
    step = max(1, -(-(size // RECORD) // MOMENTS))
    parts, runs = [], []
    for done, width in enumerate(widths):

        def tell(part: int, before: int = done * size) -> None:
            if progress:
                progress(before + part)

        part, run = _width(source, blocks, width, roots, step, tell)
        parts.append(part)
        runs.append(run)
    content = {
        "title": shown(title),
        "version": library.build(),
        "blocks": blocks,
        "roots": roots,
        "lists": list(LISTS.items()),
        "figures": list(FIGURE_WORDS.values()),
        "garbage": GARBAGE_WORDS,
        "widths": parts,
    }
    # Nothing of it ends the element that it stands in.
    return _template().replace("{{CONTENT}}", json.dumps(content).replace("<", "\\u003c")), runs


def _template() -> str:
    with open(os.path.join(os.path.dirname(os.path.realpath(__file__)), "page.html"), encoding="utf-8") as file:
        return file.read()


def _width(
    history: History, blocks: int, width: int, roots: int, step: int, progress: Progress
) -> Tuple[Dict[str, object], Run]:
    """What a page has of one width."""
    heap, run = Heap(blocks, width, roots), Run()
    before = {name: b"" for name in LISTS}
    packer, packed = zlib.compressobj(9), bytearray()
    moments: List[List[int]] = []

    def note(after: Run, highest: int) -> None:
        nonlocal before
        found = Unreached(heap)
        now = dict(_lists(heap, found))
        for name, size in LISTS.items():
            packed.extend(packer.compress(changes(before[name] or bytes(len(now[name])), now[name], size)))
        before = now
        garbage = found.garbage()
        of_data = sum(found.sizes[first] for first in data(heap) & found.reached)
        held = [garbage.stuck.blocks, garbage.both.blocks, garbage.cycles.blocks]
        moments.append([after.records, in_use(heap), highest, of_data, *held, *after.figures])

    note(run, 0)
    for after, highest in history.steps(heap, step):
        if after.records > run.records or after.figures != run.figures:
            note(after, highest)
        run = after
        progress(RECORD * run.records)
    packed.extend(packer.flush())
    stop = f"{run.stop()}: {run.stop_in_words()}" if run.stopped else ""
    return {"width": width, "stop": stop, "moments": moments, "lists": base64.b64encode(packed).decode()}, run


def _lists(heap: Heap, found: Unreached) -> Iterator[Tuple[str, bytes]]:
    """The lists of a moment as bytes."""
    for name in ("a", "b", "counts", "data"):
        yield name, bytes(getattr(heap, name))
    for name, some in (("reached", found.reached), ("cycles", found.by_cycles), ("stuck", found.by_stuck)):
        yield name, _map(some, heap.blocks)
    for name in ("roots", "cells"):
        yield name, bytes(getattr(heap, name).cast("B"))


def _map(some: Set[int], blocks: int) -> bytes:
    made = bytearray(blocks // 8)
    for first in some:
        made[first // 8] |= 1 << first % 8
    return bytes(made)


def changes(before: bytes, after: bytes, size: int) -> bytes:
    """The numbers of so many bytes that changed: how many there are, then of each how far it lies behind the one before and what it is now.
    All are written in sevens of bits, the lowest first, with 128 added to all but the last."""
    made, number, last = bytearray(), 0, 0
    for start in range(0, len(after), _STRETCH):
        end = min(start + _STRETCH, len(after))
        if before[start:end] == after[start:end]:
            continue
        for at in range(start, end, size):
            if before[at : at + size] != after[at : at + size]:
                made += _sevens(at // size - last) + _sevens(int.from_bytes(after[at : at + size], "little"))
                number, last = number + 1, at // size
    return bytes(_sevens(number) + made)


def _sevens(number: int) -> bytearray:
    made = bytearray()
    while number >= 128:
        made.append(number & 127 | 128)
        number >>= 7
    made.append(number)
    return made
