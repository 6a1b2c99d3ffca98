"""Histories as they were before version 0.7.0, when a record had eight bytes, made histories of today. The program `widen` does the same."""

from __future__ import annotations

from typing import IO, Callable, Optional

from .heap import Bytes, Heap
from .record import RECORD
from .refused import Number
from .runs import Run

#: The bytes of an old record: the first four as today's, then c and the size in two bytes each, low byte first.
OLD_RECORD = 8

#: Where each byte of an old record stands in one of today: behind the two of a number come two zeros.
_PLACES = (0, 1, 2, 3, 4, 5, 8, 9)

#: The bytes that are widened at a time: whole old records.
_PIECE = OLD_RECORD << 17

#: What is said of a history that may be an old one.
ADVICE = f"an old history of {OLD_RECORD}-byte records? widen it"


def widened(old: Bytes) -> bytes:
    """An old history as one of today, record by record, whatever the records are; a tail that is no whole record is copied."""
    whole = len(old) // OLD_RECORD
    made = bytearray(RECORD * whole)
    for at, place in enumerate(_PLACES):
        made[place::RECORD] = old[at : OLD_RECORD * whole : OLD_RECORD]
    return bytes(made + old[OLD_RECORD * whole :])


def widen(old: IO[bytes], new: IO[bytes], progress: Optional[Callable[[int], object]] = None) -> int:
    """Reads an old history to its end, and writes it as one of today; both are binary files that are open. Answers how many whole records
    there were."""
    tail, records = b"", 0
    while True:
        read = old.read(_PIECE)
        if not read:
            break
        held = tail + read
        whole = len(held) // OLD_RECORD
        new.write(widened(held[: OLD_RECORD * whole]))
        tail, records = held[OLD_RECORD * whole :], records + whole
        if progress:
            progress(OLD_RECORD * records)
    new.write(tail)
    return records


def may_be_old(beginning: Bytes, run: Run, blocks: int, width: int, roots: int) -> bool:
    """Whether a history that begins so may be an old one: its run on such a heap stopped at its first record with 9 or 10, as that of an
    old one does, and read as an old record it is run."""
    if run.records != 0 or run.number not in (Number.NO_CALL, Number.CUT_OFF):
        return False
    return Heap(blocks, width, roots).run_records(Run(), widened(beginning[:OLD_RECORD])).records > 0
