"""The form of a history's records: the one place that has it."""

from __future__ import annotations

import struct
from typing import TYPE_CHECKING, Iterator, NamedTuple

if TYPE_CHECKING:
    from .history import Source

#: The bytes of a record: operation, d, s and one unused, then c and the size in four bytes each, low byte first.
_FORM = struct.Struct("<BBBBII")
RECORD = _FORM.size

#: The operations.
ALLOCATE, COPY, WRITE, READ, CLEAR, COLLECT, ALLOCATE_DATA, WRITE_NUMBER = range(1, 9)

#: The largest root that a record can name, and the largest cell, size or number: a run refuses most of them.
LARGEST_ROOT, LARGEST_NUMBER = 2**8 - 1, 2**32 - 1


class Record(NamedTuple):
    """A record: an operation on the roots d and s, cell c and a size, which for `WRITE_NUMBER` is the number. Fields that the operation
    does not name have to be 0: a run stops at the record where one is not."""

    operation: int
    d: int = 0
    s: int = 0
    c: int = 0
    size: int = 0
    unused: int = 0

    def packed(self) -> bytes:
        """Its bytes."""
        return record(*self)

    @staticmethod
    def of(some: bytes) -> Record:
        """The record of so many bytes, whatever they are."""
        if len(some) != RECORD:
            raise ValueError(f"a record has {RECORD} bytes, and these are {len(some)}")
        operation, d, s, unused, c, size = _FORM.unpack(some)
        return Record(operation, d, s, c, size, unused)


class CutOff(ValueError):
    """A history that ends inside a record.

    records: the whole records before it.
    rest: the bytes behind them.
    """

    def __init__(self, name: str, records: int, rest: bytes) -> None:
        super().__init__(name, records, rest)
        self.name = name
        self.records = records
        self.rest = rest

    def __str__(self) -> str:
        return f"{self.name}: ends inside record {self.records}: {len(self.rest)} of its {RECORD} bytes are there"


def record(operation: int, d: int = 0, s: int = 0, c: int = 0, size: int = 0, unused: int = 0) -> bytes:
    """A record of an operation on the roots d and s, cell c and a size, which for `WRITE_NUMBER` is the number."""
    return _FORM.pack(operation, d, s, unused, c, size)


def records(history: Source) -> Iterator[Record]:
    """The records of a history, one by one: a path, a binary file that is open, or bytes. What is no operation is given as it is. Where
    the history ends inside a record, `CutOff` is raised behind the last whole one."""
    from .history import History

    source, number = History.of(history), 0
    for piece in source.pieces():
        whole = len(piece) - len(piece) % RECORD
        for at in range(0, whole, RECORD):
            yield Record.of(piece[at : at + RECORD])
        number += whole // RECORD
        if whole < len(piece):
            raise CutOff(source.name, number, piece[whole:])
