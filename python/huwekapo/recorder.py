"""Writes a history, record by record, as a program runs."""

from __future__ import annotations

import operator
import os
from types import TracebackType
from typing import IO, Optional, Type, Union

from .record import (
    ALLOCATE,
    ALLOCATE_DATA,
    CLEAR,
    COLLECT,
    COPY,
    LARGEST_NUMBER,
    LARGEST_ROOT,
    READ,
    WRITE,
    WRITE_NUMBER,
    record,
)

#: The bytes that are kept before they are written: whole records.
_KEPT = 1 << 15


class Recorder:
    """Writes a history to a path, or to a binary file that is open.

    Each method appends one record, with the words of docs/FILES.md in their order: `write(1, 7, 0)` is `write 1 into cell 7 of 0`. A root
    stands for a local variable of the program, so that a frame's slot is a root. Whether a run accepts the records is not tested here; a
    number that no record can hold is an OverflowError, and nothing is written for it.

    `close`, or the end of a `with`, writes what is kept, and closes a file that was given by its path. What is written ends with a whole
    record at any time, so that the history of a program that failed can be run up to there.
    """

    def __init__(self, file: Union[str, "os.PathLike[str]", IO[bytes]]) -> None:
        self._own = isinstance(file, (str, os.PathLike))
        self._file: IO[bytes] = open(file, "wb") if isinstance(file, (str, os.PathLike)) else file
        self._kept = bytearray()
        self._records = 0
        self._closed = False

    @property
    def records(self) -> int:
        """The records so far, written or kept."""
        return self._records

    def allocate(self, size: int, d: int) -> None:
        """Allocates so many blocks of 16 bytes into root d."""
        self._append(ALLOCATE, d=d, size=size)

    def allocate_data(self, size: int, d: int) -> None:
        """Allocates so many blocks of data, whose cells hold numbers, into root d."""
        self._append(ALLOCATE_DATA, d=d, size=size)

    def copy(self, s: int, d: int) -> None:
        """Copies root s to d."""
        self._append(COPY, d=d, s=s)

    def write(self, s: int, c: int, d: int) -> None:
        """Writes root s into cell c of the object in d."""
        self._append(WRITE, d=d, s=s, c=c)

    def read(self, c: int, s: int, d: int) -> None:
        """Reads cell c of the object in s into root d."""
        self._append(READ, d=d, s=s, c=c)

    def write_number(self, number: int, c: int, d: int) -> None:
        """Writes a number into cell c of the data in d."""
        self._append(WRITE_NUMBER, d=d, c=c, size=number)

    def clear(self, d: int) -> None:
        """Clears root d."""
        self._append(CLEAR, d=d)

    def collect(self) -> None:
        """A full collection."""
        self._append(COLLECT)

    def _append(self, operation: int, d: int = 0, s: int = 0, c: int = 0, size: int = 0) -> None:
        if self._closed:
            raise ValueError("the recorder is closed")
        for name, number, largest in (
            ("root", d, LARGEST_ROOT),
            ("root", s, LARGEST_ROOT),
            ("cell", c, LARGEST_NUMBER),
            ("number" if operation == WRITE_NUMBER else "size", size, LARGEST_NUMBER),
        ):
            if not 0 <= operator.index(number) <= largest:
                raise OverflowError(f"record {self._records}: {name} {number} is not from 0 to {largest:,}")
        self._kept += record(operation, d, s, c, size)
        self._records += 1
        if len(self._kept) >= _KEPT:
            self.flush()

    def flush(self) -> None:
        """Writes what is kept."""
        kept = memoryview(bytes(self._kept))
        self._kept.clear()
        while kept:
            # A file without a buffer may take a part only.
            written = self._file.write(kept)
            kept = kept[len(kept) if written is None else written :]
        self._file.flush()

    def close(self) -> None:
        """Writes what is kept, and closes a file that was given by its path."""
        if self._closed:
            return
        self._closed = True
        try:
            self.flush()
        finally:
            if self._own:
                self._file.close()

    def __enter__(self) -> Recorder:
        return self

    def __exit__(
        self, kind: Optional[Type[BaseException]], error: Optional[BaseException], trace: Optional[TracebackType]
    ) -> None:
        self.close()
