"""Recorded histories, and running them."""

from __future__ import annotations

import ctypes
import io
import os
import time
from contextlib import contextmanager
from typing import IO, Callable, Iterator, Optional, Tuple, Union

from .heap import Bytes, Heap
from .library import REPORT_BLOCKS, REPORT_ROOTS, REPORT_WIDTH
from .record import RECORD
from .runs import Run, Stopped
from .widening import ADVICE, OLD_RECORD, may_be_old

#: The bytes that are run at a time, whole records and a mebibyte at most: so many that the check of the heap, which each piece begins
#: with, hardly counts.
PIECE = (1 << 20) // RECORD * RECORD

#: The seconds for which bytes that come slowly are held back, to be run in one piece.
_PATIENCE = 0.1

#: What a history may be given as.
Source = Union[str, "os.PathLike[str]", Bytes, IO[bytes], "History"]

#: Is told how many bytes of the history have been run.
Progress = Callable[[int], object]


class History:
    """A recorded history: a file of records, by its path or as a binary file that is open; or its bytes.

    It is read in pieces, so that one of any size takes little memory. One given by its path, or as bytes, may be run again and again; so may an
    open file that can seek, each time from where it stood. Any other, as a pipe, is run once.
    """

    def __init__(self, source: Union[str, os.PathLike[str], Bytes, IO[bytes]]) -> None:
        self._path: Optional[str] = None
        self._file: Optional[IO[bytes]] = None
        if isinstance(source, (str, os.PathLike)):
            self._path = os.fspath(source)
        elif isinstance(source, (bytes, bytearray, memoryview)):
            self._file = io.BytesIO(source)
        else:
            self._file = source
        self._start = _position(self._file) if self._file else 0
        self._was_read = False
        # The first bytes, as many as an old record has: a pipe gives them once.
        self._beginning = b""

    @staticmethod
    def of(source: Source) -> History:
        """The history that was given, as itself or otherwise."""
        return source if isinstance(source, History) else History(source)

    @property
    def name(self) -> str:
        """The path, or the open file's name."""
        if self._path is not None:
            return self._path
        return "bytes" if isinstance(self._file, io.BytesIO) else str(getattr(self._file, "name", "a file"))

    def size(self) -> Optional[int]:
        """The length in bytes, where it is known before it is read."""
        try:
            if self._path is not None:
                return os.path.getsize(self._path) if os.path.isfile(self._path) else None
            assert self._file
            end = self._file.seek(0, os.SEEK_END)
            self._file.seek(self._start or 0)
            return end - (self._start or 0)
        except (OSError, AttributeError):
            return None

    @contextmanager
    def _opened(self) -> Iterator[IO[bytes]]:
        if self._path is not None:
            with open(self._path, "rb", buffering=0) as file:
                yield file
            return
        assert self._file
        if self._was_read:
            if self._start is None:
                raise OSError(f"{self.name} can't be read a second time")
            self._file.seek(self._start)
        self._was_read = True
        yield self._file

    def runs(self, heap: Heap, step: Optional[int] = None) -> Iterator[Run]:
        """Runs the history on a heap, in pieces, and gives where the run stands after each; the last is where it ends. A piece has
        `step` records; without it, as many as come in a tenth of a second, and a mebibyte at most."""
        if step is not None:
            for run, _ in self.steps(heap, step):
                yield run
            return
        run = Run()
        for address, length in self._in_memory(fill=False):
            run = heap._run(run, address, length)
            yield run
            if run.stopped:
                return

    def steps(self, heap: Heap, step: int) -> Iterator[Tuple[Run, int]]:
        """The same in pieces of `step` records, with the most blocks in use after any record of each piece."""
        if step < 1:
            raise ValueError(f"a piece can't have {step} records")
        run, due, highest = Run(), step, 0
        for address, length in self._in_memory(fill=True):
            at = 0
            while True:
                part = min(length - at, RECORD * (due - run.records))
                run, in_part = _run_and_peak(heap, run, address + at, part)
                at, highest = at + part, max(highest, in_part)
                if run.stopped or run.records == due:
                    yield run, highest
                    due, highest = due + step, 0
                if run.stopped:
                    return
                if at == length:
                    break
        if run.records == 0 or run.records % step:
            yield run, highest

    def _in_memory(self, fill: bool) -> Iterator[Tuple[int, int]]:
        """The address and the length of each piece of the file, there until the next is asked for."""
        buffer = bytearray(PIECE)
        # This pins the buffer, whose address the library is given.
        array = (ctypes.c_uint8 * len(buffer)).from_buffer(buffer)
        for length in self._read(memoryview(buffer), fill):
            yield ctypes.addressof(array), length

    def pieces(self) -> Iterator[bytes]:
        """The bytes of the history, nearly a mebibyte at a time. Only the last piece may end inside a record."""
        buffer = memoryview(bytearray(PIECE))
        for length in self._read(buffer, fill=True):
            yield bytes(buffer[:length])

    def _read(self, view: memoryview, fill: bool) -> Iterator[int]:
        """The lengths of the pieces, each read to the view's start."""
        with self._opened() as file:
            for number, length in enumerate(_pieces(file, view, fill)):
                if number == 0:
                    self._beginning = bytes(view[: min(length, OLD_RECORD)])
                yield length

    def run(self, heap: Heap, progress: Optional[Progress] = None, may_stop: bool = False) -> Run:
        """Runs the history on a heap, and gives where the run ends. Where it stops before the end it raises `Stopped`, unless it
        may."""
        run = Run()
        for run in self.runs(heap):
            if progress:
                progress(RECORD * run.records)
        if run.stopped and not may_stop:
            raise Stopped(run, self.name, self.advice(run, heap.blocks, heap.width, len(heap.roots)))
        return run

    def advice(self, run: Run, blocks: int, width: int, roots: int) -> str:
        """What there is to say where a run of this history on such a heap stopped as that of an old history does, whose records had eight
        bytes; empty where nothing is."""
        return ADVICE if may_be_old(self._beginning, run, blocks, width, roots) else ""

    def run_to(self, heap: Heap, records: Optional[int], progress: Optional[Progress] = None) -> Run:
        """Runs the first records of the history on a heap, as many as there are at most, or all; and gives where the run stands then,
        stopped or not."""
        if records is None:
            return self.run(heap, progress, may_stop=True)
        run = Run()
        for piece in self.pieces():
            run = heap.run_records(run, piece[: RECORD * (records - run.records)])
            if run.stopped or run.records == records:
                break
            if progress:
                progress(RECORD * run.records)
        return run


def run(
    history: Source,
    blocks: int = REPORT_BLOCKS,
    width: int = REPORT_WIDTH,
    roots: int = REPORT_ROOTS,
    progress: Optional[Progress] = None,
    may_stop: bool = False,
) -> Run:
    """Runs a history on a new heap: a path, a binary file that is open, or bytes. The run has the figures.

    Where it stops before the end it raises `Stopped`. With `may_stop` it doesn't: the run then has the number that stopped it, the
    record where it did, and the figures of the records before that one."""
    return History.of(history).run(Heap(blocks, width, roots), progress, may_stop)


def _run_and_peak(heap: Heap, run: Run, address: int, length: int) -> Tuple[Run, int]:
    """A run over a piece, and the most blocks in use after any of its records: the library is handed a peak of 0."""
    after = heap._run(run._replace(figures=run.figures._replace(peak=0)), address, length)
    peak = after.figures.peak
    return after._replace(figures=after.figures._replace(peak=max(peak, run.figures.peak))), peak


def _position(file: IO[bytes]) -> Optional[int]:
    """Where a file stands; None where it can't seek."""
    try:
        return file.tell() if file.seekable() else None
    except (OSError, AttributeError):
        return None


def _pieces(file: IO[bytes], view: memoryview, fill: bool) -> Iterator[int]:
    """The lengths of the pieces of a file, each read to the view's start; there is one at least. Only the last may end inside a
    record. With `fill`, all but the last fill the view."""
    held, pieces, since = 0, 0, time.monotonic()
    while True:
        read = _read_into(file, view[held:])
        if not read:
            break
        held += read
        if held < len(view) and (fill or held < RECORD or time.monotonic() - since < _PATIENCE):
            continue
        whole = held - held % RECORD
        yield whole
        held -= whole
        view[:held] = bytes(view[whole : whole + held])
        pieces, since = pieces + 1, time.monotonic()
    if held or not pieces:
        yield held


def _read_into(file: IO[bytes], view: memoryview) -> int:
    """Reads some bytes, as they come; 0 at the end."""
    for name in ("readinto1", "readinto"):
        read_into = getattr(file, name, None)
        if read_into:
            read = read_into(view)
            if read is None:
                raise BlockingIOError("the file doesn't wait for its bytes: set it to blocking")
            return int(read)
    piece = file.read(len(view))
    view[: len(piece)] = piece
    return len(piece)
