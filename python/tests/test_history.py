"""Runs of histories: lines, pieces, every kind of file."""

from __future__ import annotations

import gzip
import io
import os
import random
import tempfile
import threading
import unittest
from pathlib import Path
from unittest import mock

import huwekapo
from huwekapo import Figures, Heap, History, Refused, Run, Stopped, examples, in_use

from huwekapo.library import REPORT_BLOCKS
from huwekapo.record import RECORD

from .records import COLLECT, allocate, allocate_data, clear, copy, read, record, write, write_number

THREE = allocate(2, 0) + allocate(1, 1) + allocate(3, 2)


def line(history: bytes) -> str:
    return huwekapo.run(history, may_stop=True).line()


class Lines(unittest.TestCase):
    def test_document_02(self) -> None:
        self.assertEqual(line(b""), "0 0 0 0 0 0\n")
        self.assertEqual(line(THREE), "3 6 3 0 6 0\n")

    def test_figures(self) -> None:
        cycle = allocate(2, 0) + write(0, 0, 0) + clear(0) + COLLECT + allocate(4, 0)
        run = huwekapo.run(io.BytesIO(cycle))
        self.assertEqual((run.number, run.records, run.stopped), (0, 5, False))
        self.assertEqual(run.figures, Figures(allocations=2, blocks=6, largest=4, collections=1, peak=4, stuck=0))
        # At width 1 every object is born stuck; one more reference is no moment.
        run = huwekapo.run(io.BytesIO(cycle), 8, 1)
        self.assertEqual(run.figures, Figures(allocations=2, blocks=6, largest=4, collections=1, peak=4, stuck=2))

    def test_data(self) -> None:
        # 2 blocks of data in root 0, a number in its last cell, an object in root 1 that names it; both count as allocations.
        start = allocate_data(2, 0) + write_number(2**32 - 1, 7, 0) + allocate(1, 1) + write(0, 0, 1)
        heap = Heap(8, 1, 4)
        run = heap.run_records(Run(), start)
        # Each is born stuck at width 1; a number makes nothing stuck.
        self.assertEqual((run.line(), heap.read_number(0, 7), heap.cells[8]), ("2 3 2 0 3 2\n", 2**32 - 1, 1))
        for record_, number in [(read(0, 0, 2), 12), (write(1, 0, 0), 12), (write_number(0, 0, 1), 12), (read(8, 0, 2), 7), (read(0, 1, 2), 0)]:
            self.assertEqual(huwekapo.run(start + record_, 8, 2, 4, may_stop=True).number, number)
        # 7 forces a collection as 1 does: the data that is stuck and let go of makes room.
        again = allocate_data(8, 0) + clear(0) + allocate_data(8, 1)
        self.assertEqual(huwekapo.run(again, 8, 1, 4).line(), "2 16 8 1 8 2\n")
        self.assertEqual(huwekapo.run(allocate_data(8, 0) + allocate_data(1, 1), 8, 1, 4, may_stop=True).figures.collections, 1)

    def test_with_a_collection_open(self) -> None:
        heap = Heap(8, 2, 4)
        run = heap.run_records(Run(), allocate(5, 0))
        heap.open_collection()
        run = heap.run_records(run, copy(0, 1) + write(1, 3, 0) + read(3, 0, 2) + clear(1))
        self.assertEqual(run.line(), "1 5 5 0 5 1\n")
        before = heap.copy()
        # A full one is refused, also where an allocation would force it: then it is not counted.
        for record_, line_ in [(COLLECT, "refused 14 at record 5\n"), (allocate(8, 0), "refused 5 at record 5\n")]:
            stopped = heap.run_records(run, record_)
            self.assertEqual((stopped.line(), stopped.figures), (line_, run.figures))
            self.assertTrue(heap == before and heap.is_open)
        self.assertEqual(heap.run_records(run, COLLECT).stop_in_words(), "a full collection while one in small steps is open")
        self.assertEqual(heap.step_collection(9), (1, 0))
        run = heap.run_records(run, COLLECT + clear(0) + clear(2) + allocate(8, 1))
        self.assertEqual(run.line(), "2 13 8 2 8 1\n")

    def test_stops(self) -> None:
        for number, history in [
            (3, allocate(0, 99)),
            (3, allocate(REPORT_BLOCKS + 1, 0)),
            (3, allocate(REPORT_BLOCKS + 65536, 0)),
            (3, allocate(2**32 - 1, 0)),
            (4, copy(64, 0)),
            (4, write(0, 0, 64)),
            (6, read(0, 1, 2)),
            (6, write(0, 0, 1)),
            (7, write(0, 8, 0)),
            (7, write(0, 65536, 0)),
            (7, write(0, 2**32 - 1, 0)),
            (3, allocate_data(0, 99)),
            (4, write_number(1, 0, 64)),
            (6, write_number(1, 0, 1)),
            (7, write_number(1, 8, 0)),
            (12, write_number(1, 7, 0)),
            (9, record(9)),
            (9, record(8, s=1)),
            (9, record(7, size=1, c=1)),
            (9, record(5, unused=1)),
            (9, record(5, c=65536)),
            (9, record(5, size=2**24)),
            (10, b"\x05"),
            (10, 11 * b"\x05"),
        ]:
            with self.subTest(number=number, history=history.hex()):
                history = allocate(2, 0) + history + THREE * (number != 10)
                run = huwekapo.run(history, may_stop=True)
                self.assertEqual((run.number, run.records, run.line()), (number, 1, f"refused {number} at record 1\n"))
                self.assertTrue(run.stopped and run.stop_in_words())
                self.assertEqual(run.figures.allocations, 1)
                self.assertEqual(run.stop() + "\n", run.line())
                # Unless it is asked not to, it raises.
                with self.assertRaises(Stopped) as caught:
                    huwekapo.run(history)
                self.assertEqual((caught.exception.run, caught.exception.name), (run, "bytes"))
                self.assertEqual(str(caught.exception), f"bytes: {run.stop()}: {run.stop_in_words()}")
                with self.assertRaises(Stopped):
                    History(history).run(Heap())
        self.assertEqual(huwekapo.run(THREE).stop(), "")

    def test_forced_collection(self) -> None:
        half = REPORT_BLOCKS // 2
        full = allocate(half, 0) + write(0, 0, 0) + allocate(half, 1)
        run = huwekapo.run(io.BytesIO(full + clear(0) + allocate(half, 2)))
        self.assertEqual((run.number, run.figures.collections), (0, 1))
        run = huwekapo.run(full + allocate(1, 2), may_stop=True)
        self.assertEqual((run.number, run.records, run.figures.collections), (5, 3, 1))

    def test_other_heaps(self) -> None:
        self.assertEqual(huwekapo.run(io.BytesIO(THREE), 8, 2, 3).figures.peak, 6)
        self.assertEqual(huwekapo.run(THREE, 8, 2, 2, may_stop=True).line(), "refused 4 at record 2\n")
        with self.assertRaises(Refused):
            huwekapo.run(io.BytesIO(THREE), 9)


class Runs(unittest.TestCase):
    """The call itself."""

    def test_limit(self) -> None:
        heap = Heap(8, 2, 4)
        run = heap.run_records(Run(records=4_294_967_294), clear(0))
        self.assertEqual((run.number, run.records), (0, 4_294_967_295))
        self.assertEqual(heap.run_records(run, b""), run)
        after = heap.run_records(run, clear(0))
        self.assertEqual((after.number, after.records), (10, 4_294_967_295))

    def test_stopped_run(self) -> None:
        heap = Heap(8, 2, 4)
        run = heap.run_records(Run(), record(9))
        self.assertEqual(heap.run_records(run, THREE), run)
        self.assertEqual(heap.free_blocks(), 8)

    def test_out_of_range(self) -> None:
        heap = Heap(8, 2, 4)
        for run in [Run(records=4_294_967_296), Run(figures=Figures(allocations=1))]:
            with self.subTest(run=run), self.assertRaises(Refused) as caught:
                heap.run_records(run, b"")
            self.assertEqual((caught.exception.number, caught.exception.name), (19, "BAD_RUN"))
        with self.assertRaises(OverflowError):
            heap.run_records(Run(records=2**64), b"")

    def test_pieces(self) -> None:
        history = examples.example("caches", 3000, 7) + b"\x01\x02\x03"
        whole = Heap(1024, 2, 64)
        expected = whole.run_records(Run(), history)
        self.assertEqual(expected.number, 10)
        pieces = Heap(1024, 2, 64)
        dice, run, at = random.Random(1), Run(), 0
        while at < len(history):
            length = RECORD * dice.randrange(200)
            run = pieces.run_records(run, history[at : at + length])
            at += length
        self.assertEqual(run, expected)
        self.assertEqual(list(pieces.cells), list(whole.cells))


class Slow(io.RawIOBase):
    """A file that gives so many bytes at a time."""

    def __init__(self, content: bytes, length: int) -> None:
        self._file, self._length = io.BytesIO(content), length

    def readable(self) -> bool:
        return True

    def readinto(self, buffer) -> int:  # type: ignore[no-untyped-def,override]
        piece = self._file.read(min(self._length, len(buffer)))
        buffer[: len(piece)] = piece
        return len(piece)


class OnlyRead:
    """A file that has no more than `read`."""

    def __init__(self, content: bytes) -> None:
        self._file = io.BytesIO(content)

    def read(self, length: int) -> bytes:
        return self._file.read(min(length, 1001))


class Files(unittest.TestCase):
    def setUp(self) -> None:
        self.history = examples.example("lists", 300_000, 3)
        self.line = line(self.history)
        self.folder = tempfile.TemporaryDirectory()
        self.addCleanup(self.folder.cleanup)
        self.path = Path(self.folder.name) / "some.history"
        self.path.write_bytes(self.history)

    def test_kinds_of_files(self) -> None:
        self.assertGreater(len(self.history), 2 << 20)
        with gzip.open(self.path.with_suffix(".gz"), "wb") as file:
            file.write(self.history)
        with open(self.path, "rb") as open_file, gzip.open(self.path.with_suffix(".gz")) as packed:
            read = [open_file, packed, Slow(self.history, 65535), OnlyRead(self.history)]
            given = [self.history, bytearray(self.history), memoryview(self.history)]
            for source in [self.path, str(self.path), *read, *given]:
                with self.subTest(source=type(source)):
                    self.assertEqual(huwekapo.run(source).line(), self.line)  # type: ignore[arg-type]

    def test_small_pieces(self) -> None:
        history = self.history[: RECORD * 500]
        for cut, end in [(0, b""), (1, b"\x00"), (11, b"12345678901")]:
            expected = line(history + end)
            # Bytes that come slowly are held back for a while; without that, each is run as soon as it makes a record.
            for length, patience in [(length, patience) for length in (1, 3, 11, 12, 13) for patience in (0, 0.1)]:
                with self.subTest(cut=cut, length=length, patience=patience), mock.patch("huwekapo.history._PATIENCE", patience):
                    told: list[int] = []
                    run = huwekapo.run(Slow(history + end, length), progress=told.append, may_stop=True)  # type: ignore[arg-type]
                    self.assertEqual(run.line(), expected)
                    self.assertEqual(len(told) > 400, patience == 0)

    def test_pipe(self) -> None:
        reading, writing = os.pipe()

        def fill() -> None:
            with open(writing, "wb", buffering=0) as file:
                file.write(self.history)

        writer = threading.Thread(target=fill)
        writer.start()
        with open(reading, "rb") as file:
            history = History(file)
            self.assertIsNone(history.size())
            self.assertEqual(huwekapo.run(history).line(), self.line)
            with self.assertRaises(OSError):
                huwekapo.run(history)
        writer.join()

    def test_run_again(self) -> None:
        for history in [History(self.path), History(io.BytesIO(self.history)), History(self.history)]:
            self.assertEqual(history.size(), len(self.history))
            self.assertEqual([huwekapo.run(history).line() for _ in range(2)], 2 * [self.line])
        # From where the file stood.
        file = io.BytesIO(b"12345678" + THREE)
        file.seek(8)
        history = History(file)
        self.assertEqual(history.size(), len(THREE))
        self.assertEqual([huwekapo.run(history).figures.peak for _ in range(2)], [6, 6])

    def test_steps(self) -> None:
        heap = Heap()
        runs = list(History(io.BytesIO(self.history[: RECORD * 1000] + b"\x01")).runs(heap, step=300))
        self.assertEqual([run.records for run in runs], [300, 600, 900, 1000])
        self.assertEqual([run.number for run in runs], [0, 0, 0, 10])
        self.assertEqual([run.records for run in History(io.BytesIO(b"")).runs(heap, step=300)], [0])
        with self.assertRaises(ValueError):
            list(History(io.BytesIO(b"")).runs(heap, step=0))
        # A huge one takes no more memory; one that is no part of a piece is one step all the same.
        for step, records in [(10**30, [300_000]), (140_000, [140_000, 280_000, 300_000]), (100_000, [100_000, 200_000, 300_000])]:
            runs = list(History(self.history).runs(Heap(), step=step))
            self.assertEqual([run.records for run in runs], records)
            self.assertEqual(runs[-1], huwekapo.run(self.history))

    def test_highest_of_each_step(self) -> None:
        history = self.history[: RECORD * 2000]
        heap, run, used = Heap(1024, 2, 64), Run(), []
        for at in range(0, len(history), RECORD):
            run = heap.run_records(run, history[at : at + RECORD])
            used.append(in_use(heap))
        for step in [1, 7, 300, 2000, 5000]:
            steps = list(History(history).steps(Heap(1024, 2, 64), step))
            self.assertEqual([highest for _, highest in steps], [max(used[at : at + step]) for at in range(0, 2000, step)])
            self.assertEqual(steps[-1][0], run)
            self.assertEqual([one.figures.peak for one, _ in steps], [max(used[: one.records]) for one, _ in steps])

    def test_progress(self) -> None:
        told: list[int] = []
        huwekapo.run(self.path, progress=told.append)
        self.assertEqual(told[-1], len(self.history))
        self.assertEqual(told, sorted(told))
        self.assertGreater(len(told), 1)

    def test_missing_file(self) -> None:
        with self.assertRaises(FileNotFoundError):
            huwekapo.run(self.path.with_name("nowhere"))


if __name__ == "__main__":
    unittest.main()
