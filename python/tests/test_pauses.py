"""Pauses: where they are measured, and what is said of them. Times are not held to anything."""

from __future__ import annotations

import csv
import os
import subprocess
import sys
import tempfile
import unittest
from pathlib import Path
from typing import List, Tuple

import huwekapo
from huwekapo import Heap, History, examples
from huwekapo.pauses import COLUMNS, Moment, by_way, draw, pauses, text
from huwekapo.unreached import reached

from .records import COLLECT, allocate, clear, write

try:
    import matplotlib
except ImportError:
    matplotlib = None  # type: ignore[assignment]

PYTHON = Path(__file__).resolve().parent.parent


class Measured(unittest.TestCase):
    def at(self, history: bytes, blocks: int, width: int, moment: Moment) -> Heap:
        heap = Heap(blocks, width, 64)
        History(history).run_to(heap, moment.record) if moment.record else None
        return heap

    def test_before_each_collection(self) -> None:
        history = examples.example("caches", 20_000)
        found = pauses(history, 1024, 1, 64, [1, 7, 10**6], most=100)
        run = huwekapo.run(history, 1024, 1)
        self.assertEqual((found.run, found.collects, len(found.moments)), (run, True, run.figures.collections))
        self.assertGreater(len(found.moments), 3)
        for number, moment in enumerate(found.moments):
            # The record is the one that collects, and no other since the collection before.
            heap = self.at(history, 1024, 1, moment)
            before = huwekapo.History(history).run_to(Heap(1024, 1, 64), moment.record)
            after = huwekapo.History(history).run_to(Heap(1024, 1, 64), moment.record + 1)
            self.assertEqual((before.figures.collections, after.figures.collections), (number, number + 1))
            objects = len(reached(heap))
            self.assertEqual([pause.budget for pause in moment.pauses], [0, 1, 7, 10**6])
            self.assertEqual(moment.reached, objects)
            self.assertTrue(all(pause.steps == objects for pause in moment.pauses))
            at_once, one, seven, all_of_it = moment.pauses
            self.assertEqual((at_once.calls, one.most_steps, seven.most_steps, all_of_it.most_steps), (1, 1, 7, objects))
            self.assertTrue(objects <= one.calls <= objects + 1 and -(-objects // 7) <= seven.calls <= objects // 7 + 1)
            self.assertEqual(all_of_it.calls, 1)
            self.assertTrue(all(0 < pause.longest <= pause.whole for pause in moment.pauses) and moment.check > 0 and moment.open_check > 0)

    def test_spread(self) -> None:
        history = examples.example("caches", 20_000)
        every = [moment.record for moment in pauses(history, 1024, 1, 64, [10], most=100).moments]
        some = [moment.record for moment in pauses(history, 1024, 1, 64, [10], most=2).moments]
        self.assertEqual(len(some), 2)
        self.assertTrue(set(some) <= set(every) and some[0] == every[0])
        # A run that never collects.
        found = pauses(history, 4096, 4, 64, [10])
        self.assertEqual((found.collects, [moment.record for moment in found.moments]), (False, list(range(0, 20_000, 2000))))
        for moment in found.moments:
            self.assertEqual(moment.reached, len(reached(self.at(history, 4096, 4, moment))))

    def test_recorded_and_short_ones(self) -> None:
        cycle = allocate(2, 0) + write(0, 0, 0) + clear(0) + allocate(1, 1) + COLLECT
        found = pauses(3 * cycle, 8, 2, 4, [1])
        self.assertEqual([moment.record for moment in found.moments], [4, 9, 14])
        self.assertEqual([moment.reached for moment in found.moments], [1, 1, 1])
        self.assertEqual(pauses(b"", 8, 2, 4, [1]).moments, [])
        self.assertEqual(text(pauses(b"", 8, 2, 4, [1])), "there is no record, and so no moment\n")
        stopped = pauses(cycle + allocate(9, 0), 8, 2, 4, [1])
        self.assertEqual((stopped.run.number, len(stopped.moments)), (3, 1))

    def test_words(self) -> None:
        found = pauses(examples.example("caches", 20_000), 1024, 1, 64, [1, 10])
        shown = text(found).splitlines()
        self.assertRegex(shown[0], rf"^{len(found.moments)} of its collections: ")
        self.assertEqual(list(by_way(found)), [0, 1, 10])
        self.assertEqual([line.split("  ")[1] for line in shown[4:]], ["at once", "1 step a call", "10 steps a call"])

    @unittest.skipIf(matplotlib is None, "matplotlib can't be imported")
    def test_picture(self) -> None:
        found = pauses(examples.example("caches", 20_000), 1024, 1, 64, [1, 10])
        for columns in [1, 2]:
            figure = draw(found, "a title", columns)
            self.addCleanup(matplotlib.pyplot.close, figure)
            figure.canvas.draw()
            for panel in figure.axes:
                self.assertEqual(len(panel.patches), 3)
                self.assertEqual([label.get_text() for label in panel.get_xticklabels()], ["at once", "1", "10"])


class Commands(unittest.TestCase):
    def setUp(self) -> None:
        folder = tempfile.TemporaryDirectory()
        self.addCleanup(folder.cleanup)
        self.folder = Path(folder.name)
        self.history = self.folder / "caches.history"
        self.history.write_bytes(examples.example("caches", 10_000))

    def start(self, *words: object, status: int = 0, given: bytes = b"") -> Tuple[str, str]:
        environment = {**os.environ, "PYTHONPATH": str(PYTHON)}
        command = [sys.executable, "-m", "huwekapo", *map(str, words)]
        done = subprocess.run(command, env=environment, input=given, capture_output=True, check=False)
        self.assertEqual(done.returncode, status, done.stderr)
        return done.stdout.decode(), done.stderr.decode()

    def rows(self, *words: object, given: bytes = b"") -> List[List[str]]:
        return list(csv.reader(self.start("pauses", *words, "--csv", given=given)[0].splitlines()))

    def test_pauses(self) -> None:
        small = ["--blocks", 1024, "--width", 1]
        shown, said = self.start("pauses", self.history, *small)
        self.assertIn("100 steps a call", shown)
        self.assertEqual(said, "")
        head, *rows = self.rows(self.history, *small, "--budgets", "2,50", "--moments", 1)
        self.assertEqual((head, [row[4] for row in rows]), (COLUMNS, ["0", "2", "50"]))
        # What is no time is the same from a pipe.
        for row, again in zip(rows, self.rows("-", *small, "--budgets", "2,50", "--moments", 1, given=self.history.read_bytes())[1:]):
            self.assertEqual(row[:2] + row[4:8], again[:2] + again[4:8])
        self.history.write_bytes(self.history.read_bytes() + allocate(0, 0))
        self.assertIn("refused 3 at record 10000", self.start("pauses", self.history, *small, status=3)[1])
        self.assertIn("--budgets: 0: a number from 1 on", self.start("pauses", self.history, "--budgets", "0", status=2)[1])

    @unittest.skipIf(matplotlib is None, "matplotlib can't be imported")
    def test_plot(self) -> None:
        figure = self.folder / "figure.svg"
        self.assertIn("10 steps a call", self.start("plot", "--pauses", self.history, "--blocks", 1024, "-o", figure)[0])
        self.assertIn("longest pause, microseconds", figure.read_text())
        self.assertIn("of one width", self.start("plot", "--pauses", self.history, "--widths", "1,2", "-o", figure, status=2)[1])
        self.history.write_bytes(b"")
        self.assertIn("nothing to draw", self.start("plot", "--pauses", self.history, "-o", figure, status=1)[1])


if __name__ == "__main__":
    unittest.main()
