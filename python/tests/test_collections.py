"""Tables of whole collections: pictured with quartiles, and compared."""

from __future__ import annotations

import csv
import os
import subprocess
import sys
import tempfile
import unittest
from pathlib import Path
from typing import Any, Dict, List, Tuple

import huwekapo
from huwekapo import examples
from huwekapo.collection import MEASURES, Quartiles, draw, groups, text
from huwekapo.compare import compare
from huwekapo.sweep import TABLE_COLUMNS, SweepError, sweep

from .records import allocate

try:
    import matplotlib
except ImportError:
    matplotlib = None  # type: ignore[assignment]

PYTHON = Path(__file__).resolve().parent.parent


class Case(unittest.TestCase):
    def setUp(self) -> None:
        folder = tempfile.TemporaryDirectory()
        self.addCleanup(folder.cleanup)
        self.folder = Path(folder.name)
        self.histories = self.folder / "histories"
        self.histories.mkdir()
        for seed in range(5):
            (self.histories / f"{seed}.history").write_bytes(examples.example("calls", 1000 + 500 * seed, seed))
        # One that stops on the small heap.
        (self.histories / "large.history").write_bytes(allocate(300, 0))
        self.table = self.folder / "table.csv"
        sweep(self.histories, self.table, [1, 2], [256, 1024])

    def start(self, *words: object, status: int = 0) -> Tuple[str, str]:
        environment = {**os.environ, "PYTHONPATH": str(PYTHON)}
        command = [sys.executable, "-m", "huwekapo", *map(str, words)]
        done = subprocess.run(command, env=environment, capture_output=True, text=True, check=False)
        self.assertEqual(done.returncode, status, done.stderr)
        return done.stdout, done.stderr

    def rows(self) -> List[Dict[str, str]]:
        with open(self.table, newline="") as file:
            return list(csv.DictReader(file))

    def changed(self, name: str, rows: List[Dict[str, str]]) -> Path:
        path = self.folder / name
        with open(path, "w", newline="") as file:
            writer = csv.DictWriter(file, TABLE_COLUMNS, lineterminator="\n")
            writer.writeheader()
            writer.writerows(rows)
        return path


class Pictured(Case):
    def test_quartiles(self) -> None:
        # As spreadsheets have them.
        for numbers, due in [
            ([7], (7, 7, 7, 7, 7)),
            ([1, 2], (1, 1.25, 1.5, 1.75, 2)),
            ([3, 1, 2], (1, 1.5, 2, 2.5, 3)),
            ([1, 2, 3, 4], (1, 1.75, 2.5, 3.25, 4)),
            (range(101), (0, 25, 50, 75, 100)),
        ]:
            self.assertEqual(Quartiles.of(list(numbers)), due)

    def test_groups(self) -> None:
        found = groups(self.table)
        self.assertEqual([(group.blocks, group.width, group.rows) for group in found], [(n, w, 6) for n in (256, 1024) for w in (1, 2)])
        self.assertTrue(all(group.stopped >= 1 for group in found if group.blocks == 256))
        for group in found:
            rows = [row for row in self.rows() if (int(row["heap_blocks"]), int(row["count_width"])) == (group.blocks, group.width)]
            ended = [row for row in rows if not row["stopped"]]
            self.assertEqual(group.stopped, len(rows) - len(ended))
            due = {
                "full collections": [int(row["collections"]) for row in ended],
                "most blocks in use": [100 * int(row["peak"]) / group.blocks for row in ended],
                "garbage held by stuck counts alone": [100 * int(row["garbage_stuck_alone"]) / group.blocks for row in ended],
                "moments at which an object became stuck": [100 * int(row["stuck_moments"]) / int(row["allocations"]) for row in ended],
            }
            self.assertEqual(group.numbers, due)
        shown = text(found).splitlines()
        self.assertEqual(len(shown), 3 + len(found))
        last = Quartiles.of(found[-1].numbers["most blocks in use"])
        self.assertIn(f"{last.median:,.1f} ({last.lower:,.1f} to {last.upper:,.1f})", shown[-1])

    @unittest.skipIf(matplotlib is None, "matplotlib can't be imported")
    def test_picture(self) -> None:
        found = groups(self.table)
        for columns in [1, 2]:
            figure = draw(found, "a title", columns)
            self.addCleanup(matplotlib.pyplot.close, figure)
            panels = [panel for panel in figure.axes if panel.get_visible()]
            self.assertEqual([panel.get_title(loc="left") for panel in panels], list(MEASURES))
            for panel, name in zip(panels, MEASURES):
                self.assertEqual([label.get_text() for label in panel.get_xticklabels()], ["width 1", "width 2"])
                boxes = [patch for patch in panel.patches]
                self.assertEqual(len(boxes), sum(bool(group.numbers[name]) for group in found))
                # Each box is as high as the quartiles say.
                drawn = sorted((box.get_path().vertices[:4, 1].min(), box.get_path().vertices[:4, 1].max()) for box in boxes)
                due = sorted((one.lower, one.upper) for one in (Quartiles.of(group.numbers[name]) for group in found if group.numbers[name]))
                for one, other in zip(drawn, due):
                    self.assertAlmostEqual(one[0], other[0])
                    self.assertAlmostEqual(one[1], other[1])
            words = " ".join(part.get_text() for part in figure.texts)
            self.assertIn("6 histories", words)
            self.assertIn(f"{sum(group.stopped for group in found)} runs stopped and are left out", words)

    @unittest.skipIf(matplotlib is None, "matplotlib can't be imported")
    def test_command(self) -> None:
        figure = self.folder / "figure.svg"
        out, said = self.start("plot", self.table, "-o", figure)
        self.assertEqual((out, said), (text(groups(self.table)), ""))
        self.assertIn("table.csv", figure.read_text())
        first = figure.read_bytes()
        self.start("plot", self.table, "-o", figure)
        self.assertEqual(figure.read_bytes(), first)
        self.start("plot", self.table, "-o", figure, "--no-title", "--columns", 1)
        self.assertNotIn("table.csv", figure.read_text())
        other = self.folder / "other.csv"
        other.write_text("a,b\n")
        self.assertIn("is no table of a sweep", self.start("plot", other, "-o", figure, status=1)[1])
        self.assertIn("has no row", self.start("plot", self.changed("none.csv", []), "-o", figure, status=1)[1])


class Compared(Case):
    def test_equal(self) -> None:
        found = compare(self.table, self.table)
        self.assertEqual((found.both, found.differ), (24, False))
        self.assertEqual(self.start("compare", self.table, self.table), ("24 rows are in both tables\nno difference\n", ""))
        # Another library alone is told, and is no difference.
        other = self.changed("other.csv", [{**row, "library": "0.9.9+aa"} for row in self.rows()])
        out, _ = self.start("compare", self.table, other)
        self.assertIn(f"other libraries: {huwekapo.library.build()}, then 0.9.9+aa\n", out)
        self.assertIn("no difference\n", out)

    def test_every_column(self) -> None:
        figures = [name for name in TABLE_COLUMNS if name not in ("history", "sha256", "heap_blocks", "count_width", "roots", "number", "records", "library")]
        for column in figures:
            rows = self.rows()
            row = next(row for row in rows if row["stopped"] == "" and row["heap_blocks"] == "1024")
            before = row[column]
            if column == "stopped":
                row.update({name: "" for name in figures}, stopped="refused 5 at record 7", number="5")
            else:
                row[column] = str(int(before) + 3)
            other = self.changed("other.csv", rows)
            found = compare(self.table, other)
            self.assertTrue(found.differ)
            self.assertEqual({change.column for change in found.changes}, {column} if column != "stopped" else set(figures))
            change = next(change for change in found.changes if change.column == column)
            self.assertEqual((change.first, change.second), (before, row[column]))
            out, _ = self.start("compare", self.table, other, status=1)
            self.assertIn(f"\n{column}: 1 row", out)
            if column != "stopped":
                self.assertIn(", 1 more and 0 less, by +3 in the median", out)

    def test_rows(self) -> None:
        rows = self.rows()
        gone = rows.pop(0)
        new: Dict[str, Any] = {**rows[0], "history": "new.history"}
        rows[-1]["sha256"] = "0" * 64
        other = self.changed("other.csv", rows + [new])
        found = compare(self.table, other)
        self.assertEqual([task.history for task in found.only_first + found.only_second], [gone["history"], "new.history"])
        self.assertEqual((found.other_bytes, found.changes, found.both), ([rows[-1]["history"]], [], 23))
        out, _ = self.start("compare", self.table, other, status=1)
        self.assertIn(f"1 row only in {self.table}: {gone['history']}, 256 blocks, width 1\n", out)
        self.assertIn("1 history has other bytes: large.history\n", out)

    def test_many_changes(self) -> None:
        other = self.changed("other.csv", [{**row, "peak": str(2 * int(row["peak"]))} if row["peak"] else row for row in self.rows()])
        found = compare(self.table, other)
        out, _ = self.start("compare", self.table, other, status=1)
        self.assertEqual(out.count("(+100.0 %)"), min(20, len(found.changes)))
        listed = list(csv.reader(self.start("compare", self.table, other, "--csv", status=1)[0].splitlines()))
        self.assertEqual(listed[0], ["history", "heap_blocks", "count_width", "roots", "column", "first", "second"])
        self.assertEqual(len(listed), 1 + len(found.changes))
        self.assertTrue(all(row[4] == "peak" and int(row[6]) == 2 * int(row[5]) for row in listed[1:]))

    def test_what_is_no_table(self) -> None:
        torn = self.folder / "torn.csv"
        torn.write_bytes(self.table.read_bytes()[:-10])
        with self.assertRaisesRegex(SweepError, "row 24, the last, is not whole"):
            compare(self.table, torn)
        twice = self.changed("twice.csv", self.rows() + self.rows()[:1])
        with self.assertRaisesRegex(SweepError, "has a history twice"):
            compare(twice, self.table)
        self.assertIn("No such file", self.start("compare", self.table, self.folder / "nowhere", status=1)[1])
        self.start("compare", self.table, status=2)


if __name__ == "__main__":
    unittest.main()
