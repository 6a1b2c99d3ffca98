"""Tables over count widths."""

from __future__ import annotations

import csv
import hashlib
import io
import json
import re
import unittest
from pathlib import Path

import huwekapo
from huwekapo import examples, library
from huwekapo.library import Figures
from huwekapo.measures import COLUMNS, FIGURE_COLUMNS, FIGURE_WORDS, GARBAGE_WORDS, KIND_WORDS, LINE_COLUMNS, summary
from huwekapo.widths import text, widths, write_csv, write_json

from .records import allocate, allocate_data, clear, copy, write, write_number

#: An object that is stuck at width 2 and let go, a pair that names itself, and a third object.
STUCK = allocate(2, 0) + copy(0, 1) + copy(0, 2) + clear(0) + clear(1) + clear(2)
CYCLE = allocate(1, 0) + write(0, 0, 0) + clear(0)
HISTORY = STUCK + CYCLE + allocate(4, 0)
STOP = "refused 10 at record 10"


class Widths(unittest.TestCase):
    def test_rows(self) -> None:
        rows = list(widths(io.BytesIO(HISTORY), [16, 64], [1, 2, 3], 4))
        self.assertEqual([(row.blocks, row.width) for row in rows], [(n, w) for n in (16, 64) for w in (1, 2, 3)])
        held = [tuple(part.blocks for part in row.garbage) for row in rows]
        # At width 1 the object that names itself is stuck too.
        self.assertEqual(held, 2 * [(2, 0, 1), (2, 1, 0), (0, 1, 0)])
        self.assertEqual([row.run.figures.peak for row in rows], 2 * [7, 7, 5])
        self.assertEqual([row.run.figures.stuck for row in rows], 2 * [3, 1, 0])

    def test_text(self) -> None:
        shown = text(widths(io.BytesIO(HISTORY), [16], [1, 2, 3], 4)).splitlines()
        self.assertEqual(shown[1].split()[:4], ["blocks", "width", "collections", "in"])
        rows = [list(map(int, line.split())) for line in shown[2:]]
        self.assertEqual(rows, [[16, 1, 0, 7, 3, 2, 0, 1], [16, 2, 0, 7, 1, 2, 1, 0], [16, 3, 0, 5, 0, 0, 1, 0]])
        # The last column, for where runs stopped, is empty.
        self.assertEqual(shown[1].split()[-1], "stopped")
        stopped = text(widths(io.BytesIO(HISTORY + b"\x09"), [16], [2, 3], 4)).splitlines()
        self.assertEqual(stopped[1].split()[-1], "stopped")
        # A run that stopped has no figures.
        self.assertEqual([line.split(maxsplit=8) for line in stopped[2:]], [["16", w, *(6 * ["-"]), STOP] for w in ("2", "3")])

    def test_data_has_a_column_where_there_is_some(self) -> None:
        self.assertNotIn("data", text(widths(HISTORY, [16], [2, 3], 4)))
        # Data of 2 blocks in root 1, whose number names nothing, beside 4 blocks of objects; then it is let go.
        pixels = HISTORY + allocate_data(2, 1) + write_number(2**32 - 1, 7, 1)
        shown = text(widths(pixels, [16], [3], 4)).splitlines()
        self.assertEqual([shown[0].split()[3:6], shown[1].split()[4:7]], [["stuck", "blocks", "of"], ["use", "moments", "data"]])
        self.assertEqual(list(map(int, shown[2].split())), [16, 3, 0, 7, 0, 2, 0, 1, 0])
        (row,) = widths(pixels, [16], [3], 4)
        self.assertEqual((row.columns()["object_blocks"], row.columns()["data_blocks"]), (5, 2))
        (row,) = widths(pixels + clear(1), [16], [3], 4)
        self.assertEqual((row.columns()["object_blocks"], row.columns()["data_blocks"]), (5, 0))

    def test_csv(self) -> None:
        out = io.StringIO()
        write_csv(widths(HISTORY, [16], [2], 4), out)
        (row,) = csv.DictReader(io.StringIO(out.getvalue()))
        self.assertEqual(list(row), COLUMNS)
        expected = {
            "heap_blocks": "16",
            "count_width": "2",
            "roots": "4",
            "stopped": "",
            "number": "0",
            "records": "10",
            "allocations": "3",
            "blocks_allocated": "7",
            "largest_size": "4",
            "collections": "0",
            "peak": "7",
            "stuck_moments": "1",
            "object_blocks": "7",
            "data_blocks": "0",
            "garbage_stuck_alone": "2",
            "garbage_cycles_alone": "1",
            "garbage_both": "0",
            "library": library.build(),
        }
        self.assertEqual(row, expected)
        self.assertRegex(row["library"], rf"^{re.escape(huwekapo.__version__)}\+[0-9a-f]{{16}}$")
        digest = hashlib.sha256(Path(library.path()).read_bytes()).hexdigest()
        self.assertEqual(row["library"].partition("+")[2], digest[:16])

    def test_stopped_runs_have_no_figures(self) -> None:
        out = io.StringIO()
        write_csv(widths(HISTORY + b"123", [16], [2], 4), out)
        (row,) = csv.DictReader(io.StringIO(out.getvalue()))
        self.assertEqual((row["stopped"], row["number"], row["records"]), (STOP, "10", "10"))
        self.assertEqual({row[name] for name in FIGURE_COLUMNS}, {""})

    def test_json(self) -> None:
        out = io.StringIO()
        write_json([*widths(HISTORY, [16], [2], 4), *widths(HISTORY + b"123", [16], [3], 4)], out)
        ended, stopped = json.loads(out.getvalue())
        self.assertEqual(list(ended), COLUMNS)
        self.assertEqual((ended["garbage_stuck_alone"], ended["garbage_cycles_alone"], ended["garbage_both"]), (2, 1, 0))
        self.assertEqual((ended["stopped"], stopped["stopped"], stopped["peak"], stopped["count_width"]), ("", STOP, None, 3))

    def test_summary(self) -> None:
        self.assertEqual(summary([("a", 0)]), ["1 run ended, 0 stopped"])
        lines = summary([("b", 5), ("a", 0), ("c", 10), ("b", 5), ("a", 5)])
        self.assertEqual(
            lines,
            [
                "1 run ended, 4 stopped",
                "  3 refused 5 (no chunk is free, not after a full collection either): a, b",
                "  1 refused 10 (the file ends inside a record, or goes on past 4,294,967,295 records): c",
            ],
        )

    def test_every_figure_has_words(self) -> None:
        self.assertEqual(list(Figures._fields), list(FIGURE_WORDS))
        self.assertEqual(list(huwekapo.Garbage._fields), list(GARBAGE_WORDS))
        self.assertEqual(list(huwekapo.Kinds._fields), list(KIND_WORDS))
        self.assertEqual(len(LINE_COLUMNS), len(FIGURE_WORDS))
        self.assertEqual(len(FIGURE_COLUMNS), len(FIGURE_WORDS) + len(KIND_WORDS) + len(GARBAGE_WORDS))


if __name__ == "__main__":
    unittest.main()
