"""Pictures: what is sampled, and what is drawn, by the picture's own numbers."""

from __future__ import annotations

import io
import sys
import tempfile
import unittest
from pathlib import Path
from typing import Any, Optional
from unittest import mock

import huwekapo
from huwekapo import examples
from huwekapo.measures import GARBAGE_WORDS
from huwekapo.plot import BREADTHS, MatplotlibMissing, course, draw, kind, plot
from huwekapo.record import RECORD

from .records import COLLECT, allocate, allocate_data, clear, copy, write, write_number

try:
    import matplotlib
except ImportError:
    matplotlib = None  # type: ignore[assignment]

#: Three objects of 2, 1 and 4 blocks; the first sticks at width 2, the second names itself; both are let go.
STUCK = allocate(2, 0) + copy(0, 1) + copy(0, 2) + clear(0) + clear(1) + clear(2)
CYCLE = allocate(1, 0) + write(0, 0, 0) + clear(0)
HISTORY = STUCK + CYCLE + allocate(4, 0)


class Courses(unittest.TestCase):
    def test_samples(self) -> None:
        history = examples.example("calls", 30_000)
        one = course(io.BytesIO(history), 1024, 1, 64, step=1000)
        self.assertEqual([sample.records for sample in one.samples], list(range(0, 30_001, 1000)))
        expected = huwekapo.run(history, 1024, 1)
        self.assertEqual(one.run, expected)
        self.assertEqual(sum(sample.collections for sample in one.samples), expected.figures.collections)
        self.assertGreater(expected.figures.collections, 5)
        for sample in one.samples:
            self.assertTrue(sample.garbage.blocks <= sample.in_use <= sample.highest <= expected.figures.peak)
        self.assertGreater(max(sample.garbage.stuck.blocks for sample in one.samples), 500)
        # The peak is in one of the steps, though it is at the end of none.
        self.assertEqual(max(sample.highest for sample in one.samples), expected.figures.peak)
        self.assertLess(max(sample.in_use for sample in one.samples), expected.figures.peak)
        # A step of its own: some 400 samples.
        self.assertEqual(len(course(history, 1024, 1, 64).samples), 401)
        self.assertEqual([sample.records for sample in course(b"", 8, 1, 1).samples], [0])

    def test_data(self) -> None:
        # At width 1: data of 4 blocks, an object, the data let go, which is stuck; then data of 2 blocks. Numbers lead nowhere.
        history = allocate_data(4, 0) + write_number(5, 0, 0) + allocate(1, 1) + clear(0) + clear(1) + allocate_data(2, 2)
        samples = course(history, 16, 1, 4, step=1).samples
        self.assertEqual([sample.data for sample in samples], [0, 4, 4, 4, 0, 0, 2])
        self.assertEqual([sample.in_use for sample in samples], [0, 4, 4, 5, 5, 5, 7])
        self.assertEqual([sample.garbage.stuck.blocks for sample in samples], [0, 0, 0, 0, 4, 5, 5])
        self.assertEqual({sample.data for sample in course(HISTORY, 16, 1, 4, step=1).samples}, {0})

    def test_a_run_that_stops_early(self) -> None:
        # The step is a share of the run, and not of the file.
        history = examples.example("leak", 100_000)
        one = course(history, 128, 3, 64)
        self.assertEqual(one.run.number, 5)
        self.assertLess(one.run.records, 20_000)
        self.assertTrue(380 <= len(one.samples) <= 402, len(one.samples))
        self.assertEqual(one.samples[-1].records, one.run.records)
        one = course(allocate(4, 0) + allocate(8, 1) + 100_000 * clear(0), 8, 3, 64)
        self.assertEqual([(sample.records, sample.highest) for sample in one.samples], [(0, 0), (1, 4), (1, 0)])
        self.assertEqual(one.run.stop(), "refused 5 at record 1")


@unittest.skipIf(matplotlib is None, "matplotlib can't be imported")
class Pictures(unittest.TestCase):
    def drawn(self, history: bytes, blocks: int, widths: list[int], title: Optional[str] = "a title", **named: Any) -> Any:
        step = named.pop("step", 1)
        figure = draw([course(history, blocks, width, 4 if blocks < 64 else 64, step) for width in widths], blocks, title, **named)
        self.addCleanup(matplotlib.pyplot.close, figure)
        figure.canvas.draw()
        return figure

    def legend(self, figure: Any) -> list[str]:
        return [text.get_text() for legend in figure.legends for text in legend.get_texts()]

    def bands(self, panel: Any) -> dict[str, list[float]]:
        """The height of each band in the middle of each step, read off its outline."""
        found = {}
        for band in panel.collections:
            (path,) = band.get_paths()
            heights = []
            for at in range(int(panel.get_xlim()[1])):
                inside = [y / 20 for y in range(20 * 16) if path.contains_point((at + 0.5, y / 20 + 0.01))]
                heights.append(round(len(inside) / 20))
            found[band.get_label()] = heights
        return found

    def test_bands(self) -> None:
        # After each record, at width 2: what is reached, held by stuck counts, held by a cycle.
        (panel,) = self.drawn(HISTORY, 16, [2]).axes
        self.assertEqual(
            self.bands(panel),
            {
                "reached by a root": [2, 2, 2, 2, 2, 0, 1, 1, 0, 4],
                GARBAGE_WORDS["stuck"]: [0, 0, 0, 0, 0, 2, 2, 2, 2, 2],
                GARBAGE_WORDS["cycles"]: [0, 0, 0, 0, 0, 0, 0, 0, 1, 1],
            },
        )
        # At width 1 the object that names itself is stuck too: held by both.
        (panel,) = self.drawn(HISTORY, 16, [1]).axes
        found = self.bands(panel)
        self.assertEqual(found[GARBAGE_WORDS["both"]], [0, 0, 0, 0, 0, 0, 0, 0, 1, 1])
        self.assertNotIn(GARBAGE_WORDS["cycles"], found)

    def test_a_band_of_data(self) -> None:
        (panel,) = self.drawn(allocate_data(4, 0) + allocate(1, 1) + clear(0) + clear(1), 16, [1]).axes
        self.assertEqual(
            self.bands(panel),
            {"data reached by a root": [4, 4, 0, 0], "reached by a root": [0, 1, 1, 0], GARBAGE_WORDS["stuck"]: [0, 0, 4, 5]},
        )

    def test_steps_and_peaks(self) -> None:
        # Five records a step: the line has the most in use in each, flat, though less is in use at its end.
        history = allocate(8, 0) + clear(0) + 3 * clear(1) + allocate(2, 0) + 4 * clear(1)
        figure = self.drawn(history, 16, [3], step=5)
        (panel,) = figure.axes
        (line,) = [line for line in panel.lines if line.get_label() == "most in use in each step"]
        self.assertEqual((line.get_drawstyle(), list(line.get_xdata()), list(line.get_ydata())), ("steps-pre", [0, 5, 10], [8, 8, 2]))
        self.assertEqual(self.bands(panel)["reached by a root"], [0, 0, 0, 0, 0, 2, 2, 2, 2, 2])

    def test_axes_and_ticks(self) -> None:
        for blocks, history in [(8, allocate(1, 0) + allocate(1, 1) + clear(0)), (8192, examples.example("caches", 2000)), (8, b"")]:
            for columns in (1, 2):
                figure = self.drawn(history, blocks, [1, 2], columns=columns)
                for panel in figure.axes:
                    # Up to the number of blocks, whatever is in use.
                    self.assertEqual(tuple(panel.get_ylim()), (0, blocks))
                    self.assertEqual(tuple(panel.get_xlim()), (0, max(1, len(history) // RECORD)))
                    for axis in (panel.xaxis, panel.yaxis):
                        for at, text in zip(axis.get_ticklocs(), axis.get_ticklabels()):
                            # A tick says where it is.
                            self.assertEqual(text.get_text() or f"{at:,.0f}", f"{at:,.0f}")
                            self.assertEqual(at, int(at))
                self.assertEqual(figure.get_size_inches()[0], BREADTHS[columns])
                self.assertEqual([int(at) for at in figure.axes[0].yaxis.get_ticklocs()], [blocks * k // 4 for k in range(5)])

    def test_legend_names_what_is_there(self) -> None:
        line = "most in use in each step"
        self.assertEqual(self.legend(self.drawn(allocate(1, 0), 16, [3])), ["reached by a root", line])
        every = self.legend(self.drawn(HISTORY + COLLECT + b"1", 16, [1, 2]))
        self.assertEqual(sorted(every), sorted(["reached by a root", *GARBAGE_WORDS.values(), line, "step with a full collection", "the run stopped"]))
        self.assertEqual(self.legend(self.drawn(b"", 16, [1])), [])

    def test_stopped_and_empty(self) -> None:
        stopped = self.drawn(HISTORY + b"1", 16, [2], columns=1)
        self.assertIn("STOPPED, refused 10 at record 10", stopped.axes[0].get_title(loc="left"))
        self.assertNotIn("most blocks in use", stopped.axes[0].get_title(loc="left"))
        (mark,) = [line for line in stopped.axes[0].lines if line.get_label() == "the run stopped"]
        self.assertEqual(list(mark.get_xdata()), [10, 10])
        empty = self.drawn(b"", 16, [2])
        self.assertEqual([text.get_text() for text in empty.axes[0].texts], ["an empty history: no record was run"])
        at_once = self.drawn(b"\xff" * RECORD, 16, [2])
        self.assertEqual([text.get_text() for text in at_once.axes[0].texts], ["no record was run: refused 9 at record 0"])

    def test_titles(self) -> None:
        for title in ["a$b$c", "one $", r"\alpha_1^2", "a\udcffb"]:
            figure = self.drawn(allocate(1, 0), 16, [3], title)
            # A text that is no formula is drawn as it stands.
            due = title.replace("\udcff", "\\xff").replace("$", r"\$")
            self.assertEqual(figure._suptitle.get_text(), due)
            self.assertFalse(figure._suptitle._preprocess_math(due)[1])
        self.assertIsNone(self.drawn(allocate(1, 0), 16, [3], None)._suptitle)

    def test_nothing_overlaps(self) -> None:
        # Titles, legend and axes keep clear of each other and inside the picture.
        for columns in (1, 2):
            # The first axis ends in a long number.
            for widths, history in ([1], HISTORY + 9_999_990 * clear(0)), ([1, 2, 3, 4], HISTORY + COLLECT + b"1"):
                figure = self.drawn(history, 16, widths, columns=columns, step=1 + len(history) // (10 * RECORD))
                boxes = [figure._suptitle.get_window_extent(), *(legend.get_window_extent() for legend in figure.legends)]
                boxes += [panel.get_tightbbox() for panel in figure.axes]
                for k, box in enumerate(boxes):
                    self.assertTrue(box.x0 >= 0 and box.y0 >= 0, (columns, widths, k, box))
                    self.assertTrue(box.x1 <= figure.bbox.x1 and box.y1 <= figure.bbox.y1, (columns, widths, k, box))
                    for other in boxes[k + 1 :]:
                        self.assertFalse(box.overlaps(other), (columns, widths, k, box, other))

    def test_files(self) -> None:
        history = examples.example("caches", 5000)
        courses = [course(history, 1024, width, 64) for width in (1, 2)]
        with tempfile.TemporaryDirectory() as folder:
            paths = [Path(folder) / name for name in ("one.svg", "two.svg", "one.png", "two.PNG", "one.pdf", "two.pdf")]
            for path in paths:
                plot(courses, 1024, "a title", path)
            drawn = paths[0].read_text()
            for words in ["a title", "records", "blocks", "1,024", "width 1: ", "width 2: ", "full collection", *GARBAGE_WORDS.values()]:
                self.assertEqual(words in drawn, words not in (GARBAGE_WORDS["cycles"], GARBAGE_WORDS["both"]), words)
            # The same courses give the same file.
            for one, two in zip(paths[::2], paths[1::2]):
                self.assertEqual(one.read_bytes(), two.read_bytes())
            self.assertEqual(paths[2].read_bytes()[:4], b"\x89PNG")
            self.assertEqual(matplotlib.pyplot.imread(paths[2]).shape[1], int(300 * BREADTHS[2]))
            pdf = paths[4].read_bytes()
            self.assertEqual(pdf[:4], b"%PDF")
            # Fonts that journals take: TrueType, and none of Type 3.
            self.assertIn(b"/FontFile2", pdf)
            self.assertNotIn(b"/Type3", pdf)
            self.assertEqual(len(list(Path(folder).iterdir())), len(paths))

    def test_kinds(self) -> None:
        self.assertEqual([kind(path) for path in ("a.svg", "b.x.PDF", Path("c.png"))], ["svg", "pdf", "png"])
        for path in ("a.xyz", "a", "svg", ".svg", "a.svg.gz"):
            with self.assertRaises(ValueError):
                kind(path)


class Missing(unittest.TestCase):
    def test_without_matplotlib(self) -> None:
        with mock.patch.dict(sys.modules, {"matplotlib": None}), tempfile.TemporaryDirectory() as folder:
            with self.assertRaises(MatplotlibMissing) as caught:
                plot([course(HISTORY, 16, 2, 4)], 16, None, Path(folder) / "one.svg")
        self.assertIn("apt-get install python3-matplotlib", str(caught.exception))
        # The interpreter that lacks it is named.
        self.assertIn(f"which {sys.executable} has not", str(caught.exception))


if __name__ == "__main__":
    unittest.main()
