"""A heap to look at: its map as text and as HTML, and the command `show`."""

from __future__ import annotations

import os
import subprocess
import sys
import tempfile
import unittest
from html.parser import HTMLParser
from pathlib import Path
from typing import List, Tuple

import huwekapo
from huwekapo import Heap, examples, show
from huwekapo.record import RECORD

from .records import allocate, clear, copy, write

PYTHON = Path(__file__).resolve().parent.parent
PAPER = allocate(2, 0) + allocate(1, 1) + allocate(3, 2)


def behind(history: bytes, blocks: int = 8, width: int = 2, roots: int = 4) -> Heap:
    heap = Heap(blocks, width, roots)
    huwekapo.History(history).run(heap)
    return heap


class Texts(unittest.TestCase):
    def test_a_small_heap(self) -> None:
        heap = behind(PAPER + write(1, 7, 0))
        due = """\
8 blocks, width 2, 4 roots: 6 in use, 2 free; 3 objects, 0 stuck, 0 that no root reaches
      0  AAB.CCC.

  A  block 0, 2 blocks, count 1; named by root 0
  B  block 2, 1 block, count 2; named by root 1, A.7
  C  block 4, 3 blocks, count 1; named by root 2

free chunks, largest first
  blocks 0 to 7: 2 of 1
"""
        self.assertEqual(show.text(heap), due)
        self.assertEqual(f"{heap}\n", due)
        self.assertEqual(repr(heap), "<Heap of 8 blocks, width 2, 4 roots: 6 blocks in use>")

    def test_an_empty_heap(self) -> None:
        shown = str(Heap(8, 1, 1)).splitlines()
        self.assertEqual(shown[0], "8 blocks, width 1, 1 roots: 0 in use, 8 free; 0 objects, 0 stuck, 0 that no root reaches")
        self.assertEqual(shown[1:], ["      0  ........", "", "free chunks, largest first", "  blocks 0 to 7: 1 of 8"])

    def test_marks(self) -> None:
        # P4: stuck, with all roots cleared. P7: two that name each other. One that is stuck and reached.
        history = allocate(1, 0) + copy(0, 1) + copy(0, 2) + clear(0) + clear(1) + clear(2)
        history += allocate(1, 0) + allocate(2, 1) + write(0, 0, 1) + write(1, 0, 0) + clear(0) + clear(1)
        history += allocate(1, 0) + copy(0, 1) + copy(0, 2)
        lines = str(behind(history)).splitlines()
        self.assertEqual(lines[1:4], ["      0  ABCCD...", "         #~~~^", "         ^ stuck, ~ no root reaches it, # both"])
        self.assertEqual(lines[5], "  A  block 0, 1 block, count 3, stuck, no root reaches it; nothing names it")
        self.assertEqual(lines[6], "  B  block 1, 1 block, count 1, no root reaches it; named by C.0")

    def test_data(self) -> None:
        heap = Heap(8, 2, 4)
        heap.write_number(heap.allocate_data(2, 0), 0, 1)
        self.assertIn("\n  A  block 0, 2 blocks, count 1, data; named by root 0\n", str(heap))

    def test_damaged(self) -> None:
        good = Heap(8, 2, 4)
        buffers = {buffer.name: list(getattr(good, buffer.name)) for buffer in huwekapo.library.BUFFERS}
        heap = Heap.from_buffers(8, 2, **{**buffers, "b": [254]})
        for shown in [str(heap), heap._repr_html_()]:
            self.assertIn("no map: refused 2 END_ON_FREE", shown)

    def test_with_a_collection_open(self) -> None:
        heap = behind(PAPER)
        heap.open_collection()
        self.assertEqual(str(heap).splitlines()[1], "a collection is open: 3 objects marked, 3 of them on its list")
        heap.step_collection(1)
        self.assertIn("3 objects marked, 2 of them on its list", str(heap))
        self.assertIn("<div>a collection is open", heap._repr_html_())
        heap.step_collection(9)
        self.assertNotIn("is open", str(heap))

    def test_a_large_heap(self) -> None:
        heap = behind(b"".join(allocate(1, root) for root in range(64)) + clear(5), 8192, 3, 64)
        lines = str(heap).splitlines()
        self.assertEqual(lines[1], "      0  ABCDE." + "FGHIJKLMNOPQRSTUVWXYZabcdefghijklmnopqrstuvwxyz0123456789A")
        self.assertEqual(lines[2], "     64  free to block 8,191")
        self.assertIn("  and 1 object more, for which the letters come again in the map", lines)
        self.assertEqual(lines[-2:], ["  blocks 0 to 255: 1 of 128, 1 of 64, 1 of 1", "  blocks 256 to 8,191: 1 of 256, in each of 31 sections"])

    def test_against_the_library(self) -> None:
        for name in examples.PROGRAMS:
            for blocks, width in [(512, 2), (1024, 3)]:
                heap = Heap(blocks, width)
                huwekapo.History(examples.example(name, 3000)).run(heap, may_stop=True)
                some = show.shown(heap)
                self.assertEqual({one.first: one.size for one in some}, huwekapo.objects(heap))
                for one in some[::5]:
                    self.assertEqual((one.size, one.count), tuple(heap.look(one.first)))
                self.assertEqual([one.first for one in some if one.is_stuck], huwekapo.stuck(heap))
                garbage = huwekapo.garbage(heap)
                self.assertEqual(sum(one.size for one in some if not one.is_reached), garbage.blocks)
                self.assertTrue(all(one.is_stuck or one.count == len(one.names) for one in some))
                chunks = show.chunks(heap)
                self.assertEqual([max(part.sizes, default=0) for part in chunks], heap.sections.tolist())
                self.assertEqual(sum(part.free for part in chunks), heap.free_blocks())
                self.assertTrue(all(sum(size * number for size, number in part.sizes.items()) == part.free for part in chunks))
                # The map, read back.
                rows = [line[9:] for line in str(heap).splitlines() if line[:7].strip().replace(",", "").isdigit() and len(line) == 9 + 64]
                if len(rows) == blocks // 64:
                    self.assertEqual("".join(rows).count("."), heap.free_blocks())


class Pages(unittest.TestCase):
    def test_page(self) -> None:
        class Reader(HTMLParser):
            """The blocks of each line, and whether every tag is closed."""

            def __init__(self) -> None:
                super().__init__()
                self.open: List[str] = []
                self.lines: List[int] = []
                self.titles: List[str] = []

            def handle_starttag(self, tag: str, attributes: list) -> None:  # type: ignore[override, type-arg]
                self.open.append(tag)
                found = dict(attributes)
                if tag == "tr":
                    self.lines.append(0)
                if tag == "td":
                    self.lines[-1] += int(found["colspan"])
                    self.titles.append(found["title"])

            def handle_endtag(self, tag: str) -> None:
                assert self.open.pop() == tag

        heap = behind(examples.example("caches", 2000), 1024, 2, 64)
        reader = Reader()
        page = heap._repr_html_()
        reader.feed(page)
        self.assertEqual((reader.open, reader.lines), ([], 16 * [64]))
        for one in show.shown(heap):
            self.assertIn(f"{one.letter}: {one.words()}", reader.titles)
        self.assertNotIn("http", page)
        self.assertIn('class="o1 stuck', page)
        small = Reader()
        small.feed(behind(PAPER)._repr_html_())
        self.assertEqual((small.lines, small.titles[2:4]), ([8], ["free: 1 in this line", "C: block 4, 3 blocks, count 1; named by root 2"]))


class Commands(unittest.TestCase):
    def start(self, *words: object, status: int = 0, given: bytes = b"") -> Tuple[str, str]:
        environment = {**os.environ, "PYTHONPATH": str(PYTHON)}
        command = [sys.executable, "-m", "huwekapo", "show", *map(str, words)]
        done = subprocess.run(command, env=environment, input=given, capture_output=True, check=False)
        self.assertEqual(done.returncode, status, done.stderr)
        return done.stdout.decode(), done.stderr.decode()

    def test_show(self) -> None:
        small = ["--blocks", 8, "--width", 2, "--roots", 4]
        with tempfile.TemporaryDirectory() as folder:
            path = Path(folder, "paper.history")
            path.write_bytes(PAPER)
            for at, words in [(0, "0 records"), (1, "1 record"), (2, "2 records"), (3, "3 records")]:
                shown = self.start(path, "--at", at, *small)
                self.assertEqual(shown, (f"behind {words}\n{show.text(behind(PAPER[: RECORD * at]))}", ""))
            self.assertEqual(self.start(path, *small), shown)
            self.assertEqual(self.start("-", *small, given=PAPER), shown)
            said = self.start(path, "--at", 4, *small, status=1)
            self.assertEqual(said, ("", f"huwekapo: {path}: has 3 records, and not 4\n"))
            # Where the run stops before it.
            path.write_bytes(PAPER + allocate(2, 3) + PAPER)
            shown, said = self.start(path, "--at", 5, *small, status=3)
            self.assertTrue(shown.startswith("behind 3 records: refused 5 at record 3\n8 blocks"), shown)
            self.assertIn("refused 5 at record 3: no chunk is free", said)
            self.assertEqual(self.start(path, "--at", 3, *small)[0].splitlines()[2], "      0  AAB.CCC.")
            path.write_bytes(PAPER + b"\1")
            self.assertIn("refused 10 at record 3", self.start(path, *small, status=3)[0])
            self.assertIn("refused 10 at record 3", self.start(path, "--at", 9, *small, status=3)[0])
            self.assertIn("behind 3 records\n", self.start(path, "--at", 3, *small)[0])
        self.assertIn("--at: x: no number", self.start("history", "--at", "x", status=2)[1])
        self.assertIn("No such file", self.start("/nowhere", status=1)[1])


if __name__ == "__main__":
    unittest.main()
