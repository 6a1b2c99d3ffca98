"""The page of a history: what it holds, and in a browser what it shows."""

from __future__ import annotations

import base64
import json
import os
import re
import subprocess
import sys
import tempfile
import unittest
import zlib
from pathlib import Path
from typing import Any, Dict, List, Tuple

import huwekapo
from huwekapo import Heap, History, examples, objects
from huwekapo.page import LISTS, MOMENTS, changes, page
from huwekapo.record import RECORD
from huwekapo.unreached import Unreached, data, in_use, survey

from .browser import CHROMIUM, Browser
from .records import COLLECT, allocate, clear, copy, write

PYTHON = Path(__file__).resolve().parent.parent


def content(text: str) -> Dict[str, Any]:
    found = re.search(r'<script type="application/json" id="content">(.*?)</script>', text, flags=re.DOTALL)
    assert found
    return dict(json.loads(found.group(1)))


class Reader:
    """The lists of a width, moment by moment, read back."""

    def __init__(self, part: Dict[str, Any], blocks: int, roots: int) -> None:
        self._bytes, self._at = zlib.decompress(base64.b64decode(part["lists"])), 0
        lengths = {"roots": roots, "cells": 4 * blocks, "counts": part["width"] * blocks // 8}
        self.lists = {name: lengths.get(name, blocks // 8) * [0] for name in LISTS}

    def number(self) -> int:
        value, shift = 0, 0
        while True:
            byte = self._bytes[self._at]
            self._at += 1
            value |= (byte & 127) << shift
            shift += 7
            if byte < 128:
                return value

    def forward(self) -> Dict[str, List[int]]:
        for some in self.lists.values():
            place = 0
            for _ in range(self.number()):
                place += self.number()
                some[place] = self.number()
        return self.lists

    @property
    def ended(self) -> bool:
        return self._at == len(self._bytes)


class Contents(unittest.TestCase):
    def test_every_moment(self) -> None:
        history = examples.example("images", 3000) + examples.example("caches", 2000)
        text, runs = page(history, 1024, [1, 3], 64, "a & <b>")
        found = content(text)
        self.assertEqual((found["title"], found["blocks"], found["roots"]), ("a & <b>", 1024, 64))
        for part, run, width in zip(found["widths"], runs, [1, 3]):
            self.assertEqual((part["width"], part["stop"]), (width, ""))
            self.assertLessEqual(len(part["moments"]), MOMENTS + 1)
            reader, heap, before = Reader(part, 1024, 64), Heap(1024, width, 64), huwekapo.Run()
            for records, used, highest, of_data, stuck, both, cycles, *figures in part["moments"]:
                lists = reader.forward()
                before = heap.run_records(before, history[RECORD * before.records : RECORD * records])
                self.assertEqual((before.records, list(before.figures)), (records, figures))
                for name in ["a", "b", "counts", "data", "roots", "cells"]:
                    self.assertEqual(lists[name], getattr(heap, name).tolist(), (name, records))
                unreached = Unreached(heap)
                for name, some in [("reached", unreached.reached), ("cycles", unreached.by_cycles), ("stuck", unreached.by_stuck)]:
                    self.assertEqual({8 * byte + bit for byte, bits in enumerate(lists[name]) for bit in range(8) if bits >> bit & 1}, set(some))
                kinds, garbage = survey(heap)
                self.assertEqual((used, of_data), (in_use(heap), kinds.data.blocks))
                self.assertEqual((stuck, both, cycles), (garbage.stuck.blocks, garbage.both.blocks, garbage.cycles.blocks))
                self.assertGreaterEqual(highest if records else 0, 0)
            self.assertTrue(reader.ended)
            self.assertEqual(before, run)

    def test_changes(self) -> None:
        self.assertEqual(changes(b"abc", b"abc", 1), b"\0")
        self.assertEqual(changes(b"abc", b"xby", 1), bytes([2, 0, ord("x"), 2, ord("y")]))
        far = bytes(4000) + b"\1\0\0\x80"
        self.assertEqual(changes(bytes(4004), far, 4), bytes([1, 0x80 | 1000 & 127, 1000 >> 7, 0x81, 0x80, 0x80, 0x80, 0x08]))

    def test_it_fetches_nothing_and_is_small(self) -> None:
        text, _ = page(examples.example("images", 100_000), 8192, [1, 2, 3, 4], 64, "images")
        self.assertLess(len(text.encode()), 5_000_000)
        self.assertEqual(re.findall(r"https?:|src=|href=|url\(|import ", text), [])
        self.assertIn("default-src 'none'", text)

    def test_short_ones(self) -> None:
        for history, moments in [(b"", 1), (allocate(1, 0), 2), (allocate(9, 0), 1)]:
            text, (run,) = page(history, 8, [2], 4, "x")
            self.assertEqual(len(content(text)["widths"][0]["moments"]), moments)
            self.assertEqual(content(text)["widths"][0]["stop"] != "", run.stopped)


class Commands(unittest.TestCase):
    def start(self, *words: object, status: int = 0, given: bytes = b"") -> Tuple[str, str]:
        environment = {**os.environ, "PYTHONPATH": str(PYTHON)}
        command = [sys.executable, "-m", "huwekapo", "page", *map(str, words)]
        done = subprocess.run(command, env=environment, input=given, capture_output=True, check=False)
        self.assertEqual(done.returncode, status, done.stderr)
        return done.stdout.decode(), done.stderr.decode()

    def test_page(self) -> None:
        history = examples.example("caches", 300)
        with tempfile.TemporaryDirectory() as folder:
            path, made = Path(folder, "some.history"), Path(folder, "some.html")
            path.write_bytes(history)
            self.assertEqual(self.start(path, "-o", made, "--blocks", 1024, "--widths", "2,3"), ("", ""))
            due = page(history, 1024, [2, 3], 64, "some.history")[0]
            self.assertEqual(made.read_text(), due)
            self.assertEqual(self.start("-", "-o", "-", "--blocks", 1024, "--widths", "2,3", "--title", "some.history", given=history), (due, ""))
            path.write_bytes(history + allocate(0, 0))
            said = self.start(path, "-o", made, status=3)[1]
            self.assertEqual(said.count("refused 3 at record 300: the size is 0 or above the number of blocks: the page ends there"), 4)
            self.assertIn("there is no folder", self.start(path, "-o", Path(folder, "a", "b"), status=1)[1])


@unittest.skipUnless(CHROMIUM, "there is no chromium")
class InABrowser(unittest.TestCase):
    @classmethod
    def setUpClass(cls) -> None:
        folder = tempfile.TemporaryDirectory()
        cls.addClassCleanup(folder.cleanup)
        cls.folder = Path(folder.name)

    def opened(self, browser: Browser, history: bytes, blocks: int, widths: List[int], fragment: str = "") -> None:
        made = self.folder / "page.html"
        made.write_text(page(history, blocks, widths, 64, "a <title>")[0])
        browser.open(made, fragment)

    def figures(self, browser: Browser, panel: int) -> List[str]:
        return list(browser.asked(f"[...document.querySelectorAll('section')[{panel}].querySelectorAll('td')].map(one => one.textContent)"))

    def due(self, history: bytes, blocks: int, width: int, records: int) -> Tuple[Heap, List[str]]:
        heap = Heap(blocks, width, 64)
        run = History(history).run_to(heap, records)
        kinds, garbage = survey(heap)
        ends = [kinds.data.blocks, garbage.stuck.blocks, garbage.both.blocks, garbage.cycles.blocks]
        return heap, [f"{number:,}" for number in [run.records, in_use(heap), *run.figures, *ends]]

    def test_what_is_shown(self) -> None:
        history = examples.example("images", 5000, 3)
        step = -(-5000 // MOMENTS)
        with Browser() as browser:
            self.opened(browser, history, 1024, [1, 2])
            self.assertEqual(browser.asked("document.title"), "a <title> - Huwekapo")
            last = browser.asked("Number(document.getElementById('moment').max)")
            self.assertEqual(browser.asked("Number(document.getElementById('moment').value)"), last)
            browser.asked("document.getElementById('moment').focus()")
            for keys in [[], ["Home"], ["ArrowRight"], ["ArrowRight", "ArrowRight"], ["End", *(30 * ["ArrowLeft"])], ["ArrowLeft"]]:
                for key in keys:
                    browser.key(key)
                moment = browser.asked("Number(document.getElementById('moment').value)")
                for panel, width in enumerate([1, 2]):
                    heap, due = self.due(history, 1024, width, min(5000, step * moment))
                    shown = self.figures(browser, panel)
                    # But for the most since the moment before.
                    self.assertEqual(shown[:2] + shown[3:], due, (moment, width))
                    sizes = {str(first): size for first, size in objects(heap).items()}
                    drawn = browser.asked(f"Object.fromEntries(panels[{panel}].width.objects().map(one => [one.first, one.size]))")
                    self.assertEqual(drawn, sizes)
            self.assertEqual(moment, last - 31)
            axes = browser.asked("[...document.querySelectorAll('.axes')].map(one => [...one.children].map(end => end.textContent))")
            self.assertEqual(axes, 2 * [["0 records", "up to 1,024 blocks", "5,000"]])
            self.assertEqual((browser.errors, len(browser.fetched)), ([], 1))

    def test_an_object(self) -> None:
        history = examples.example("trees", 2000) + examples.example("images", 500)
        heap, _ = self.due(history, 1024, 2, 2500)
        with Browser() as browser:
            self.opened(browser, history, 1024, [2], "#moment=9999")
            columns, pixel = browser.asked("[panels[0].columns, panels[0].pixel]")
            sizes, told = objects(heap), 0
            for first in sorted(sizes)[:: max(1, len(sizes) // 40)]:
                at = first + sizes[first] - 1
                browser.click("section canvas", (at % columns + 0.5) * pixel + 1, (at // columns + 0.5) * pixel + 1)
                shown = browser.asked("[...document.querySelectorAll('.object div')].map(one => one.textContent)")
                found = heap.look(first)
                words = f"block {first}: {found.size} block{'' if found.size == 1 else 's'}, count {found.count} of at most 3"
                words += ", stuck" * (found.count == 3) + ", data" * (first in data(heap))
                self.assertEqual(shown[:2], [words, heap.reason(first).rstrip("\n")])
                self.assertEqual(len(shown), 2 + (first not in Unreached(heap).reached))
                told += len(shown) == 3
            self.assertGreater(told, 5)
            # By the keyboard: from object to object, and by lines.
            browser.asked("panels[0].chosen = null; document.querySelector('section canvas').focus()")
            for key, place in [("ArrowRight", 0), ("ArrowRight", 1), ("ArrowRight", 2), ("ArrowLeft", 1)]:
                browser.key(key)
                self.assertEqual(browser.asked("panels[0].chosen"), sorted(sizes)[place])
            # The address names what is shown, and shows it again.
            address = browser.asked("location.hash")
            self.assertRegex(address, r"^#moment=\d+&width=2&block=\d+$")
            shown = browser.asked("document.querySelector('.object').textContent")
            browser.open(self.folder / "page.html", address)
            self.assertEqual(browser.asked("document.querySelector('.object').textContent"), shown)
            self.assertEqual(browser.errors, [])

    def test_play(self) -> None:
        cycle = allocate(2, 0) + write(0, 0, 0) + copy(0, 1) + clear(0) + clear(1) + COLLECT
        with Browser() as browser:
            self.opened(browser, 3 * cycle + allocate(9, 0), 8, [1, 2, 3, 4])
            self.assertIn("refused 3 at record 18", browser.asked("document.querySelector('.stop').textContent"))
            browser.asked("document.getElementById('play').focus()")
            browser.key(" ")
            self.assertEqual(browser.asked("document.getElementById('play').textContent"), "Stop")
            browser.wait("document.getElementById('play').textContent === 'Play'")
            self.assertEqual(browser.asked("document.getElementById('moment').value"), "18")
            self.assertEqual(browser.asked("document.getElementById('records').textContent"), "behind 18 records")
            self.assertEqual(browser.errors, [])

    def test_a_large_heap(self) -> None:
        blocks = huwekapo.library.MAX_BLOCKS
        history = b"".join(allocate(1, root) + write(root - 1, 0, root) for root in range(1, 64)) + allocate(blocks // 2, 0)
        with Browser() as browser:
            self.opened(browser, history, blocks, [3])
            heap, due = self.due(history, blocks, 3, 1000)
            self.assertEqual(self.figures(browser, 0)[1], due[1])
            self.assertEqual(browser.errors, [])


if __name__ == "__main__":
    unittest.main()
