"""What README.md and CHANGELOG.md say of the package and of its figures."""

from __future__ import annotations

import contextlib
import io
import os
import re
import tempfile
import unittest
from pathlib import Path
from typing import Iterator, Tuple

import huwekapo
from huwekapo import Number, examples, refused
from huwekapo.__main__ import EXAMPLES
from huwekapo.compact import lets_go_on
from huwekapo.record import ALLOCATE, ALLOCATE_DATA
from huwekapo.sweep import TABLE_COLUMNS
from huwekapo.widths import text, widths

TOP = Path(__file__).resolve().parent.parent.parent
README = (TOP / "README.md").read_text()


def drawn() -> Iterator[Tuple[str, bytes, int]]:
    """The histories that README.md has tables and pictures of, with their heaps: the real ones first."""
    for name, blocks in [("jlex", 4096), ("jdepend", 4096), ("htmlparser", 16384)]:
        yield name, (TOP / "examples/real" / f"{name}.history").read_bytes(), blocks
    for name in ["caches", "calls", "lists", "trees"]:
        yield name, examples.example(name, 100_000), 1024


class Figures(unittest.TestCase):
    def test_tables(self) -> None:
        # `bash docs/figures/make.sh` makes them anew.
        before = 0
        for name, history, blocks in drawn():
            with self.subTest(name=name):
                table = text(widths(history, [blocks], [1, 2, 3, 4], 64))
                self.assertEqual((TOP / "docs/figures" / f"{name}.txt").read_text(), table)
                self.assertTrue("".join(f"    {line}\n" for line in table.splitlines()) in README, name)
                self.assertTrue(f"(docs/figures/{name}.svg)" in README, name)
                # In this order.
                at = README.index(f"<!-- docs/figures/{name}.txt -->")
                self.assertGreater(at, before)
                before = at

    def test_pictures(self) -> None:
        for name, history, blocks in drawn():
            picture = (TOP / "docs/figures" / f"{name}.svg").read_text()
            for width in range(1, 5):
                run = huwekapo.run(history, blocks, width)
                words = f"width {width}: {run.figures.collections} full collection{'s' * (run.figures.collections != 1)}"
                self.assertTrue(f"{words}, most blocks in use {run.figures.peak:,}" in picture, (name, width))

    def test_real(self) -> None:
        # What examples/real/README.md says of each; a megabyte at most.
        page = (TOP / "examples/real/README.md").read_text()
        for name, history, _ in list(drawn())[:3]:
            found = list(huwekapo.records(history))
            made = sum(one.operation in (ALLOCATE, ALLOCATE_DATA) for one in found)
            self.assertLess(len(history), 1_000_000)
            row = next(line for line in page.splitlines() if line.startswith(f"| `{name}.history` |"))
            added = int(row.split("|")[-2])
            self.assertIn(f"| {made - added:,} | {len(found):,} | {added} |", row)
        # The third on a smaller heap.
        heap, words = huwekapo.Heap(8192), " ".join(README.split())
        run = huwekapo.History(history).run(heap, may_stop=True)
        self.assertEqual((run.number, found[run.records].size), (Number.NO_CHUNK, 514))
        self.assertIn(f"with {huwekapo.compact(heap).used_before:,} in use no chunk of 1,024 is free for an array of 514", words)
        self.assertTrue(lets_go_on(heap, history, run.records))
        # And both rules by width: those of the rule `uses` are the tables of README.md.
        rules = (TOP / "examples/real/rules.txt").read_text().splitlines()
        for name, _, _ in list(drawn())[:3]:
            rows = rules[rules.index(name) + 3 : rules.index(name) + 11]
            self.assertEqual([row.split()[0] for row in rows], 4 * ["slots"] + 4 * ["uses"])
            table = (TOP / "docs/figures" / f"{name}.txt").read_text().splitlines()[2:]
            self.assertEqual([row.split()[1:] for row in rows[4:]], [row.split() for row in table])


class Leak(unittest.TestCase):
    def test_why(self) -> None:
        history = examples.example("leak", 100_000)
        self.assertEqual(huwekapo.run(history, 1024, may_stop=True).stop(), "refused 5 at record 25148")
        heap = huwekapo.Heap(1024)
        next(huwekapo.History(history).runs(heap, 100))
        shown = [line[4:] for line in README.splitlines()]
        self.assertIn(heap.reason(1).rstrip(), shown)
        first = next(huwekapo.read_reason(line + "\n").block for line in shown if line.startswith("no root"))
        self.assertIn(heap.reason(first).rstrip(), shown)
        self.assertEqual([words for words in huwekapo.holds(heap, first) if f"  {words}" not in shown], [])


class Pasted(unittest.TestCase):
    def test_recorder(self) -> None:
        section = README.split("\n## Histories of one's own\n")[1].split("\n## ")[0]
        code = "".join(line[4:] + "\n" for line in section.splitlines() if line.startswith("    "))
        here, out = os.getcwd(), io.StringIO()
        with tempfile.TemporaryDirectory() as folder, contextlib.redirect_stdout(out):
            os.chdir(folder)
            self.addCleanup(os.chdir, here)
            exec(code, {})
        self.assertEqual(out.getvalue().split(), "2 3 2 0 3 0".split())


class Versions(unittest.TestCase):
    def test_one_version(self) -> None:
        version = huwekapo.__version__
        self.assertTrue(f"This is version {version};" in README)
        self.assertEqual(re.findall(r"^## (\d+\.\d+\.\d+)", (TOP / "CHANGELOG.md").read_text(), re.MULTILINE)[0], version)
        for name in ["Cargo.toml", "Cargo.lock"]:
            self.assertIn(f'name = "huwekapo"\nversion = "{version}"\n', (TOP / "rust" / name).read_text())
        self.assertIn(f"\nversion: {version}\n", (TOP / "CITATION.cff").read_text())
        self.assertIn(f'"Huwekapo {version}"', (TOP / "docs/man/huwekapo-report.1").read_text().splitlines()[0])

    def test_manual(self) -> None:
        page = (TOP / "docs/man/huwekapo-report.1").read_text()
        for number in Number:
            words = refused._RECORD_WORDS.get(number)
            # A program of its own has no collection open.
            if words and number != Number.OUT_OF_TURN:
                self.assertIn(f"\n.TP 4\n{int(number)}\n{words}\n", page)
        usage = (TOP / "bin/huwekapo-report").read_text()
        statuses = re.findall(r"(\d), ([a-z ]+)[;.]", usage.split("Exit status: ")[1].split("HUWEKAPO_REPORT")[0])
        self.assertEqual([status for status, _ in statuses], ["0", "3", "1", "2"])
        for status, words in statuses:
            self.assertIn(f"\n.TP 4\n{status}\n{words}\n", page)

    def test_commands(self) -> None:
        for name in EXAMPLES:
            self.assertTrue(f"`{name} " in README, name)
        for name in examples.PROGRAMS:
            self.assertTrue(f"`{name}`" in README, name)

    def test_columns(self) -> None:
        files = (TOP / "docs/FILES.md").read_text()
        for name in TABLE_COLUMNS:
            self.assertTrue(f"| `{name}` |" in files, name)


if __name__ == "__main__":
    unittest.main()
