"""The largest free chunk of each section: true after every accepted call, and refused where it is not."""

from __future__ import annotations

import random
import unittest
from typing import Dict, List

from huwekapo import Heap, Number, Refused, Run, library
from huwekapo.library import MAX_BLOCKS
from huwekapo.sections import text

from .calls import FORMATTING, OTHERS, OUT_OF_TURN, Call, buffers, lent


def figure(a: memoryview, first: int, size: int) -> int:
    """The size of the largest free chunk of a section, off the A-map: each power of two, at each of its multiples."""
    free = [not a[block // 8] >> block % 8 & 1 for block in range(first, first + size)]
    sizes = [1 << power for power in range(size.bit_length())]
    return max((s for s in sizes if any(all(free[at : at + s]) for at in range(0, size, s))), default=0)


def figures(heap: Heap) -> List[int]:
    size = min(heap.blocks, 256)
    return [figure(heap.a, first, size) for first in range(0, heap.blocks, size)]


class Sections(unittest.TestCase):
    def refused(self, name: str, call: Call, blocks: int, given: Dict[str, List[int]], number: int) -> None:
        """A call is refused, and writes nothing."""
        heap = Heap.from_buffers(blocks, 2, **given)
        with self.subTest(call=name, blocks=blocks, sections=given["sections"]):
            with self.assertRaises(Refused) as caught:
                call(heap)
            self.assertEqual((caught.exception.number, caught.exception.value), (number, 0))
            self.assert_same(buffers(heap), given)

    def assert_same(self, found: Dict[str, List[int]], expected: Dict[str, List[int]]) -> None:
        """Names the buffers that differ; to show how these long ones do would take minutes."""
        self.assertEqual([name for name in expected if found[name] != expected[name]], [])

    def test_every_call_is_there(self) -> None:
        self.assertEqual({*FORMATTING, *OTHERS}, set(library.FUNCTIONS))
        for blocks in [8, 256, 512, 8192, MAX_BLOCKS]:
            for is_open in [False, True]:
                for name, call in {**FORMATTING, **OTHERS}.items():
                    heap = Heap.from_buffers(blocks, 2, **lent(blocks, is_open))
                    if name in OUT_OF_TURN[is_open]:
                        continue
                    call(heap)
                    self.assertEqual(heap.sections.tolist(), figures(heap), name)

    def test_formatted(self) -> None:
        for blocks, expected in [(8, [8]), (128, [128]), (256, [256]), (512, [256, 256]), (8192, 32 * [256]), (MAX_BLOCKS, 256 * [256])]:
            heap = Heap(blocks)
            self.assertEqual(heap.sections.tolist(), expected)
            self.assertEqual(heap.section_blocks * len(heap.sections), blocks)

    def test_wrong_length(self) -> None:
        for blocks, lengths in [(8, [0, 2]), (256, [0, 2]), (512, [0, 1, 3]), (8192, [31, 33]), (MAX_BLOCKS, [32, 255, 257])]:
            for length in lengths:
                given = {**lent(blocks), "sections": length * [256]}
                for name, call in {**FORMATTING, **OTHERS}.items():
                    self.refused(name, call, blocks, given, Number.MISSHAPEN)

    def test_stale_list(self) -> None:
        for blocks in [8, 512, MAX_BLOCKS]:
            for place in [0, -1]:
                for change in [-1, 1]:
                    given = lent(blocks, blocks == 512)
                    given["sections"][place] += change
                    for name, call in OTHERS.items():
                        self.refused(name, call, blocks, given, Number.STALE_SECTIONS)
                    for name, call in FORMATTING.items():
                        heap = Heap.from_buffers(blocks, 2, **given)
                        call(heap)
                        self.assert_same(buffers(heap), buffers(Heap(blocks, 2, 4)))
        self.assertIn("11 STALE_SECTIONS: a number of `sections` is not", str(Refused(11)))

    def test_order_of_refusals(self) -> None:
        given = lent(8)
        given["sections"][0] = 8
        for name, call in {
            "allocate": lambda heap: heap.allocate(0, 99),
            "store_root": lambda heap: heap.store_root(99, 99),
            "store_cell": lambda heap: heap.store_cell(99, 99, 99),
            "return_roots": lambda heap: heap.return_roots(2**64 - 1),
            "look": lambda heap: heap.look(99),
            "step_collection": lambda heap: heap.step_collection(1),
            "make_calls": lambda heap: heap.make_calls([(14,)]),
            "run_records": lambda heap: heap.run_records(Run(records=2**40), b""),
        }.items():
            self.refused(name, call, 8, given, Number.STALE_SECTIONS)
        with self.assertRaises(Refused) as caught:
            Heap.from_buffers(8, 2, **{**given, "counts": [0, 0]}).check()
        self.assertEqual(caught.exception.number, Number.DAMAGED)

    def test_true_after_every_call(self) -> None:
        met = {"nothing free": 0, "no chunk": 0, "freed": 0}
        for blocks in [8, 128, 256, 512, 2048]:
            dice, heap = random.Random(blocks), Heap(blocks, 2, 16)
            for _ in range(200):
                free = heap.free_blocks()
                try:
                    self.some_call(dice, heap)
                except Refused as refused:
                    self.assertEqual(refused.number, Number.NO_CHUNK)
                    met["no chunk"] += 1
                heap.check()
                self.assertEqual(heap.sections.tolist(), figures(heap))
                met["nothing free"] += 0 in heap.sections.tolist()
                met["freed"] += heap.free_blocks() > free
        self.assertTrue(all(count >= 50 for count in met.values()), met)

    def some_call(self, dice: random.Random, heap: Heap) -> None:
        root, value = dice.randrange(16), heap.roots[dice.randrange(16)]
        # Small sizes at most times, so that sections fill up in part.
        size = dice.randint(1, 1 << dice.randrange(heap.blocks.bit_length()))
        kind = dice.randrange(8)
        if kind < 4:
            heap.allocate(size, root)
        elif kind == 4:
            heap.store_root(root, value)
        elif kind == 5:
            heap.return_roots(1 << root | 1 << dice.randrange(16))
        elif heap.roots[root]:
            heap.store_cell(heap.roots[root] - 1, 0, value)
        else:
            heap.collect()

    def test_table(self) -> None:
        heap = Heap(4096, 2, 4)
        heap.allocate(200, 0)
        heap.allocate(1500, 1)
        title, *rows = text(heap).splitlines()
        self.assertIn("256 blocks", title)
        self.assertEqual([row.split()[0] for row in rows], ["0:", "2,048:"])
        self.assertEqual([int(word) for row in rows for word in row.split()[1:]], figures(heap))
        self.assertEqual(len({len(row) for row in rows}), 1)


if __name__ == "__main__":
    unittest.main()
