"""The reason an object is kept, what holds garbage, and equal shape."""

from __future__ import annotations

import random
import unittest
from typing import List, Optional, Tuple

import huwekapo
from huwekapo import Heap, Reason, Refused, holds, objects, read_reason, same_shape
from huwekapo.library import MAX_BLOCKS
from huwekapo.shapes import objects_of, parting
from huwekapo.unreached import Unreached, stuck

from .calls import buffers


def linked(sizes: List[int], links: List[Tuple[int, int, int]], cleared: int = 0, width: int = 3) -> Heap:
    """An object for each size, in the root of its place; cell j of the object at a block names that at another; roots cleared."""
    heap = Heap(64, width, 8)
    for r, n in enumerate(sizes):
        heap.allocate(n, r)
    for at, j, named in links:
        heap.store_cell(at, j, 1 + named)
    heap.return_roots(cleared)
    return heap


def at_random(seed: int) -> Heap:
    """Objects and data with links among them, some of them garbage."""
    choose = random.Random(seed)
    heap = Heap(64, choose.choice([1, 2, 4]), 4)
    for _ in range(60):
        firsts = list(objects(heap))
        try:
            if choose.random() < 0.4 or not firsts:
                (heap.allocate_data if choose.random() < 0.2 else heap.allocate)(choose.choice([1, 1, 2, 3]), choose.randrange(4))
            elif choose.random() < 0.8:
                heap.store_cell(choose.choice(firsts), choose.randrange(4), choose.choice([0, *(1 + first for first in firsts)]))
            else:
                heap.store_root(choose.randrange(4), choose.choice([0, *(1 + first for first in firsts)]))
        except Refused:
            pass
    return heap


def best_chain(heap: Heap, at: int) -> Optional[Tuple[int, ...]]:
    """The least of all chains of the fewest links, as root and cells: by the distances to the block."""
    sizes, numbers = objects(heap), huwekapo.data(heap)

    def links(first: int) -> List[int]:
        return [] if first in numbers else heap.cells[4 * first : 4 * (first + sizes[first])].tolist()

    distance = {at: 0}
    for turn in range(len(sizes)):
        near = [first for first in sizes if first not in distance and any(distance.get(v - 1) == turn for v in links(first) if v)]
        distance.update(dict.fromkeys(near, turn + 1))
    starts = [(distance[v - 1], r, v - 1) for r, v in enumerate(heap.roots) if v and v - 1 in distance]
    if not starts:
        return None
    left, root, first = min(starts)
    chain = [root]
    # Among several roots at this distance the lowest; from it on always the lowest cell that leads nearer.
    while left:
        left -= 1
        j = next(j for j, v in enumerate(links(first)) if v and distance.get(v - 1) == left)
        chain.append(j)
        first = links(first)[j] - 1
    return tuple(chain)


class Reasons(unittest.TestCase):
    def test_sentences(self) -> None:
        heap = linked([2, 1, 1], [(0, 5, 2), (2, 1, 3)], 0b110)
        self.assertEqual(heap.reason(0), "root 0 block 0\n")
        self.assertEqual(heap.reason(2), "root 0 cell 5 block 2\n")
        self.assertEqual(heap.reason(3), "root 0 cell 5 cell 1 block 3\n")
        for at in [1, 4, 64, 2**64 - 1]:
            with self.assertRaises(Refused) as caught:
                heap.reason(at)
            self.assertEqual(caught.exception.number, 6)
        with self.assertRaises(OverflowError):
            heap.reason(2**64)

    def test_nothing_is_written(self) -> None:
        heap = linked([2, 1, 1], [(0, 5, 2), (2, 1, 3)], 0b110)
        heap.open_collection()
        before = {**buffers(heap), "waiting": 64 * [99]}
        heap = Heap.from_buffers(64, 3, **before)
        heap.reason(3)
        heap.shape()
        self.assertEqual(buffers(heap), before)

    def test_the_best_of_all_chains(self) -> None:
        told = set()
        for seed in range(60):
            heap = at_random(seed)
            for at in objects(heap):
                best = best_chain(heap, at)
                read = read_reason(heap.reason(at))
                due = Reason(None, (), at) if best is None else Reason(best[0], best[1:], at)
                self.assertEqual(read, due, seed)
                self.assertEqual(str(read), heap.reason(at))
                self.assertEqual(best is None, at in Unreached(heap).objects)
                told.add(None if best is None else min(len(best), 4))
        self.assertEqual(told, {None, 1, 2, 3, 4})

    def test_read_back(self) -> None:
        for text, due in [
            ("root 1 cell 2 block 4\n", Reason(1, (2,), 4)),
            ("root 0 block 0\n", Reason(0, (), 0)),
            ("root 4294967295 cell 0 cell 10 block 8191\n", Reason(2**32 - 1, (0, 10), 8191)),
            ("no root reaches block 4\n", Reason(None, (), 4)),
        ]:
            self.assertEqual(read_reason(text), due)
            self.assertEqual(str(due), text)
            for wrong in [text[:-1], text + "\n", " " + text, text.replace(" ", "  ", 1), text[:-1] + "\r\n"]:
                with self.assertRaises(ValueError):
                    read_reason(wrong)
        for wrong in ["", "root 01 block 4", "root 4294967296 block 4", "root 1 block 4 cell 2", "Root 1 block 4", "root ١ block 4"]:
            with self.assertRaises(ValueError):
                read_reason(f"{wrong}\n")

    def test_the_longest(self) -> None:
        # A chain of as many objects as there are blocks.
        blocks = MAX_BLOCKS
        heap = Heap(blocks, 3, 2)
        calls = [(2, 1, 0)]
        for at in range(1, blocks):
            calls += [(2, 1, 1), (4, at, 3, at), (3, 0, 1 + at)]
        heap.replay([*calls, (3, 1, 0)])
        sentence = heap.reason(0)
        self.assertEqual(sentence, "root 0" + (blocks - 1) * " cell 3" + " block 0\n")
        self.assertEqual(len(read_reason(sentence).cells), blocks - 1)
        self.assertEqual(objects_of(heap.shape()), blocks)


class Holds(unittest.TestCase):
    def test_nothing_holds_what_is_reached(self) -> None:
        self.assertEqual(holds(linked([1, 1], [(0, 0, 1)], 0b10), 1), [])

    def test_cycles(self) -> None:
        itself = linked([1], [(0, 3, 0)], 1)
        self.assertEqual(holds(itself, 0), ["it is on a cycle: block 0 cell 3 block 0"])
        three = linked([1, 1, 1, 1], [(0, 0, 1), (1, 1, 2), (2, 2, 0), (2, 3, 3)], 0b1111)
        self.assertEqual(holds(three, 1), ["it is on a cycle: block 1 cell 1 block 2 cell 2 block 0 cell 0 block 1"])
        # Behind the cycle.
        words = "a cycle leads to it: block 2 cell 2 block 0 cell 0 block 1 cell 1 block 2, and block 2 cell 3 block 3"
        self.assertEqual(holds(three, 3), [words])

    def test_stuck_counts(self) -> None:
        # At width 1 every object is stuck.
        self.assertEqual(holds(linked([1], [], 1, width=1), 0), ["its count is stuck"])
        heap = linked([1, 1], [(0, 0, 1), (0, 1, 1)], 0, width=2)
        for r in 2, 3:
            heap.store_root(r, 1)
        heap.return_roots(0b1111)
        self.assertEqual(stuck(heap), [0, 1])
        self.assertEqual(holds(heap, 0), ["its count is stuck"])
        heap = linked([1, 1], [(0, 2, 1)], 0, width=2)
        for r in 2, 3:
            heap.store_root(r, 1)
        heap.return_roots(0b1111)
        self.assertEqual(holds(heap, 1), ["the count of what leads to it is stuck: block 0 cell 2 block 1"])

    def test_both(self) -> None:
        heap = linked([1, 1], [(0, 0, 1), (1, 0, 0)], 0b11, width=1)
        self.assertEqual(holds(heap, 1), ["its count is stuck", "it is on a cycle: block 1 cell 0 block 0 cell 0 block 1"])

    def test_something_holds_all_garbage(self) -> None:
        seen = set()
        for seed in range(60):
            heap = at_random(seed)
            found = Unreached(heap)
            for at in found.sizes:
                words = holds(heap, at)
                self.assertEqual(bool(words), at in found.objects, seed)
                self.assertEqual(any("cycle" in said for said in words), at in found.by_cycles, seed)
                seen.update(said.split(":")[0] for said in words)
        self.assertEqual(len(seen), 4)


class Shapes(unittest.TestCase):
    def test_numbers(self) -> None:
        self.assertEqual(Heap(8, 2, 3).shape(), [3, 0, 0, 0])
        heap = Heap(64, 2, 4)
        heap.allocate(2, 1)
        heap.allocate_data(1, 3)
        heap.allocate(1, 0)
        heap.write_number(2, 0, 2**32 - 1)
        heap.store_cell(0, 7, 1)
        heap.store_cell(0, 6, 3)
        # Breadth first from root 0: what is at block 3, at 0, at 2.
        self.assertEqual(heap.shape(), [4, 1, 2, 0, 3, 1, 0, 0, 0, 0, 0, 2, 0, 0, 0, 0, 0, 0, 0, 3, 2, 1, 1, 2**32 - 1, 0, 0, 0])

    def test_breadth_first(self) -> None:
        # Depth first, the object behind cell 0 of the first would be number 3.
        heap = linked([1, 1, 1, 1], [(0, 0, 1), (0, 1, 2), (1, 0, 3)], 0b1110)
        due = [8, 1, *(7 * [0]), 1, 0, 2, 3, 0, 0, 1, 0, 4, 0, 0, 0, 1, 0, 0, 0, 0, 0, 1, 0, 0, 0, 0, 0]
        self.assertEqual(heap.shape(), due)

    def test_wherever_objects_lie(self) -> None:
        first = linked([2, 1, 1], [(0, 5, 2), (2, 1, 3), (3, 0, 0)], 0b110)
        second = Heap(1024, 1, 8)
        # Garbage first, then the same from the other end.
        blocks = [second.allocate(n, r) for n, r in [(3, 7), (1, 2), (1, 1), (2, 0)]]
        for at, j, named in [(3, 5, 2), (2, 1, 1), (1, 0, 3)]:
            second.store_cell(blocks[at], j, 1 + blocks[named])
        second.return_roots(0b1000_0110)
        self.assertTrue(same_shape(first, second))
        self.assertNotEqual(first, second)
        self.assertIsNone(parting(first.shape(), second.shape()))
        second.collect()
        self.assertTrue(same_shape(first, second))

    def test_where_they_part(self) -> None:
        def parts(first: Heap, second: Heap) -> Optional[str]:
            self.assertEqual(same_shape(first, second), first.shape() == second.shape())
            return parting(first.shape(), second.shape())

        heap = linked([2, 1], [(0, 5, 2)])
        self.assertEqual(parts(Heap(8, 2, 3), Heap(8, 2, 4)), "number of roots: 3 and 4")
        self.assertEqual(parts(heap, linked([2], [])), "root 1, object: 2 and 0")
        self.assertEqual(parts(heap, linked([1, 1], [(0, 3, 1)])), "object 1, size: 2 and 1")
        self.assertEqual(parts(heap, linked([2, 1], [])), "object 1, cell 5, object: 2 and 0")
        data = Heap(64, 3, 8)
        data.allocate_data(2, 0)
        data.allocate(1, 1)
        self.assertEqual(parts(linked([2, 1], []), data), "object 1, D bit: 0 and 1")
        other = data.copy()
        other.write_number(0, 7, 9)
        self.assertEqual(parts(data, other), "object 1, cell 7, number: 0 and 9")

    def test_damaged(self) -> None:
        heap = Heap(8, 2, 4)
        damaged = Heap.from_buffers(8, 2, **{**buffers(heap), "a": [1]})
        for call in [damaged.shape, lambda: same_shape(heap, damaged), lambda: damaged.reason(0)]:
            with self.assertRaises(Refused) as caught:
                call()
            self.assertEqual((caught.exception.number, caught.exception.value), (2, 2))


if __name__ == "__main__":
    unittest.main()
