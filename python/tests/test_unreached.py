"""What no root reaches, by what holds it; against the model, which wrote garbage.txt (`model garbage 1 120`) and runs the examples."""

from __future__ import annotations

import os
import subprocess
import unittest
from pathlib import Path

from huwekapo import examples
from huwekapo.measures import measure
from huwekapo import Garbage, Heap, Held, Kinds, data, garbage, in_use, kinds, library, objects, stuck

#: A file of the model's to read instead.
VARIABLE = "HUWEKAPO_GARBAGE"

#: The model's program, which runs histories too.
MODEL = "HUWEKAPO_MODEL"

NONE = Held(0, 0)


class ByHand(unittest.TestCase):
    def test_empty(self) -> None:
        self.assertEqual((garbage(Heap(8, 2, 4)), in_use(Heap(8, 2, 4)), objects(Heap(8, 2, 4))), (Garbage(NONE, NONE, NONE), 0, {}))

    def test_stuck_and_let_go(self) -> None:
        for width, expected in [(1, Held(1, 2)), (2, Held(1, 2)), (3, NONE)]:
            heap = Heap(8, width, 4)
            heap.allocate(2, 0)
            heap.store_root(1, 1)
            heap.store_root(2, 1)
            self.assertEqual(stuck(heap), [] if width == 3 else [0])
            # Stuck, but reached.
            self.assertEqual(garbage(heap), Garbage(NONE, NONE, NONE))
            heap.return_roots(7)
            self.assertEqual(garbage(heap), Garbage(expected, NONE, NONE))

    def test_what_a_stuck_object_leads_to(self) -> None:
        # 0 is stuck and names 1, which names 2 and itself; 3, of 4 blocks, names itself.
        heap = Heap(16, 2, 5)
        places = [heap.allocate(1, root) for root in range(3)] + [heap.allocate(4, 3)]
        for owner, cell, named in [(0, 0, 1), (1, 0, 2), (1, 1, 1), (3, 0, 3)]:
            heap.store_cell(places[owner], cell, 1 + places[named])
        heap.store_root(4, 1)
        heap.store_cell(places[3], 1, 1)
        self.assertEqual(objects(heap), {0: 1, 1: 1, 2: 1, 4: 4})
        self.assertEqual(garbage(heap), Garbage(NONE, NONE, NONE))
        heap.return_roots(31)
        # 3 names 0 too: all are behind its cycle.
        self.assertEqual(garbage(heap), Garbage(NONE, Held(1, 4), Held(3, 3)))
        # A root on 2: it is no garbage, though a stuck object leads to it.
        heap.store_root(0, 1 + places[2])
        self.assertEqual(garbage(heap), Garbage(NONE, Held(1, 4), Held(2, 2)))
        self.assertEqual((in_use(heap), garbage(heap).blocks), (7, 6))
        heap.collect()
        self.assertEqual((garbage(heap), in_use(heap)), (Garbage(NONE, NONE, NONE), 1))

    def test_data_is_never_followed(self) -> None:
        # Data of 2 blocks at 0, whose cells look like references to itself and to the object at 2, which names the data.
        heap = Heap(8, 3, 4)
        self.assertEqual((heap.allocate_data(2, 0), heap.allocate(1, 1)), (0, 2))
        for j in range(8):
            heap.write_number(0, j, 1 if j % 2 else 3)
        heap.store_cell(2, 0, 1)
        self.assertEqual((data(heap), kinds(heap)), ({0}, Kinds(Held(1, 1), Held(1, 2))))
        heap.return_roots(1)
        self.assertEqual(garbage(heap), Garbage(NONE, NONE, NONE))
        # No cycle goes through data: its number of the object holds nothing.
        heap.store_root(3, 1)
        self.assertEqual(heap.store_root(1, 0), 1)
        self.assertEqual((garbage(heap), kinds(heap)), (Garbage(NONE, NONE, NONE), Kinds(NONE, Held(1, 2))))
        # Stuck data that was let go of is garbage as any stuck object is.
        heap = Heap(8, 1, 4)
        heap.allocate_data(2, 0)
        heap.allocate(1, 1)
        heap.write_number(0, 0, 3)
        heap.write_number(0, 1, 1)
        heap.return_roots(3)
        self.assertEqual((garbage(heap), kinds(heap)), (Garbage(Held(2, 3), NONE, NONE), Kinds(Held(1, 1), Held(1, 2))))
        self.assertEqual(heap.collect(), 3)

    def test_one_of_each(self) -> None:
        # 0, of 2 blocks, is stuck and names 2; 3 names itself and 4; 5 is stuck and names itself twice.
        heap = Heap(16, 2, 5)
        places = [heap.allocate(2, 0)] + [heap.allocate(1, root) for root in range(1, 5)]
        self.assertEqual(places, [0, 2, 3, 4, 5])
        for owner, cell, named in [(0, 0, 1), (2, 0, 2), (2, 1, 3), (4, 0, 4), (4, 1, 4)]:
            heap.store_cell(places[owner], cell, 1 + places[named])
        for root in (1, 2):
            heap.store_root(root, 1)
        self.assertEqual(stuck(heap), [0, 5])
        heap.return_roots(31)
        self.assertEqual(garbage(heap), Garbage(Held(2, 3), Held(2, 2), Held(1, 1)))
        # Unlimited counts would have freed 0 and 2, and no others.
        buffers = {buffer.name: getattr(heap, buffer.name) for buffer in library.BUFFERS}
        wide = Heap.from_buffers(16, 4, **{**buffers, "counts": bytes(8)})
        self.assertEqual(objects(wide), {0: 2, 2: 1, 3: 1, 4: 1, 5: 1})


class AgainstTheModel(unittest.TestCase):
    def test_random_heaps(self) -> None:
        path = Path(os.environ.get(VARIABLE) or Path(__file__).with_name("garbage.txt"))
        met = {"stuck": 0, "cycles": 0, "both": 0, "all three": 0, "data with numbers": 0, "data let go": 0}
        for line in path.read_text().splitlines():
            (blocks, width), *buffers, by_stuck, by_cycles, by_both = [list(map(int, field.split())) for field in line.split("|")]
            names = [buffer.name for buffer in library.BUFFERS]
            heap = Heap.from_buffers(blocks, width, **dict(zip(names, buffers)))
            heap.check()
            found = garbage(heap)
            self.assertEqual(found, Garbage(Held(*by_stuck), Held(*by_cycles), Held(*by_both)), line)
            self.assertEqual(blocks - heap.free_blocks(), in_use(heap))
            for name, held in found._asdict().items():
                met[name] += held.objects > 0
            met["all three"] += all(held.objects for held in found)
            sizes, made_as_data = objects(heap), kinds(heap).data
            met["data with numbers"] += any(any(heap.cells[4 * first : 4 * (first + sizes[first])]) for first in data(heap))
            # A collection frees it all.
            self.assertEqual(heap.collect(), found.blocks)
            met["data let go"] += kinds(heap).data != made_as_data
        self.assertTrue(all(count >= 2 for count in met.values()), met)

    def test_examples(self) -> None:
        # What wider counts would have freed: nothing of trees, 32 blocks of lists at width 2 and 93 at width 1.
        expected = {("trees", 1): (0, 0, 327), ("trees", 2): (0, 0, 327), ("lists", 1): (93, 0, 621), ("lists", 2): (32, 0, 621)}
        for (name, width), blocks in expected.items():
            found = measure(examples.example(name, 100_000), 1024, width, 64).garbage
            self.assertEqual(tuple(held.blocks for held in found), blocks, (name, width))

    def test_examples_in_the_model(self) -> None:
        model = os.environ.get(MODEL)
        if not model:
            self.skipTest(f"{MODEL} does not name the model's program")
        for name in examples.PROGRAMS:
            history = examples.example(name, 6000, 3)
            for blocks, width in [(256, 1), (512, 2), (1024, 3)]:
                command = [model, "history", "garbage", str(blocks), str(width), "64"]
                line, parts = subprocess.run(command, input=history, stdout=subprocess.PIPE, check=True).stdout.decode().splitlines()
                found = measure(history, blocks, width, 64)
                self.assertEqual(found.run.line(), line + "\n", (name, blocks, width))
                held = " | ".join(f"{part.objects} {part.blocks}" for part in found.garbage)
                self.assertEqual(held, parts, (name, blocks, width))


if __name__ == "__main__":
    unittest.main()
