"""The copy into a second heap, and what it gains."""

import io
import unittest

from huwekapo import Heap, History, Number, Recorder, Refused, compact, largest_chunk, same_shape
from huwekapo.compact import lets_go_on


def fragmented() -> Heap:
    """Objects of one block at every other block of eight: four blocks are free, and no chunk of two."""
    heap = Heap(8, 2, 8)
    for root in range(8):
        heap.allocate(1, root)
    for root in range(0, 8, 2):
        heap.store_root(root, 0)
    return heap


class Copies(unittest.TestCase):
    def test_objects_lie_in_the_order_of_their_numbers(self) -> None:
        heap = Heap(8, 2, 3)
        for root in (2, 1, 0):
            heap.allocate(1, root)
        heap.store_cell(2, 0, 1)
        heap.store_root(2, 0)
        second = Heap(16, 3, 3)
        self.assertEqual(heap.copy_into(second), 3)
        self.assertEqual((list(second.a), list(second.roots)), ([7, 0], [1, 2, 0]))
        # The object that root 0 names is met before that of root 1, and what its cell names behind both.
        self.assertEqual(second.cells[0], 3)
        self.assertTrue(same_shape(heap, second))
        self.assertEqual([second.look(block).count for block in range(3)], [1, 1, 1])
        second.check()

    def test_whatever_stood_there_is_gone(self) -> None:
        heap, second = Heap(8, 2, 2), Heap(64, 4, 2)
        second.allocate(40, 0)
        second.open_collection()
        self.assertEqual(heap.copy_into(second), 0)
        self.assertEqual(second, Heap(64, 4, 2))

    def test_the_first_heap_is_only_read(self) -> None:
        heap = fragmented()
        before, waiting = heap.copy(), bytes(heap.waiting)
        heap.copy_into(Heap(8, 1, 8))
        self.assertEqual((heap, bytes(heap.waiting)), (before, waiting))

    def test_data_is_copied_as_it_is(self) -> None:
        heap = Heap(8, 2, 2)
        heap.allocate_data(1, 1)
        heap.allocate(1, 0)
        heap.write_number(0, 2, 2)
        second = Heap(8, 2, 2)
        heap.copy_into(second)
        self.assertEqual((list(second.data), second.read_number(1, 2), list(second.roots)), ([2], 2, [1, 2]))

    def test_stuck_counts_are_counted_anew(self) -> None:
        heap = Heap(8, 2, 4)
        heap.allocate(1, 0)
        for root in (1, 2):
            heap.store_root(root, 1)
        for root in (1, 2):
            heap.store_root(root, 0)
        self.assertEqual(heap.look(0).count, 3)
        for width in range(1, 5):
            second = Heap(8, width, 4)
            heap.copy_into(second)
            self.assertEqual(second.look(0).count, 1)

    def test_refusals_change_neither(self) -> None:
        whole = Heap(16, 2, 1)
        whole.allocate(9, 0)
        opened = whole.copy()
        opened.open_collection()
        for first, second, number in (
            (whole, Heap(8, 2, 1), Number.NO_PLACE),
            (whole, Heap(16, 2, 2), Number.MISSHAPEN),
            (opened, Heap(16, 2, 1), Number.OUT_OF_TURN),
            (opened, Heap(8, 2, 1), Number.OUT_OF_TURN),
        ):
            before = first.copy(), second.copy()
            with self.assertRaises(Refused) as raised:
                first.copy_into(second)
            self.assertEqual(raised.exception.number, number)
            self.assertEqual((first, second), before)
        with self.assertRaises(ValueError):
            whole.copy_into(whole)


class Gains(unittest.TestCase):
    def test_largest_chunks(self) -> None:
        self.assertEqual(largest_chunk(Heap(64, 2, 1)), 64)
        heap = Heap(8, 2, 8)
        for root, chunk in enumerate((4, 4, 4, 4, 2, 2, 1, 0)):
            heap.allocate(1, root)
            self.assertEqual(largest_chunk(heap), chunk)

    def test_free_blocks_lie_together(self) -> None:
        heap = fragmented()
        before = heap.copy()
        self.assertEqual(compact(heap), (4, 4, 1, 4))
        self.assertEqual(heap, before)

    def test_garbage_is_left(self) -> None:
        heap = Heap(8, 1, 2)
        heap.allocate(2, 0)
        heap.store_root(0, 0)
        self.assertEqual(compact(heap), (2, 0, 4, 8))

    def test_runs_that_a_copy_lets_go_on(self) -> None:
        for size, goes_on in ((4, True), (8, False)):
            file = io.BytesIO()
            with Recorder(file) as recorder:
                for root in range(8):
                    recorder.allocate(1, root)
                for root in range(0, 8, 2):
                    recorder.clear(root)
                recorder.allocate(size, 0)
            history = History(file.getvalue())
            heap = Heap(8, 4, 8)
            run = history.run(heap, may_stop=True)
            self.assertEqual((run.number, run.records), (5, 12))
            self.assertIs(lets_go_on(heap, history, run.records), goes_on)
        self.assertIsNone(lets_go_on(heap, history, 8))


if __name__ == "__main__":
    unittest.main()
