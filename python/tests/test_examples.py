"""The example histories."""

from __future__ import annotations

import hashlib
import io
import unittest

import huwekapo
from huwekapo import examples
from huwekapo.library import REPORT_BLOCKS
from huwekapo.measures import measure
from huwekapo.record import RECORD

from .records import narrowed


class Examples(unittest.TestCase):
    def test_they_run(self) -> None:
        for name in examples.PROGRAMS:
            for seed in range(3):
                history = examples.example(name, 20_000, seed)
                self.assertEqual(len(history), RECORD * 20_000)
                for blocks in [1024, REPORT_BLOCKS]:
                    run = huwekapo.run(history, blocks, may_stop=True)
                    with self.subTest(name=name, seed=seed, blocks=blocks, line=run.line()):
                        # The leak outgrows a small heap; nothing else stops.
                        self.assertEqual(run.number, 5 if (name, blocks) == ("leak", 1024) else 0)
                        self.assertGreater(run.figures.allocations, run.records // 10)

    def test_any_length(self) -> None:
        whole = examples.example("trees", 500)
        for records in [0, 1, 2, 77, 499]:
            self.assertEqual(examples.example("trees", records), whole[: RECORD * records])

    def test_seeds(self) -> None:
        for name in examples.PROGRAMS:
            self.assertEqual(examples.example(name, 1000, 5), examples.example(name, 1000, 5))
            self.assertNotEqual(examples.example(name, 1000, 5), examples.example(name, 1000, 6))

    def test_the_same_everywhere(self) -> None:
        # On every version of Python: the figures of README.md are theirs.
        every = b"".join(examples.example(name, 2000, 1) for name in examples.PROGRAMS)
        self.assertEqual(hashlib.sha256(narrowed(every)).hexdigest(), DIGEST)
        self.assertEqual(huwekapo.widened(narrowed(every)), every)

    def test_what_they_show(self) -> None:
        by_width = {
            name: [measure(io.BytesIO(examples.example(name, 50_000)), 8192, width, 64) for width in range(1, 5)]
            for name in examples.PROGRAMS
        }
        # Wide counts get on with less memory where objects are shared ..
        for name in ["calls", "caches"]:
            peaks = [one.run.figures.peak for one in by_width[name]]
            self.assertEqual(peaks, sorted(peaks, reverse=True), name)
            self.assertGreater(peaks[0], 2 * peaks[3], name)
            self.assertEqual(by_width[name][3].garbage.cycles.blocks, 0, name)
        # Pixels are most of what images has, and no other program has any.
        for name, (*_, widest) in by_width.items():
            kinds = widest.kinds
            self.assertEqual(kinds.data.blocks > 5 * kinds.objects.blocks, name == "images", name)
            self.assertEqual(kinds.data.blocks == 0, name != "images", name)
        # .. and don't help where there are cycles.
        for name in ["lists", "trees"]:
            self.assertEqual(by_width[name][3].garbage.stuck.blocks, 0, name)
            self.assertGreater(by_width[name][3].garbage.cycles.blocks, 1000, name)
            # What narrow counts hold of them is mostly behind cycles too.
            self.assertGreater(by_width[name][0].garbage.both.blocks, 1000, name)


# Of the bytes as they were when a record had eight: the programs are the same.
DIGEST = "55ee933256f726fc4d1bf8dd59bbbe08b95c6a666b68ebd7f758769e0bce253d"

if __name__ == "__main__":
    unittest.main()
