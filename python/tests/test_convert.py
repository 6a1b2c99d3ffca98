"""Traces of programs: their form, their conversion to histories, and the check of that."""

from __future__ import annotations

import gzip
import os
import subprocess
import sys
import tempfile
import unittest
from pathlib import Path
from random import Random
from typing import List, Optional, Tuple

import huwekapo
from huwekapo import conversion, convert, events, kept, words
from huwekapo.record import ALLOCATE, ALLOCATE_DATA, RECORD

from .traces import at_random

TOP = Path(__file__).resolve().parent.parent.parent

#: The trace of a real program: main of org.apache.maven.artifact.versioning.ComparableVersion, of Debian 12's libmaven3-core-java 3.8.7-1,
#: with the arguments 1.0 1.0.1 2.0-alpha-1 2.0-beta-3-SNAPSHOT 1.4.5.Final.
REAL = Path(__file__).resolve().parent / "version.events.gz"

#: A node that names another; the other is handed to a method.
SMALL = b"""
C 1 Node
C 2 char[]
A 1 1 o 8        # a node of two fields
E
L 0 1
A 2 1 o 8
L 1 2
U 1 0 2          # the first names the second
A 3 2 n 40       # an array of numbers
U 2 1 3
E
L 0 2            # handed to a method
R 2
X
S 9 2            # a static names the second
L 1 0
X
S 9 0
"""


def lines(text: bytes) -> List[bytes]:
    return text.splitlines(keepends=True)


def encoded(text: List[str]) -> List[bytes]:
    return [f"{line}\n".encode() for line in text]


def converted(text: List[bytes], rule: str, **options: object) -> convert.Converted:
    return convert.convert(events.trace(iter(text), **options), rule)  # type: ignore[arg-type]


def in_words(made: convert.Converted) -> List[str]:
    return "".join(words.words(made.history)).splitlines()


class Forms(unittest.TestCase):
    def test_trace(self) -> None:
        found = events.trace(iter(lines(SMALL)))
        self.assertEqual((found.objects, len(found), found.statics), (3, 16, 1))
        self.assertEqual(found.classes[1:], ["Node", "Node", "char[]"])
        # A word of header, and for the array one of its length: 12 bytes, 12 bytes, 48 bytes.
        self.assertEqual([layout.blocks for layout in found.layouts[1:]], [1, 1, 3])
        self.assertEqual([layout.first for layout in found.layouts[1:]], [1, 1, 2])
        self.assertEqual([layout.blocks for layout in events.trace(iter(lines(SMALL)), header=3).layouts[1:]], [2, 2, 4])

    def test_page(self) -> None:
        # Every line of the page's table is of its form, in the order in which it stands there.
        page = (TOP / "docs/FILES.md").read_text().split("\n## Traces of programs\n")[1].split("\n## ")[0]
        shown = [line.split("`")[1] for line in page.splitlines() if line.startswith("| `")]
        self.assertEqual([line.split()[0] for line in shown], ["C", "A", "E", "L", "U", "S", "R", "X"])
        found = events.trace(iter(encoded(shown)))
        self.assertEqual((found.objects, len(found)), (1, 7))

    def test_what_is_wrong(self) -> None:
        front = b"C 1 Node\nC 2 char[]\nA 1 1 o 8\nA 2 2 n 8\n"
        for line, part in [
            (b"Q 1", "line 5: 'Q' is no event: a line begins with C, A, U, S, E, X, L, R"),
            (b"# a\n\nU 1 0", "line 7: 'U 1 0' is not of the form `U OWNER CELL OBJECT`, each a number"),
            (b"E 1", "line 5: 'E 1' is not of the form `E`"),
            (b"U 1 0 -1", "is not of the form"),
            (b"U 1 2 1", "line 5: object 1 has 8 bytes, and no cell 2"),
            (b"U 2 0 1", "object 2 is an array of numbers, and holds no reference"),
            (b"U 0 0 1", "null has no cells"),
            (b"U 3 0 1", "object 3 was not made before"),
            (b"S 0 3", "object 3 was not made before"),
            (b"R 3", "object 3 was not made before"),
            (b"L 0 1", "a local variable where no method is entered"),
            (b"X", "no method is entered that could be left"),
            (b"E\nX\nX", "line 7: no method is entered"),
            (b"A 1 1 o 8", "object 1 was made already"),
            (b"A 0 1 o 8", "object 0 is null"),
            (b"A 3 9 o 8", "there is no class 9"),
            (b"A 3 1 x 8", "an object is `A OBJECT CLASS KIND BYTES`, its kind o (fields), r (references) or n (numbers)"),
            (b"A 3 1 o", "an object is"),
            (b"A 3 2 n 68719476800", "object 3 has 4,294,967,301 blocks: a record can say 4,294,967,295 at most"),
            (b"A 3 2 r 20000000000\nU 3 4294967294 0", "cell 4294967294 of object 3: a record can name cell 4,294,967,293 at most"),
            (b"C 1 Other", "class 1 stands there already"),
            (b"C 3", "a class is `C CLASS NAME`"),
            (b"\xff", "line 5: byte 1 is no UTF-8"),
        ]:
            with self.subTest(line=line), self.assertRaises(words.TextError) as caught:
                events.trace(iter(lines(front + line + b"\n")))
            self.assertIn(part, str(caught.exception))


class Conversions(unittest.TestCase):
    def same(
        self,
        text: List[bytes],
        rule: str,
        header: int = 1,
        leave_out: Optional[int] = None,
        classes: Optional[List[str]] = None,
    ) -> convert.Converted:
        """Converted, and compared behind every event."""
        made = converted(text, rule, header=header, leave_out=leave_out, classes=classes)
        checked = kept.check(text, made, rule, header, leave_out, classes, most=None)
        self.assertEqual(checked.moments, checked.events)
        return made

    def test_slots(self) -> None:
        made = self.same(lines(SMALL), convert.SLOTS)
        self.assertEqual(
            in_words(made),
            [
                "allocate 1 into 61",  # the static
                "allocate 1 into 0",
                "allocate 1 into 1",
                "write 1 into cell 1 of 0",
                "allocate data 3 into 2",
                "write 2 into cell 2 of 1",
                "clear 2",  # the second node holds the array now
                "copy 1 to 2",  # the method's variable
                "clear 2",
                "write 1 into cell 0 of 61",
                "clear 1",
                "clear 0",  # the first method ends, and the first node with it
                "write 63 into cell 0 of 61",
            ],
        )
        # By the events: the second node has a cell, a static and two variables at most at a time.
        self.assertEqual((made.most_cells[1:], made.most_all[1:]), ([0, 2, 1], [1, 3, 1]))

    def test_uses(self) -> None:
        made = self.same(lines(SMALL), convert.USES)
        self.assertEqual(
            in_words(made),
            [
                "allocate 1 into 61",
                "allocate 1 into 0",
                "allocate 1 into 1",
                "write 1 into cell 1 of 0",
                "clear 1",  # the first node holds the second
                "read cell 1 of 0 into 1",  # which is used later, and the first no more
                "clear 0",
                "allocate data 3 into 0",
                "write 0 into cell 2 of 1",
                "clear 0",
                "write 1 into cell 0 of 61",
                "clear 1",
                "write 63 into cell 0 of 61",
            ],
        )

    def test_at_random(self) -> None:
        moved = stuck = 0
        for seed in range(200):
            text = at_random(seed, 120 if seed % 10 else 400)
            header = seed % 3
            for rule in convert.RULES:
                with self.subTest(seed=seed, rule=rule):
                    made = self.same(text, rule, header)
                    moved += made.added.moved
                    trace = events.trace(iter(text), header)
                    # As the library runs it: all records, and a collection leaves what is alive.
                    heap = huwekapo.Heap(8192, 1 + seed % 4)
                    run = huwekapo.History(made.history).run(heap)
                    self.assertEqual(run.figures.allocations, trace.objects + made.prologue)
                    stuck += run.figures.stuck
                    heap.collect()
                    program = kept._Program(text, None, None, rule == convert.SLOTS)
                    for at in range(len(program)):
                        program.step(at)
                    self.assertEqual(len(huwekapo.objects(heap)), len(program.alive(len(program))) + made.prologue)
                    self.assertTrue(all(one <= two for one, two in zip(made.most_cells[1:], made.most_all[1:])))
        # Variables that find no root, and objects that stick, are among them.
        self.assertGreater(moved, 50)
        self.assertGreater(stuck, 1000)

    def test_left_out(self) -> None:
        for seed in range(30):
            text = at_random(seed, 200)
            for rule in convert.RULES:
                for options in [{"leave_out": 29}, {"classes": ["own.*"]}, {"leave_out": 0, "classes": ["*String", "char*"]}]:
                    with self.subTest(seed=seed, rule=rule, **options):
                        self.same(text, rule, **options)  # type: ignore[arg-type]
        found = events.trace(iter(text), classes=["own.*"])
        self.assertTrue(all(name.startswith("own.") for name in found.classes[1:]))
        self.assertEqual(found.objects + found.other_classes.objects, events.trace(iter(text)).objects)

    def test_many_variables(self) -> None:
        numbers = range(1, 301)
        text = ["C 1 Node", "E"]
        for number in numbers:
            text += [f"A {number} 1 o 4", f"L {number} {number}"]
        text += [f"U {number} 0 {301 - number}" for number in numbers]
        text += ["E", *(f"L {number} {number}" for number in numbers), "X", "X"]
        made = self.same(encoded(text), convert.SLOTS)
        # 600 variables, of which 61 have roots.
        self.assertGreaterEqual(made.added.pool, 600 - 61)
        self.assertGreaterEqual(self.same(encoded(text), convert.USES).added.pool, 300 - 61)

    def test_a_shortest_path(self) -> None:
        # A list of 40 nodes that a static names; node 1 names node 30 too. Then the last is written.
        text = ["C 1 Node", "A 1 1 o 8", "S 0 1"]
        for number in range(2, 41):
            text += [f"A {number} 1 o 8", f"U {number - 1} 0 {number}"]
        text += ["U 1 1 30", "U 40 1 40"]
        found = in_words(self.same(encoded(text), convert.USES))[-14:]
        root = found[-1].split()[1]
        self.assertEqual(found[0], f"read cell 0 of 61 into {root}")
        self.assertEqual(found[1], f"read cell 2 of {root} into {root}")
        self.assertEqual(found[2:12], 10 * [f"read cell 1 of {root} into {root}"])
        self.assertEqual(found[12:], [f"write {root} into cell 2 of {root}", f"clear {root}"])

    def test_a_real_one(self) -> None:
        with events.opened(REAL) as file:
            text = file.readlines()
        trace = events.trace(iter(text))
        for rule, due in [(convert.SLOTS, 9783), (convert.USES, 1583)]:
            made = converted(text, rule)
            self.assertEqual(kept.check(text, made, rule, 1, most=500).moments, 500)
            self.assertEqual(len(made.history) // RECORD, due)
            runs = [huwekapo.run(made.history, width=width).figures for width in (1, 2, 3, 4)]
            self.assertEqual([figures.allocations for figures in runs], 4 * [trace.objects + 1])
            # At these widths nothing that sticks holds others for longer: whoever has so many references sticks, and no other.
            found = conversion.References.of(conversion.met(made, trace.objects)[1:])
            self.assertEqual(found.stuck[2:], [figures.stuck for figures in runs[2:]])


class Checks(unittest.TestCase):
    def spoilt(self, text: List[bytes], rule: str, made: convert.Converted, history: bytes) -> bool:
        """Whether another history is noticed."""
        try:
            kept.check(text, made._replace(history=history), rule, 1, most=None)
        except kept.NotKept:
            return True
        return False

    def test_spoilt_records(self) -> None:
        noticed = tried = 0
        for seed in range(25):
            text = at_random(seed, 100)
            chance = Random(seed)
            for rule in convert.RULES:
                made = converted(text, rule)
                for _ in range(5):
                    at = RECORD * chance.randrange(len(made.history) // RECORD)
                    history = bytearray(made.history)
                    place = chance.choice([0, 1, 2, 4, 8])
                    history[at + place] = chance.choice([number for number in range(9) if number != history[at + place]])
                    found = self.spoilt(text, rule, made, bytes(history))
                    tried, noticed = tried + 1, noticed + found
                    if made.history[at] in (ALLOCATE, ALLOCATE_DATA) and at >= RECORD * made.prologue and place != 1:
                        # Another size, another kind, or a field that has to be 0.
                        self.assertTrue(found, (seed, rule, at, place))
                # A record more.
                self.assertTrue(self.spoilt(text, rule, made, made.history + made.history[-RECORD:]))
                self.assertTrue(self.spoilt(text, rule, made, made.history[:-RECORD]) or made.marks[-1] == 0)
        # Some are equal in effect: a null written over a null, a root cleared that the same event fills again.
        self.assertGreater(noticed, 0.85 * tried)

    def test_moments(self) -> None:
        self.assertEqual(kept.moments(5), [0, 1, 2, 3, 4])
        self.assertEqual(kept.moments(100, 3), [0, 49, 99])
        self.assertEqual(len(kept.moments(10**6)), kept.MOMENTS)

    def test_other_events(self) -> None:
        made = converted(lines(SMALL), convert.SLOTS)
        for old, new in [(b"U 1 0 2", b"U 1 1 2"), (b"S 9 2", b"S 9 1"), (b"L 1 0", b"L 0 0"), (b"n 40", b"n 41"), (b"R 2", b"")]:
            with self.subTest(old=old), self.assertRaises(kept.NotKept):
                kept.check(lines(SMALL.replace(old, new)), made, convert.SLOTS, 1, most=None)
        with self.assertRaises(kept.NotKept):
            kept.check(lines(SMALL), made, convert.SLOTS, 2, most=None)
        with self.assertRaises(kept.NotKept):
            kept.check(lines(SMALL), made, convert.USES, 1, most=None)


class Commands(unittest.TestCase):
    def setUp(self) -> None:
        folder = tempfile.TemporaryDirectory()
        self.addCleanup(folder.cleanup)
        self.folder = Path(folder.name)
        self.events = self.folder / "own.events"
        self.events.write_bytes(SMALL)
        self.history = self.folder / "own.history"

    def start(self, *words: object, status: int = 0) -> Tuple[bytes, str]:
        environment = {**os.environ, "PYTHONPATH": str(TOP / "python")}
        command = [sys.executable, "-m", "huwekapo", "convert", *map(str, words)]
        done = subprocess.run(command, env=environment, capture_output=True, check=False)
        self.assertEqual(done.returncode, status, done.stderr)
        self.assertNotIn(b"Traceback", done.stderr)
        return done.stdout, done.stderr.decode()

    def test_history(self) -> None:
        said = self.start(self.events, "-o", self.history)[0].decode()
        made = converted(lines(SMALL), convert.SLOTS)
        self.assertEqual(self.history.read_bytes(), made.history)
        self.assertIn("16 events: 3 objects of 2 classes, 5 blocks in all, 5 at most at a time\n", said)
        self.assertIn("13 records by the rule slots: each local variable is a reference\n", said)
        self.assertIn("added:    an object of 1 block for 1 static\n", said)
        self.assertIn("left out: nothing\nnot kept: the numbers in fields", said)
        self.assertIn("checked:  behind 16 of 16 events the same objects", said)
        self.assertRegex(said, r"by local variables too +33\.33 +0\.00 +0\.00 +0\.00 +3\n")
        self.assertRegex(said, r"\n  Node +2 +1 +0 +0 +1 +0 +0 +0 +3\n")
        # To standard output; what there is to say goes elsewhere.
        self.assertEqual(self.start(self.events, "-o", "-"), (made.history, said))
        # The other rule, and a packed file.
        packed = self.folder / "own.events.gz"
        packed.write_bytes(gzip.compress(SMALL))
        said = self.start(packed, "-o", self.history, "--stack", "uses", "--no-check", "--header", 2)[0].decode()
        self.assertEqual(self.history.read_bytes(), converted(lines(SMALL), convert.USES, header=2).history)
        self.assertIn("\nchecked:  no: ", said)
        self.assertIn("by the rule uses: local variables are no references", said)

    def test_left_out(self) -> None:
        said = self.start(self.events, "-o", self.history, "--leave-out", 39)[0].decode()
        self.assertIn("left out: 1 array of numbers above 39 bytes, 40 bytes in all\n", said)
        said = self.start(self.events, "-o", self.history, "--classes", "char*,Other")[0].decode()
        self.assertIn("left out: 2 objects of classes other than char*, Other, 16 bytes in all, and the references", said)
        self.assertIn("1 object of 1 class, ", said)

    def test_table(self) -> None:
        said = self.start(self.events, "-o", self.history, "--table", "--blocks", 8)[0].decode()
        rows = [line.split() for line in said.split("both rules by count width\n")[1].splitlines()[2:]]
        self.assertEqual([row[:3] for row in rows], [[rule, "8", str(width)] for rule in ("slots", "uses") for width in (1, 2, 3, 4)])
        # A run that stops for want of room is told, by its status too.
        large = self.folder / "large.events"
        large.write_bytes(b"C 1 Node[]\nA 1 1 r 200\nS 0 1\n")
        self.assertIn("refused 3 at record 1", self.start(large, "-o", self.history, "--table", "--blocks", 8, status=3)[0].decode())

    def test_what_is_wrong(self) -> None:
        self.history.write_bytes(b"before")
        self.events.write_bytes(SMALL + b"U 7 0 0\n")
        number = SMALL.count(b"\n") + 1
        said = self.start(self.events, "-o", self.history, status=1)[1]
        self.assertEqual(said, f"huwekapo: {self.events}: line {number}: object 7 was not made before\n")
        self.events.write_bytes(b"# nothing\n")
        self.assertIn("there is no event in it", self.start(self.events, "-o", self.history, status=1)[1])
        packed = self.folder / "own.events.gz"
        packed.write_bytes(gzip.compress(SMALL)[:-9])
        self.assertIn("can't be unpacked", self.start(packed, "-o", self.history, status=1)[1])
        packed.write_bytes(SMALL)
        self.assertIn("gzip", self.start(packed, "-o", self.history, status=1)[1])
        for name in ["/dev/null", self.folder]:
            self.assertIn("is no regular file", self.start(name, "-o", self.history, status=1)[1])
        self.assertIn("No such file", self.start(self.folder / "nowhere", "-o", self.history, status=1)[1])
        for wrong, part in [
            (["--header", "17"], "17: 0 to 16 words"),
            (["--classes", "a,,b"], "patterns of names"),
            (["--stack", "x"], "invalid choice"),
        ]:
            self.assertIn(part, self.start(self.events, "-o", self.history, *wrong, status=2)[1])
        self.assertEqual(self.history.read_bytes(), b"before")


if __name__ == "__main__":
    unittest.main()
