"""Old histories, of records of eight bytes: widened, and given as they are."""

from __future__ import annotations

import io
import os
import random
import subprocess
import sys
import tempfile
import unittest
from pathlib import Path
from typing import Dict, Tuple

import huwekapo
from huwekapo import examples, widen, widened, words
from huwekapo.record import RECORD
from huwekapo.widening import ADVICE, OLD_RECORD, may_be_old

from .records import COLLECT, allocate, clear, narrowed, record

TOP = Path(__file__).resolve().parent.parent.parent

#: The program, of the clone or as it is named.
PROGRAM = os.environ.get("HUWEKAPO_WIDEN", str(TOP / "target/bin/widen"))


def plainly(old: bytes) -> bytes:
    """The same by one record at a time."""
    made = b""
    while len(old) >= OLD_RECORD:
        made += old[:6] + bytes(2) + old[6:8] + bytes(2)
        old = old[OLD_RECORD:]
    return made + old


def at_random(seed: int) -> bytes:
    """An old history: records that can be run, any bytes, or both, of any length."""
    chance = random.Random(seed)
    anything = chance.randbytes(chance.choice([0, 1, 5, 7, 8, 9, 63, 64, 65, chance.randrange(5000)]))
    if seed % 3 == 0:
        return anything
    name = chance.choice(list(examples.PROGRAMS))
    some = narrowed(examples.example(name, chance.randrange(1, 3000), seed))
    return some if seed % 3 == 1 else some + anything


def given() -> Dict[str, bytes]:
    """Each example as an old history: those of examples/histories, and the generator's."""
    texts = sorted((TOP / "examples/histories").glob("*.txt"))
    found = {path.name: b"".join(words.assemble(path.read_bytes().splitlines())) for path in texts}
    found.update({name: examples.example(name, 5000) for name in examples.PROGRAMS})
    return {name: narrowed(history) for name, history in found.items()}


class Widening(unittest.TestCase):
    def test_by_hand(self) -> None:
        # "the first four as they were, then cell and size in four bytes each, low byte first"; "a cut-off tail copied as it is".
        old = bytes([3, 1, 2, 0, 5, 6, 0, 0, 99, 98, 97, 96, 95, 94, 93, 92, 1, 2, 3, 4, 5, 6, 7])
        due = bytes([3, 1, 2, 0, 5, 6, 0, 0, 0, 0, 0, 0, 99, 98, 97, 96, 95, 94, 0, 0, 93, 92, 0, 0, 1, 2, 3, 4, 5, 6, 7])
        self.assertEqual(widened(old), due)

    def test_every_tail_and_any_bytes(self) -> None:
        for length in range(50):
            old = random.Random(length).randbytes(length)
            for some in [old, bytearray(old), memoryview(old)]:
                self.assertEqual(widened(some), plainly(old))
        for operation in range(256):
            old = bytes([operation, 255, 255, 255, 255, 255, 255, 255])
            self.assertEqual(widened(old), plainly(old))

    def test_files(self) -> None:
        class Slow(io.BytesIO):
            """Gives what it has in small reads."""

            def read(self, length: int = -1) -> bytes:  # type: ignore[override]
                return super().read(min(length, 1 + self.tell() % 13))

        for length in [0, 1, 7, 8, 9, 4000, 4003]:
            old = random.Random(length).randbytes(length)
            for file in [io.BytesIO(old), Slow(old)]:
                new = io.BytesIO()
                self.assertEqual(widen(file, new), length // OLD_RECORD)
                self.assertEqual(new.getvalue(), plainly(old))
        # More than one piece, and what it is told of it.
        old, new, told = random.Random(1).randbytes(3_000_001), io.BytesIO(), []
        widen(io.BytesIO(old), new, told.append)
        self.assertEqual(new.getvalue(), widened(old))
        self.assertEqual((len(told), told[-1]), (3, 3_000_000))

    def test_pieces(self) -> None:
        old = at_random(4)
        for at in range(0, 800, OLD_RECORD):
            self.assertEqual(widened(old[:at]) + widened(old[at:]), widened(old))

    def test_the_line_is_the_old_one(self) -> None:
        # One record of document 02's trial: what the old form gives on a heap of that size.
        one = bytes([1, 0, 0, 0, 0, 0, 0, 32])
        for blocks, line in [(8192, "1 8192 8192 0 8192 0"), (4096, "refused 3 at record 0")]:
            self.assertEqual(huwekapo.run(widened(one), blocks, may_stop=True).line().strip(), line)
        half = bytes([1, 0, 0, 0, 0, 0, 0, 16])
        self.assertEqual(huwekapo.run(widened(half + half), may_stop=True).stop(), "refused 5 at record 1")
        for tail in range(1, OLD_RECORD):
            self.assertEqual(huwekapo.run(widened(half + half[:tail]), may_stop=True).stop(), "refused 10 at record 1")
        for name, old in given().items():
            with self.subTest(name=name):
                self.assertEqual(narrowed(widened(old)), old)

    @unittest.skipUnless(os.access(PROGRAM, os.X_OK), "the program widen is not built")
    def test_against_the_program(self) -> None:
        files = [at_random(seed) for seed in range(100)]
        files += [random.Random(tail).randbytes(16 + tail) for tail in range(OLD_RECORD)]
        # More than one of the program's pieces, with and without a tail.
        files += [random.Random(length).randbytes(length) for length in (1 << 20, (1 << 20) + 3, 3_000_008)]
        for old in files:
            done = subprocess.run([PROGRAM], input=old, capture_output=True, check=True)
            self.assertEqual((done.stdout == widened(old), done.stderr), (True, b""), len(old))


    @unittest.skipUnless(os.environ.get("HUWEKAPO_MODEL"), "HUWEKAPO_MODEL does not name the model")
    def test_against_the_model(self) -> None:
        # "the widened one must print the line the old form gives on a heap of that size": the model reads the old form itself.
        model = os.environ["HUWEKAPO_MODEL"]
        for old in [at_random(seed) for seed in range(30)] + list(given().values()):
            made = subprocess.run([model, "history", "widen"], input=old, capture_output=True, check=True).stdout
            self.assertEqual(made, widened(old))
            line = subprocess.run([model, "history", "old"], input=old, capture_output=True, check=True).stdout.decode()
            self.assertEqual(line, huwekapo.run(widened(old), may_stop=True).line())


class Unwidened(unittest.TestCase):
    """An old history that is run as it is."""

    def test_it_stops_at_its_first_record(self) -> None:
        for name, old in given().items():
            with self.subTest(name=name):
                run = huwekapo.run(old, may_stop=True)
                self.assertEqual((run.number, run.records), (9, 0))
                one = huwekapo.run(old[:OLD_RECORD], may_stop=True)
                self.assertEqual((one.number, one.records), (10, 0))
                for some in [old, old[:OLD_RECORD]]:
                    with self.assertRaisesRegex(huwekapo.Stopped, "at record 0: .*: an old history of 8-byte records. widen it$"):
                        huwekapo.run(some)
                self.assertEqual(huwekapo.run(widened(old[:OLD_RECORD])).records, 1)

    def test_what_is_none(self) -> None:
        # A record of today that is refused 9, a file that is cut off, what is refused otherwise, or later.
        for history in [
            record(9),
            record(5, unused=1),
            b"\x01",
            7 * b"\x05",
            bytes([9, 0, 0, 0, 0, 0, 0, 0]),
            allocate(0, 0),
            allocate(1, 0) + record(9),
            clear(0) + b"\x05",
            b"",
        ]:
            run = huwekapo.run(history, may_stop=True)
            self.assertFalse(may_be_old(history[:OLD_RECORD], run, 4096, 3, 64), history)
        with self.assertRaises(huwekapo.Stopped) as caught:
            huwekapo.run(record(9))
        self.assertEqual(caught.exception.advice, "")


class Commands(unittest.TestCase):
    def setUp(self) -> None:
        folder = tempfile.TemporaryDirectory()
        self.addCleanup(folder.cleanup)
        self.folder = Path(folder.name)
        self.new = examples.example("caches", 500) + b"\x01\x02"
        self.old = self.folder / "old.history"
        self.old.write_bytes(narrowed(self.new))

    def start(self, *given: object, status: int = 0, text: bytes = b"") -> Tuple[bytes, str]:
        command = [sys.executable, "-m", "huwekapo", *map(str, given)]
        environment = {**os.environ, "PYTHONPATH": str(TOP / "python")}
        done = subprocess.run(command, input=text, env=environment, capture_output=True, check=False)
        self.assertEqual(done.returncode, status, done.stderr)
        return done.stdout, done.stderr.decode()

    def test_widen(self) -> None:
        made = self.folder / "made.history"
        self.assertEqual(self.start("widen", self.old, "-o", made), (b"", ""))
        self.assertEqual(made.read_bytes(), self.new)
        self.assertEqual(self.start("widen", "-", "-o", "-", text=narrowed(self.new)), (self.new, ""))
        self.assertEqual(self.start("widen", self.old, "-o", "-"), (self.new, ""))
        self.assertEqual(self.start("widen", "-", "-o", made), (b"", ""))
        self.assertEqual(made.read_bytes(), b"")
        # In place: what stood there is read before it goes.
        self.start("widen", self.old, "-o", self.old)
        self.assertEqual(self.old.read_bytes(), self.new)
        nowhere = self.folder / "nowhere"
        self.assertEqual(self.start("widen", nowhere, "-o", made, status=1)[1], f"huwekapo: {nowhere}: No such file or directory\n")
        self.assertIn("there is no folder", self.start("widen", self.old, "-o", nowhere / "x", status=1)[1])
        self.start("widen", self.old, status=2)
        with open("/dev/full", "wb") as full:
            command = [sys.executable, "-m", "huwekapo", "widen", str(self.old), "-o", "-"]
            environment = {**os.environ, "PYTHONPATH": str(TOP / "python")}
            self.assertEqual(subprocess.run(command, stdout=full, stderr=subprocess.PIPE, env=environment, check=False).returncode, 1)
        self.assertEqual(sorted(os.listdir(self.folder)), ["made.history", "old.history"])

    def test_advice(self) -> None:
        said = f"{self.old}: {ADVICE}\n"
        for given in [["report"], ["report", "--line"], ["report", "--csv"], ["widths"], ["why", "--records", 3, "--largest"], ["show"]]:
            status = 1 if given[0] == "why" else 3
            with self.subTest(given=given):
                found = self.start(*given, self.old, status=status)[1]
                self.assertEqual(found.count(ADVICE), 1, found)
                self.assertIn(said, found)
        self.assertEqual(self.start("report", "--line", "-", status=3, text=narrowed(self.new))[1], f"<stdin>: {ADVICE}\n")
        self.assertEqual(self.start("report", "--line", self.old, status=3), (b"refused 9 at record 0\n", said))
        found = self.start("same", self.old, self.old, status=3)[1]
        self.assertEqual(found.count(said), 2)
        table = self.folder / "table.csv"
        (self.folder / "new.history").write_bytes(self.new[:-2])
        (self.folder / "bad.history").write_bytes(record(9) + COLLECT)
        found = self.start("sweep", self.folder, "-o", table, "--widths", "2,3", "--jobs", 1, status=3)[1]
        self.assertIn(f"\nold.history: {ADVICE}\n", found)
        self.assertEqual(found.count(ADVICE), 1)
        # Of a history of today there is nothing to say, stopped or not.
        for history in [self.new, record(9) + COLLECT, b"\x01"]:
            self.old.write_bytes(history)
            self.assertNotIn("widen", self.start("report", self.old, status=3)[1])

    def test_advice_of_a_picture(self) -> None:
        try:
            import matplotlib  # noqa: F401
        except ImportError:
            self.skipTest("matplotlib can't be imported")
        found = self.start("plot", self.old, "-o", self.folder / "x.svg", status=3)[1]
        self.assertEqual(found.count(f"{self.old}: {ADVICE}\n"), 1)


if __name__ == "__main__":
    unittest.main()
