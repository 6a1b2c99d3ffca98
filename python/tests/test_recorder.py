"""Histories of one's own: the recorder, its reader, the text form, and the recorder of C."""

from __future__ import annotations

import io
import os
import random
import shutil
import subprocess
import sys
import tempfile
import unittest
from pathlib import Path
from typing import List, Tuple

import huwekapo
from huwekapo import Recorder, record, words
from huwekapo.record import Record

TOP = Path(__file__).resolve().parent.parent.parent

#: A program that takes `operation d s c size` from standard input, line by line, and calls the functions of huwekapo_record.h.
DRIVER = r"""
#include <stdio.h>
#include "huwekapo_record.h"
static int out(void *to, const uint8_t *bytes, size_t length) { return fwrite(bytes, 1, length, (FILE *)to) != length; }
int main(int argc, char **argv) {
    static uint8_t buffer[65536];
    size_t room = 0, o, d, s, c, n;
    if (argc != 3 || sscanf(argv[1], "%zu", &room) != 1 || room > sizeof buffer) return 99;
    struct huwekapo_recorder r = huwekapo_recorder_in(buffer, room, argv[2][0] == 'c' ? out : 0, stdout);
    while (scanf("%zu %zu %zu %zu %zu", &o, &d, &s, &c, &n) == 5) switch (o) {
        case 1: huwekapo_record_allocate(&r, n, d); break;
        case 2: huwekapo_record_copy(&r, s, d); break;
        case 3: huwekapo_record_write(&r, s, c, d); break;
        case 4: huwekapo_record_read(&r, c, s, d); break;
        case 5: huwekapo_record_clear(&r, d); break;
        case 6: huwekapo_record_collect(&r); break;
        case 7: huwekapo_record_allocate_data(&r, n, d); break;
        case 8: huwekapo_record_write_number(&r, n, c, d); break;
    }
    huwekapo_recorder_end(&r);
    fwrite(buffer, 1, r.length, stdout);
    return r.wrong;
}
"""


def at_random(seed: int, number: int) -> List[Record]:
    """Records with all fields that their operations name."""
    chance = random.Random(seed)
    made = []
    for _ in range(number):
        operation = chance.randrange(1, 9)
        named = {part.lower() for part in words.FORMS[operation]}
        fields = {"d": chance.choice([0, 63, 255, chance.randrange(256)]), "s": chance.randrange(256)}
        largest = record.LARGEST_NUMBER
        fields.update(c=chance.choice([0, 65536, largest, chance.randrange(largest)]), size=chance.choice([1, 256, 2**24, chance.randrange(largest)]))
        if operation == record.COLLECT:
            named = set()
        made.append(Record(operation, **{name: value for name, value in fields.items() if name in named}))
    return made


def recorded(some: List[Record]) -> bytes:
    """What a recorder writes of them."""
    file = io.BytesIO()
    with Recorder(file) as recorder:
        for operation, d, s, c, size, _ in some:
            {
                record.ALLOCATE: lambda: recorder.allocate(size, d),
                record.COPY: lambda: recorder.copy(s, d),
                record.WRITE: lambda: recorder.write(s, c, d),
                record.READ: lambda: recorder.read(c, s, d),
                record.CLEAR: lambda: recorder.clear(d),
                record.COLLECT: lambda: recorder.collect(),
                record.ALLOCATE_DATA: lambda: recorder.allocate_data(size, d),
                record.WRITE_NUMBER: lambda: recorder.write_number(size, c, d),
            }[operation]()
    return file.getvalue()


class Recorders(unittest.TestCase):
    def test_bytes(self) -> None:
        some = at_random(1, 20_000)
        made = recorded(some)
        self.assertEqual(made, b"".join(one.packed() for one in some))
        self.assertEqual(list(huwekapo.records(made)), some)
        # Eight operations, by hand.
        file = io.BytesIO()
        with Recorder(file) as recorder:
            recorder.allocate(2, 3)
            recorder.copy(1, 3)
            recorder.write(1, 7, 2)
            recorder.read(2305, 2, 5)
            recorder.clear(4)
            recorder.collect()
            recorder.allocate_data(257, 1)
            recorder.write_number(4294901760, 16909060, 1)
            self.assertEqual(recorder.records, 8)
        due = " ".join(
            [
                "01 03 00 00 00 00 00 00 02 00 00 00",
                "02 03 01 00 00 00 00 00 00 00 00 00",
                "03 02 01 00 07 00 00 00 00 00 00 00",
                "04 05 02 00 01 09 00 00 00 00 00 00",
                "05 04 00 00 00 00 00 00 00 00 00 00",
                "06 00 00 00 00 00 00 00 00 00 00 00",
                "07 01 00 00 00 00 00 00 01 01 00 00",
                "08 01 00 00 04 03 02 01 00 00 ff ff",
            ]
        )
        self.assertEqual(file.getvalue().hex(" "), due)

    def test_a_run(self) -> None:
        with tempfile.TemporaryDirectory() as folder:
            path = Path(folder, "made.history")
            with self.assertRaises(ZeroDivisionError), Recorder(path) as recorder:
                recorder.allocate(2, 0)
                recorder.allocate(1, 1)
                recorder.allocate(3, 2)
                1 // 0
            # What was recorded before the program failed can be run.
            self.assertEqual(huwekapo.run(path).line(), "3 6 3 0 6 0\n")
            with self.assertRaisesRegex(ValueError, "closed"):
                recorder.collect()
            recorder.close()

    def test_ranges(self) -> None:
        file = io.BytesIO()
        with Recorder(file) as recorder:
            recorder.clear(255)
            for act, part in [
                (lambda: recorder.allocate(2**32, 0), "record 1: size 4294967296 is not from 0 to 4,294,967,295"),
                (lambda: recorder.allocate(1, 256), "record 1: root 256 is not from 0 to 255"),
                (lambda: recorder.copy(-1, 0), "root -1"),
                (lambda: recorder.read(2**32, 0, 0), "cell 4294967296"),
                (lambda: recorder.write_number(-1, 0, 0), "number -1"),
            ]:
                with self.assertRaisesRegex(OverflowError, part):
                    act()
            with self.assertRaises(TypeError):
                recorder.clear(1.0)  # type: ignore[arg-type]
        self.assertEqual(len(file.getvalue()), record.RECORD)

    def test_whole_records_at_any_time(self) -> None:
        class Slow(io.RawIOBase):
            """Takes a few bytes at a time."""

            def __init__(self) -> None:
                self.taken = bytearray()

            def write(self, some) -> int:  # type: ignore[no-untyped-def, override]
                self.taken += bytes(some)[:1000]
                return min(len(some), 1000)

        slow = Slow()
        some = at_random(2, 20_000)
        recorder = Recorder(slow)  # type: ignore[arg-type]
        for one in some:
            recorder._append(*one[:5])
            if recorder.records % 1000 == 0:
                self.assertEqual(len(slow.taken) % record.RECORD, 0)
        recorder.close()
        self.assertEqual(bytes(slow.taken), b"".join(one.packed() for one in some))


class Readers(unittest.TestCase):
    def test_cut_off(self) -> None:
        found = huwekapo.records(Record(6).packed() + b"abc")
        self.assertEqual(next(found), Record(6))
        with self.assertRaisesRegex(huwekapo.CutOff, "bytes: ends inside record 1: 3 of its 12 bytes are there"):
            next(found)
        self.assertEqual(list(huwekapo.records(b"")), [])

    def test_what_is_no_operation(self) -> None:
        odd = bytes([9, *range(1, 12)])
        (one,) = huwekapo.records(odd)
        self.assertEqual((one, one.packed()), (Record(9, 1, 2, 0x07060504, 0x0B0A0908, 3), odd))
        with self.assertRaisesRegex(ValueError, "12 bytes, and these are 11"):
            Record.of(odd[:11])

    def test_long(self) -> None:
        some = at_random(3, 140_000)
        self.assertEqual(list(huwekapo.records(io.BytesIO(recorded(some)))), some)


class Words(unittest.TestCase):
    def assembled(self, text: str) -> bytes:
        return b"".join(words.assemble(text.encode().splitlines()))

    def test_each_line(self) -> None:
        # The table of docs/FILES.md.
        page = (TOP / "docs/FILES.md").read_text().split("## Recorded histories")[1].split("\n## ")[0]
        lines = [line.split("`")[1] for line in page.split("### As text")[1].splitlines() if line.startswith("| `")]
        self.assertEqual(len(lines), 9)
        made = self.assembled("\n".join(lines))
        self.assertEqual("".join(words.words(made)), "\n".join(lines) + "\n")
        self.assertEqual([one.operation for one in huwekapo.records(made)], [1, 2, 3, 4, 5, 6, 7, 8, 5])

    def test_there_and_back(self) -> None:
        chance = random.Random(5)
        anything = bytes(chance.choice([0, 0, 1, 3, 6, 255]) for _ in range(40_003))
        for history in [b"", anything, recorded(at_random(4, 5000)), b"\6"]:
            text = "".join(words.words(history))
            self.assertEqual(self.assembled(text), history)
        self.assertIn("\nbytes ", "".join(words.words(anything)))

    def test_comments(self) -> None:
        self.assertEqual(self.assembled("\ufeff# a\r\n\n  collect # b\r\n\tclear   007\n"), Record(6).packed() + Record(5, d=7).packed())

    def test_what_is_wrong(self) -> None:
        for text, part in [
            ("collect\n\nalocate 2 into 0", "line 3: 'alocate' begins no record: a line begins with allocate, copy, write, read, clear, collect"),
            ("allocate 2 in 0", "line 1: 'allocate 2 in 0' is no record: write `allocate SIZE into ROOT` or `allocate data SIZE into ROOT`"),
            ("write number 7 in cell 3 of 0", "`write number NUMBER into cell CELL of ROOT`"),
            ("collect now", "line 1: 'collect now' is no record: write `collect`"),
            ("allocate 4294967296 into 0", "line 1: 4294967296 is too large: a size is from 0 to 4,294,967,295"),
            ("write number 4294967296 into cell 0 of 0", "4294967296 is too large: a number is from 0 to 4,294,967,295"),
            ("clear 256", "256 is too large: a root is from 0 to 255"),
            ("clear " + "9" * 9999, "9 is too large"),
            ("clear -1", "line 1: '-1' is no number: a root is from 0 to 255"),
            ("allocate data into 0", "'data' is no number: a size"),
            ("read cell x of 0 into 0", "'x' is no number: a cell is from 0 to 4,294,967,295"),
            ("bytes", "line 1: bytes takes 1 to 12 numbers, and here are 0"),
            ("bytes 1 2 3 4 5 6 7 8 9 10 11 12 13", "and here are 13"),
            ("bytes 256", "256 is too large: a byte is from 0 to 255"),
            ("bytes 1 2\n# x\ncollect", "line 3: stands behind a record that is cut off, in line 1: only the last may be"),
        ]:
            with self.subTest(text=text[:40]), self.assertRaises(words.TextError) as caught:
                self.assembled(text)
            self.assertIn(part, str(caught.exception))
        with self.assertRaisesRegex(words.TextError, "line 2: byte 1 is no UTF-8"):
            list(words.assemble([b"collect\n", b"\xff\n"]))

    def test_examples(self) -> None:
        texts = sorted((TOP / "examples/histories").glob("*.txt"))
        self.assertGreater(len(texts), 5)
        lines = (TOP / "examples/histories/README.md").read_text()
        for path in texts:
            made = b"".join(words.assemble(path.read_bytes().splitlines()))
            self.assertIn(f"`{huwekapo.run(made, may_stop=True).line().strip()}`", lines, path.name)

    @unittest.skipUnless(os.environ.get("HUWEKAPO_MODEL"), "HUWEKAPO_MODEL does not name the model")
    def test_against_the_model(self) -> None:
        model = os.environ["HUWEKAPO_MODEL"]
        for history in [recorded(at_random(6, 3000)), random.Random(7).randbytes(5003), b""]:
            text = "".join(words.words(history)).encode()
            asked = [([model, "history", "words"], history, text), ([model, "history", "assemble"], text, history)]
            for command, given, due in asked:
                self.assertEqual(subprocess.run(command, input=given, capture_output=True, check=True).stdout, due)


class Commands(unittest.TestCase):
    def start(self, *words: object, status: int = 0, given: bytes = b"") -> Tuple[bytes, str]:
        command = [sys.executable, "-m", "huwekapo", *map(str, words)]
        environment = {**os.environ, "PYTHONPATH": str(TOP / "python")}
        done = subprocess.run(command, input=given, env=environment, capture_output=True, check=False)
        self.assertEqual(done.returncode, status, done.stderr)
        return done.stdout, done.stderr.decode()

    def test_there_and_back(self) -> None:
        with tempfile.TemporaryDirectory() as folder:
            text, made = Path(folder, "a.txt"), Path(folder, "a.history")
            text.write_text("allocate 2 into 0 # one\nbytes 1 2\n")
            self.assertEqual(self.start("assemble", text, "-o", made), (b"", ""))
            self.assertEqual(self.start("words", made), (b"allocate 2 into 0\nbytes 1 2\n", ""))
            self.assertEqual(self.start("words", "-", given=made.read_bytes())[0], b"allocate 2 into 0\nbytes 1 2\n")
            self.assertEqual(self.start("assemble", "-", "-o", "-", given=text.read_bytes())[0], made.read_bytes())
            # A text with a fault: the line is named, and what stood there stands.
            text.write_text("collect\nclear 300\n")
            said = self.start("assemble", text, "-o", made, status=1)[1]
            self.assertEqual(said, f"huwekapo: {text}: line 2: 300 is too large: a root is from 0 to 255\n")
            self.assertEqual(made.stat().st_size, record.RECORD + 2)
            said = self.start("assemble", "-", "-o", "-", status=1, given=b"x")
            self.assertEqual((said[0], said[1][:42]), (b"", "huwekapo: standard input: line 1: 'x' begi"))
            self.assertIn("No such file", self.start("assemble", Path(folder, "b"), "-o", made, status=1)[1])
            self.assertIn("No such file", self.start("words", Path(folder, "b"), status=1)[1])
            self.assertIn("there is no folder", self.start("assemble", text, "-o", Path(folder, "b", "c"), status=1)[1])
            self.assertEqual(sorted(os.listdir(folder)), ["a.history", "a.txt"])


COMPILER = shutil.which(os.environ.get("CC", "cc"))


@unittest.skipUnless(COMPILER, "there is no C compiler")
class InC(unittest.TestCase):
    @classmethod
    def setUpClass(cls) -> None:
        folder = tempfile.TemporaryDirectory()
        cls.addClassCleanup(folder.cleanup)
        cls.folder = Path(folder.name)
        source = cls.folder / "driver.c"
        source.write_text(DRIVER)
        cls.driver = cls.compiled(source, "driver")

    @classmethod
    def compiled(cls, source: Path, name: str) -> Path:
        made = cls.folder / name
        strict = ["-std=c11", "-Wall", "-Wextra", "-Wpedantic", "-Werror", "-O2"]
        subprocess.run([str(COMPILER), *strict, "-I", str(TOP / "include"), str(source), "-o", str(made)], check=True)
        return made

    def drive(self, some: List[Record], room: int, way: str) -> Tuple[int, bytes]:
        given = "".join(" ".join(map(str, one[:5])) + "\n" for one in some)
        done = subprocess.run([self.driver, str(room), way], input=given.encode(), capture_output=True, check=False)
        return done.returncode, done.stdout

    def test_byte_for_byte(self) -> None:
        some = at_random(8, 5000)
        due = recorded(some)
        self.assertEqual(self.drive(some, len(due), "buffer"), (0, due))
        for room in [12, 13, 24, 4096, 65536]:
            self.assertEqual(self.drive(some, room, "callback"), (0, due), room)

    def test_what_is_wrong(self) -> None:
        some = at_random(9, 100)
        due = recorded(some)
        self.assertEqual(self.drive(some, len(due) - 1, "buffer"), (1, due[: -record.RECORD]))
        self.assertEqual(self.drive(some, record.RECORD - 1, "callback"), (1, b""))
        for bad in [Record(1, 256, 0, 0, 1), Record(2, 0, 256), Record(3, 0, 0, 2**32), Record(8, 0, 0, 0, 2**32), Record(5, 2**32)]:
            # What was recorded before is there, and nothing behind it.
            self.assertEqual(self.drive(some[:50] + [bad] + some[50:], 64, "callback"), (2, due[: 50 * record.RECORD]))

    def test_not_taken(self) -> None:
        given = "".join("6 0 0 0 0\n" for _ in range(10_000)).encode()
        with open("/dev/full", "wb") as full:
            done = subprocess.run([self.driver, "65536", "callback"], input=given, stdout=full, check=False)
        self.assertEqual(done.returncode, 3)

    def test_the_example(self) -> None:
        program = self.compiled(TOP / "examples/record.c", "record")
        done = subprocess.run([program], capture_output=True, check=True)
        self.assertEqual(done.stderr, b"43 records\n")
        text = "".join(words.words(done.stdout)).splitlines()
        self.assertEqual(text[:4], ["allocate 2 into 0", "allocate 1 into 1", "write 1 into cell 7 of 0", "copy 0 to 4"])
        run = huwekapo.run(done.stdout)
        self.assertEqual((run.records, run.line()), (43, "6 7 2 0 7 0\n"))


if __name__ == "__main__":
    unittest.main()
