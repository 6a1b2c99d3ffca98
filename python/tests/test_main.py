"""The commands."""

from __future__ import annotations

import csv
import importlib.util
import io
import json
import os
import pty
import select
import shlex
import subprocess
import sys
import tempfile
import time
import unittest
from pathlib import Path
from unittest import mock

import huwekapo
from huwekapo import examples, measures
from huwekapo.__main__ import EXAMPLES, STATUSES, arguments, blocks, main, several, widths
from huwekapo.files import written
from huwekapo.progress import Bar
from huwekapo.record import RECORD

from .records import allocate, clear, write

PYTHON = Path(__file__).resolve().parent.parent
THREE = allocate(2, 0) + allocate(1, 1) + allocate(3, 2)


class Commands(unittest.TestCase):
    def setUp(self) -> None:
        folder = tempfile.TemporaryDirectory()
        self.addCleanup(folder.cleanup)
        self.folder = Path(folder.name)
        self.three = self.folder / "three.history"
        self.three.write_bytes(THREE)
        self.environment = {**os.environ, "PYTHONPATH": str(PYTHON)}

    def command(self, *words: object) -> list[str]:
        return [sys.executable, "-m", "huwekapo", *map(str, words)]

    def start(self, *words: object, status: int = 0, given: bytes = b"") -> tuple[str, str]:
        done = subprocess.run(self.command(*words), input=given, env=self.environment, capture_output=True, check=False)
        out, said = done.stdout.decode(), done.stderr.decode()
        self.assertEqual(done.returncode, status, said)
        self.assertNotIn("Traceback", said)
        return out, said

    def test_report(self) -> None:
        line = huwekapo.run(self.three).line()
        self.assertEqual(self.start("report", "--line", self.three), (line, ""))
        self.assertEqual(self.start("report", "--line", "-", given=THREE), (line, ""))
        named = self.start("report", self.three)[0]
        self.assertEqual(named.splitlines(keepends=True)[0], line)
        self.assertRegex(named, r"\n  most blocks in use +6\n")
        self.assertRegex(named, r"\n  garbage held by stuck counts alone, in blocks +0\n")
        self.assertEqual(len(named.splitlines()), 1 + len(measures.FIGURE_COLUMNS))
        # A run that stopped has a status of its own.
        small = ["--blocks", 8, "--width", 1, "--roots", 2]
        stopped = self.start("report", self.three, *small, status=3)[0]
        self.assertTrue(stopped.startswith("refused 4 at record 2\n4: a root is not below the number of roots."), stopped)
        self.assertEqual(self.start("report", "--line", self.three, *small, status=3), ("refused 4 at record 2\n", ""))
        (row,) = csv.DictReader(self.start("report", self.three, *small, "--csv", status=3)[0].splitlines())
        self.assertEqual((row["stopped"], row["peak"]), ("refused 4 at record 2", ""))
        (row,) = json.loads(self.start("report", self.three, "--json")[0])
        self.assertEqual((row["stopped"], row["peak"], list(row)), ("", 6, measures.COLUMNS))

    def test_why(self) -> None:
        # Root 0 names an object of 2 blocks at 0, whose cell 7 names that of 3 blocks at 4; that at 2 names itself.
        cycle = write(1, 2, 1) + clear(1)
        history = THREE + write(2, 7, 0) + clear(2) + cycle
        self.three.write_bytes(history)
        small = ["--blocks", 8, "--width", 2, "--roots", 4]
        said = "root 0 cell 7 block 4\n  3 blocks, count 1 of at most 3\n"
        self.assertEqual(self.start("why", self.three, 4, *small), (said, ""))
        self.assertEqual(self.start("why", self.three, "--largest"), (said.replace("most 3", "most 7"), ""))
        self.assertEqual(self.start("why", "-", "--largest", *small, given=history), (said, ""))
        held = "no root reaches block 2\n  1 block, count 1 of at most 3\n  it is on a cycle: block 2 cell 2 block 2\n"
        for which in [2, "--garbage"]:
            self.assertEqual(self.start("why", self.three, which, *small), (held, ""))
        # After the records that are asked for.
        for records, root in [(3, "root 2 block 4"), (4, "root 2 block 4"), (5, "root 0 cell 7 block 4"), (99, "root 0 cell 7 block 4")]:
            self.assertEqual(self.start("why", self.three, 4, "--records", records)[0].splitlines()[0], root)
        self.assertIn("no object of garbage is there", self.start("why", self.three, "--garbage", "--records", 5, status=1)[1])
        self.assertIn("refused 6 NO_OBJECT", self.start("why", self.three, 1, status=2)[1])
        for wrong in [[], [4, "--largest"], ["x"]]:
            self.start("why", self.three, *wrong, status=2)
        # A run that stopped tells of the heap before.
        self.three.write_bytes(THREE + b"...")
        out, words = self.start("why", self.three, "--largest", status=3)
        self.assertEqual(out.splitlines()[0], "root 2 block 4")
        self.assertIn("refused 10 at record 3", words)
        (self.folder / "empty.history").write_bytes(b"")
        self.assertIn("no object is there", self.start("why", self.folder / "empty.history", "--largest", status=1)[1])

    def test_same(self) -> None:
        other = self.folder / "other.history"
        other.write_bytes(allocate(1, 1) + allocate(3, 2) + allocate(2, 0))
        self.assertEqual(self.start("same", self.three, other), ("one shape: 3 objects\n", ""))
        self.assertEqual(self.start("same", self.three, "--blocks", "8,1024", "--width", "1,4"), ("one shape: 3 objects\n", ""))
        self.assertEqual(self.start("same", "-", "--blocks", "8,1024", given=THREE), ("one shape: 3 objects\n", ""))
        self.assertEqual(self.start("same", self.three, "-", "--roots", 4, given=other.read_bytes()), ("one shape: 3 objects\n", ""))
        parting = "two shapes, which first part at number of roots: 4 and 5\n"
        self.assertEqual(self.start("same", self.three, "--roots", "4,5", status=1), (parting, ""))
        other.write_bytes(THREE + write(0, 3, 1))
        parting = "two shapes, which first part at object 2, cell 3, object: 0 and 1\n"
        self.assertEqual(self.start("same", self.three, other, status=1), (parting, ""))
        out, words = self.start("same", self.three, "--roots", "3,2", status=3)
        self.assertEqual(out, "two shapes, which first part at number of roots: 3 and 2\n")
        self.assertIn("refused 4 at record 2", words)
        self.start("same", "-", "-", status=2)
        self.start("same", self.three, "--blocks", "8,9", status=2)

    def test_compact(self) -> None:
        # Every second block is free, and so are four that lie together in a copy.
        small = ["--blocks", 8, "--width", 2, "--roots", 8]
        scattered = b"".join(allocate(1, root) for root in range(8)) + b"".join(clear(root) for root in range(0, 8, 2))
        self.three.write_bytes(scattered)
        said = "blocks in use:       4; after a copy 4\nlargest free chunk:  1 blocks; after a copy 4\n"
        self.assertEqual(self.start("compact", self.three, *small), (said, ""))
        self.assertEqual(self.start("compact", "-", *small, given=scattered), (said, ""))
        full = "blocks in use:       8; after a copy 8\nlargest free chunk:  0 blocks; after a copy 0\n"
        self.assertEqual(self.start("compact", self.three, *small, "--records", 8), (full, ""))
        for size, words in [(4, "would have let it go on"), (8, "would not have let it go on")]:
            self.three.write_bytes(scattered + allocate(size, 0))
            out, told = self.start("compact", self.three, *small, status=3)
            self.assertEqual(out, f"{said}refused 5 at record 12: a copy at that point {words}\n")
            self.assertIn("this is the heap before it", told)
        self.three.write_bytes(scattered + b"...")
        self.assertEqual(self.start("compact", self.three, *small, status=3)[0], said)
        self.start("compact", self.three, "--records", 0, status=2)

    def test_report_of_sections(self) -> None:
        named = self.start("report", self.three)[0]
        shown = self.start("report", "--sections", self.three)[0]
        self.assertTrue(shown.startswith(named), shown)
        title, *rows = shown[len(named) :].splitlines()
        self.assertEqual(title, "largest free chunk of each section of 256 blocks, from block:")
        self.assertEqual(rows[0].split(), ["0:", "128", *(7 * ["256"])])
        self.assertEqual([row.split() for row in rows[1:]], [["2,048:", *(8 * ["256"])]])
        # Beside the line alone, of a heap that is one section, where the run stopped.
        shown = self.start("report", "--line", "--sections", self.three, "--blocks", 8, "--roots", 2, status=3)[0]
        self.assertEqual(shown.splitlines()[0], "refused 4 at record 2")
        self.assertEqual(shown.splitlines()[1:], ["largest free chunk of each section of 8 blocks, from block:", "       0:    4"])

    def test_wrong_words(self) -> None:
        table = self.folder / "table.csv"
        for words, part in [
            (["report", self.three, "--blocks", "100"], "--blocks: 100: a power of two from 8 to 65,536"),
            (["report", self.three, "--blocks", "4"], "--blocks: 4: a power of two from 8 to 65,536"),
            (["report", self.three, "--blocks", "9" * 30], "9: a power of two from 8 to 65,536"),
            (["report", self.three, "--blocks", "9" * 5000], "--blocks: "),
            (["report", self.three, "--width", "5"], "--width: 5: 1 to 4"),
            (["report", self.three, "--width", "x"], "--width: x: no number"),
            (["report", self.three, "--width", "-1"], "--width: "),
            (["report", self.three, "--roots", "65"], "--roots: 65: 1 to 64"),
            (["report", self.three, "--csv", "--json"], "not allowed with"),
            (["widths", self.three, "--widths", "1-"], "--widths: : no number"),
            (["widths", self.three, "--widths", "1-999999999999"], "999999999999: 1 to 4"),
            (["widths", self.three, "--widths", "3-2"], "3-2: no width"),
            (["widths", self.three, "--blocks", "8,12"], "--blocks: 12: a power of two"),
            (["sweep", self.folder, "-o", table, "--blocks", "1000"], "--blocks: 1000: a power of two from 8 to 65,536"),
            (["sweep", self.folder, "-o", table, "--pattern", ""], "the pattern of a file's name"),
            (["sweep", self.folder, "-o", table, "--jobs", "0"], "0: a number from 1 on"),
            (["plot", self.three, "-o", self.folder / "x.xyz"], "x.xyz: the ending says which kind of picture it is: .svg, .pdf, .png"),
            (["plot", self.three, "-o", self.folder / "x.svg", "--columns", "3"], "invalid choice"),
            (["verify", table], "required"),
            (["example", "nothing", "-o", "-"], "invalid choice"),
            ([], "required"),
        ]:
            with self.subTest(words=words):
                self.assertIn(part, self.start(*words, status=2)[1])
        self.assertEqual(sorted(path.name for path in self.folder.iterdir()), ["three.history"])

    def test_statuses_are_documented(self) -> None:
        for words in [["--help"], ["sweep", "--help"], ["report", "--help"]]:
            self.assertIn(STATUSES, self.start(*words)[0])
        readme = (PYTHON.parent / "README.md").read_text()
        for part in ["3 where a run stopped", "1 where something failed", "2 for wrong use"]:
            self.assertTrue(part in " ".join(readme.split()), part)

    def test_help(self) -> None:
        parser = arguments()
        (commands,) = [action.choices for action in parser._actions if isinstance(action.choices, dict)]
        self.assertEqual(set(commands), set(EXAMPLES))
        for name, command in commands.items():
            shown = command.format_help()
            self.assertTrue(shown.endswith(STATUSES), name)
            lines = shown.split("\nexamples:\n")[1].split("\n\n")[0].splitlines()
            self.assertGreaterEqual(len(lines), 2)
            for line in lines:
                # Each is taken as it stands, but for what the shell does.
                words = shlex.split(line.split("<")[0].split(">")[0])
                at = words.index(name)
                self.assertEqual(words[:at], ["python3", "-m", "huwekapo"])
                self.assertEqual(parser.parse_args(words[at:]).command, name)
        with mock.patch("sys.argv", ["/usr/bin/huwekapo"]):
            self.assertIn("\n  huwekapo example caches -o", arguments()._actions[-1].choices["example"].format_help())

    def test_files_that_are_not_there(self) -> None:
        nowhere = self.folder / "nowhere"
        self.assertEqual(self.start("report", nowhere, status=1)[1], f"huwekapo: {nowhere}: No such file or directory\n")
        self.assertIn("Is a directory", self.start("report", self.folder, status=1)[1])
        self.assertEqual(self.start("sweep", nowhere, "-o", self.folder / "t", status=1)[1], f"huwekapo: {nowhere}: no such folder\n")
        self.assertEqual(self.start("sweep", self.three, "-o", "t", status=1)[1], f"huwekapo: {self.three} is no folder\n")
        said = self.start("sweep", self.folder, "-o", nowhere / "t", status=1)[1]
        self.assertEqual(said, f"huwekapo: {nowhere / 't'}: No such file or directory\n")
        for words in [["example", "trees"], ["plot", self.three]]:
            said = self.start(*words, "-o", nowhere / "made.svg", status=1)[1]
            if "needs matplotlib" not in said:
                self.assertEqual(said, f"huwekapo: {nowhere / 'made.svg'}: there is no folder {nowhere}\n")

    def test_numbers(self) -> None:
        self.assertEqual([widths(words) for words in ["1-4", "1,3", "2", "1,3-4,3"]], [[1, 2, 3, 4], [1, 3], [2], [1, 3, 4]])
        self.assertEqual([several(blocks)(words) for words in ["8192", "8,16,8"]], [[8192], [8, 16]])

    def test_missing_library(self) -> None:
        self.environment["HUWEKAPO_LIBRARY"] = "/nowhere"
        said = self.start("report", self.three, status=1)[1]
        self.assertRegex(said, r"^huwekapo: libhuwekapo.so was not found: looked for /nowhere\. ")

    def test_widths(self) -> None:
        history = examples.example("caches", 5000)
        path = self.folder / "caches.history"
        path.write_bytes(history)
        shown = self.start("widths", path, "--blocks", "1024,8192")[0]
        self.assertEqual(len(shown.splitlines()), 2 + 8)
        # A pipe is run again too.
        self.assertEqual(self.start("widths", "-", "--blocks", "1024,8192", given=history)[0], shown)
        table = self.start("widths", path, "--blocks", "1024,8192", "--widths", "2-3", "--csv")[0].splitlines()
        self.assertEqual(table[0], ",".join(measures.COLUMNS))
        self.assertEqual([row.split(",")[:3] for row in table[1:]], [[n, w, "64"] for n in ("1024", "8192") for w in ("2", "3")])
        rows = json.loads(self.start("widths", path, "--blocks", "1024", "--widths", "2-3", "--json")[0])
        self.assertEqual([[str(row[name]) for name in measures.COLUMNS[:3]] for row in rows], [["1024", w, "64"] for w in ("2", "3")])
        # Where runs stop: said, with the file, and a status.
        shown, said = self.start("widths", path, "--blocks", "128,8192", "--widths", "1,4", status=3)
        self.assertEqual(len(shown.splitlines()), 2 + 4)
        self.assertRegex(said, rf"^2 runs ended, 2 stopped\n  2 refused 5 \(no chunk is free, .*\): {path}\n$")

    def test_example(self) -> None:
        path = self.folder / "made.history"
        self.start("example", "trees", "--records", 100, "-o", path)
        self.assertEqual(path.read_bytes(), examples.example("trees", 100))
        command = self.command("example", "trees", "--records", 70, "--seed", 3, "-o", "-")
        made = subprocess.run(command, env=self.environment, capture_output=True, check=True)
        self.assertEqual(made.stdout, examples.example("trees", 70, 3))

    def test_plot(self) -> None:
        figure = self.folder / "figure.svg"
        try:
            import matplotlib
        except ImportError:
            said = self.start("plot", self.three, "-o", figure, status=1)[1]
            self.assertIn("apt-get install python3-matplotlib", said)
            self.skipTest("matplotlib can't be imported: the message says how to install it")
        self.start("plot", self.three, "-o", figure, "--widths", "1,3", "--step", 1)
        self.assertIn("three.history", figure.read_text())
        self.start("plot", "-", "-o", figure, "--step", 10**30, given=THREE)
        self.assertIn("width 4: ", figure.read_text())
        self.start("plot", self.three, "-o", figure, "--no-title", "--columns", 1)
        self.assertNotIn("three.history", figure.read_text())
        # A run that stops, and one of nothing: in the picture and in words.
        said = self.start("plot", self.three, "-o", figure, "--roots", 2, "--widths", 2, status=3)[1]
        words = "refused 4 at record 2: a root is not below the number of roots"
        self.assertEqual(said, f"{self.three}, width 2: {words}: the picture ends there\n")
        self.assertIn(f"STOPPED, {words}", figure.read_text())
        said = self.start("plot", os.devnull, "-o", figure, "--widths", 2)[1]
        self.assertEqual(said, "/dev/null: no record was run: the picture is empty, and says so\n")
        self.assertIn("an empty history: no record was run", figure.read_text())

    def test_names(self) -> None:
        try:
            import matplotlib
        except ImportError:
            self.skipTest("matplotlib can't be imported")
        figure = self.folder / "figure.svg"
        for name in [b"a$b$c_d^2.history", b"\xff\xfe.history", b"caf\xc3\xa9 \\$x$.history"]:
            path = os.fsencode(self.folder) + b"/" + name
            Path(os.fsdecode(path)).write_bytes(THREE)
            self.start("plot", os.fsdecode(path), "-o", figure, "--widths", 1)
            self.assertIn(name.decode("utf-8", "backslashreplace"), figure.read_text(encoding="utf-8"))
            self.start("report", os.fsdecode(path))
        table = self.folder / "table.csv"
        self.start("sweep", self.folder, "-o", table, "--widths", 1, "--jobs", 1)
        self.assertIn("4 rows were run again", self.start("verify", table, self.folder, "--jobs", 1)[0].replace(" of 4", ""))

    def test_sweep(self) -> None:
        table = self.folder / "table.csv"
        said = self.start("sweep", self.folder, "-o", table, "--widths", "1-2", "--jobs", 1)[1]
        self.assertEqual(said, f"{table}: 2 rows, 2 of them run now\n2 runs ended, 0 stopped\n")
        self.assertIn("which is not asked for", self.start("sweep", self.folder, "-o", table, "--jobs", 1, "--widths", 3, status=1)[1])
        self.assertIn("has no file", self.start("sweep", self.folder, "-o", table, "--pattern", "*.x", status=1)[1])

    def test_nothing_is_torn(self) -> None:
        # What stood there stands where the writing fails, and nothing is left beside it.
        made = self.folder / "made.history"
        made.write_bytes(b"before")
        with mock.patch("huwekapo.examples.example", side_effect=MemoryError):
            self.assertEqual(main(["example", "trees", "-o", str(made)]), 1)
        with self.assertRaises(OSError), written(made) as file:
            file.write(b"half")
            raise OSError
        self.assertEqual(made.read_bytes(), b"before")
        self.assertEqual(sorted(path.name for path in self.folder.iterdir()), ["made.history", "three.history"])
        # A link is written through, and what is no regular file as it is.
        link = self.folder / "link"
        link.symlink_to(made)
        self.start("example", "trees", "--records", 5, "-o", link)
        self.assertTrue(link.is_symlink())
        self.assertEqual(len(made.read_bytes()), 5 * RECORD)
        self.start("example", "trees", "--records", 5, "-o", "/dev/null")
        self.assertFalse(Path("/dev/null").is_file())

    def test_closed_streams(self) -> None:
        for words, closed, status, part in [
            (["report", self.three], ">&-", 1, "standard output is closed"),
            (["widths", self.three], ">&-", 1, "standard output is closed"),
            (["example", "trees", "-o", "-"], ">&-", 1, "standard output is closed"),
            (["report", "-"], "<&-", 1, "standard input is closed"),
            (["report", self.three], ">/dev/full", 1, "No space left on device"),
            (["widths", self.three], ">/dev/full", 1, "No space left on device"),
        ]:
            with self.subTest(words=words, closed=closed):
                command = f"exec {shlex.join(self.command(*words))} {closed}"
                done = subprocess.run(["sh", "-c", command], env=self.environment, capture_output=True, text=True, check=False)
                self.assertEqual(done.returncode, status, done.stderr)
                self.assertEqual(len(done.stderr.splitlines()), 1, done.stderr)
                self.assertIn(part, done.stderr)
        # Without standard error nothing goes to standard output instead.
        command = f"exec {shlex.join(self.command('report', '--line', self.folder / 'nowhere'))} 2>&-"
        done = subprocess.run(["sh", "-c", command], env=self.environment, capture_output=True, text=True, check=False)
        self.assertEqual((done.returncode, done.stdout), (1, ""))
        command = f"exec {shlex.join(self.command('report', '--line', self.three))} 2>&-"
        done = subprocess.run(["sh", "-c", command], env=self.environment, capture_output=True, text=True, check=False)
        self.assertEqual((done.returncode, done.stdout), (0, huwekapo.run(self.three).line()))

    def test_nobody_reads(self) -> None:
        reading, writing = os.pipe()
        os.close(reading)
        with open(writing, "wb") as nobody:
            command = self.command("report", self.three)
            done = subprocess.run(command, env=self.environment, stdout=nobody, stderr=subprocess.PIPE, check=False)
        self.assertEqual((done.returncode, done.stderr), (1, b""))

    def test_progress_bar(self) -> None:
        # For what takes a while, as a history that comes slowly. On a terminal it is drawn, and taken away at the end ..
        reading, writing = pty.openpty()
        shown = self.slowly(reading, writing, until=b"records ")
        self.assertTrue(shown.endswith(b"\r\x1b[K"), shown)
        # .. and nowhere else.
        self.assertEqual(self.slowly(*os.pipe(), until=b"never"), b"")

    def test_each_command_has_a_bar(self) -> None:
        # Which is told how far it is; on a terminal alone it shows that.
        told: list[str] = []

        class Told(Bar):
            def done(self, amount: int) -> None:
                told.append(self._label)
                super().done(amount)

        table, text, events, made = (self.folder / name for name in ("table.csv", "text", "own.events", "made"))
        text.write_text("allocate 2 into 0\n", encoding="ascii")
        events.write_text("C 1 Node\nA 1 1 o 8\nE\nL 0 1\nX\n", encoding="ascii")
        old = self.folder / "old"
        old.write_bytes(bytes([1, 0, 0, 0, 0, 0, 2, 0]))
        given = {
            "report": [self.three],
            "widths": [self.three],
            "plot": [self.three, "-o", self.folder / "figure.svg"],
            "pauses": [self.three],
            "why": [self.three, 0],
            "same": [self.three, self.three],
            "compact": [self.three],
            "sweep": [self.folder, "-o", table, "--jobs", 1],
            "verify": [table, self.folder, "--jobs", 1],
            "compare": [table, table],
            "example": ["trees", "--records", 50, "-o", made],
            "assemble": [text, "-o", made],
            "convert": [events, "-o", made, "--table"],
            "page": [self.three, "-o", made],
            "show": [self.three],
            "words": [self.three],
            "widen": [old, "-o", made],
        }
        self.assertEqual(given.keys(), EXAMPLES.keys())
        with mock.patch("huwekapo.__main__.Bar", Told), mock.patch("sys.stdout", new_callable=io.StringIO):
            for name, words in given.items():
                if name == "plot" and not _has_matplotlib():
                    continue
                told.clear()
                with mock.patch("sys.stderr", new_callable=io.StringIO) as said:
                    self.assertEqual(main([name, *map(str, words)]), 0, name)
                self.assertNotEqual(told, [], name)
                self.assertNotIn("\r", said.getvalue())
            if _has_matplotlib():
                told.clear()
                self.assertEqual(main(["plot", str(table), "-o", str(self.folder / "figure.svg")]), 0)
                self.assertEqual(set(told), {"rows"})

    def slowly(self, reading: int, writing: int, until: bytes) -> bytes:
        """Reports a history that comes for a second, or until this is on standard error. All that is there in the end."""
        given, giving = os.pipe()
        command = self.command("report", "--line", "-")
        with subprocess.Popen(command, env=self.environment, stdin=given, stdout=subprocess.PIPE, stderr=writing) as running:
            os.close(writing)
            os.close(given)
            assert running.stdout
            shown = b""
            end = time.monotonic() + (20 if until == b"records " else 1)
            with open(giving, "wb", buffering=0) as file:
                while until not in shown and time.monotonic() < end:
                    file.write(allocate(1, 0))
                    if _readable(reading, 0.02):
                        shown += os.read(reading, 1000)
            self.assertTrue(running.stdout.read().endswith(b"\n"))
        # What is left. A terminal whose other side is closed can't be read.
        try:
            while _readable(reading, 0.2):
                more = os.read(reading, 1000)
                if not more:
                    break
                shown += more
        except OSError:
            pass
        os.close(reading)
        return shown


def _has_matplotlib() -> bool:
    return importlib.util.find_spec("matplotlib") is not None


def _readable(file: int, seconds: float) -> bool:
    return bool(select.select([file], [], [], seconds)[0])


if __name__ == "__main__":
    unittest.main()
