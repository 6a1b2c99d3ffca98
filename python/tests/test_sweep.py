"""Sweeps: killed and resumed, in one process and in several, on a Dask cluster; changed histories; other tables."""

from __future__ import annotations

import csv
import multiprocessing
import os
import shutil
import signal
import subprocess
import sys
import tempfile
import time
import unittest
from pathlib import Path
from typing import Callable, Sequence
from unittest import mock

import huwekapo
from huwekapo import examples, library
from huwekapo.sweep import TABLE_COLUMNS, SweepError, standing, sweep
from huwekapo.verify import report_program, verify

from .records import allocate

PYTHON = Path(__file__).resolve().parent.parent


class Case(unittest.TestCase):
    """A folder of histories, and a table."""

    def setUp(self) -> None:
        folder = tempfile.TemporaryDirectory()
        self.addCleanup(folder.cleanup)
        self.top = Path(folder.name)
        self.histories = self.top / "histories"
        self.table = self.top / "table.csv"

    def put(self, name: str, content: bytes) -> Path:
        path = self.histories / name
        path.parent.mkdir(parents=True, exist_ok=True)
        path.write_bytes(content)
        return path

    def put_examples(self, records: int, seeds: Sequence[int] = (1, 2)) -> None:
        # Data among them.
        for name in ["calls", "lists", "trees", "caches", "leak", "images"]:
            for seed in seeds:
                self.put(f"{name}/{seed}.history", examples.example(name, records, seed))
        self.put("stopped.history", allocate(1, 0) + allocate(0, 0))
        self.put("cut off, and with a comma.history", allocate(1, 0) + b"123")
        self.put("empty.history", b"")
        self.put("notes.txt", b"no history")

    def rows(self) -> list[dict[str, str]]:
        with open(self.table, newline="") as file:
            return list(csv.DictReader(file))


class Sweeps(Case):
    def test_rows(self) -> None:
        self.put_examples(2000)
        swept = sweep(self.histories, self.table, [3, 1], [4096, 1024])
        rows = self.rows()
        self.assertEqual((swept.kept, swept.run, swept.anew, swept.pruned, swept.failures), (0, 15 * 4, 0, 0, []))
        self.assertEqual(list(rows[0]), TABLE_COLUMNS)
        keys = [(row["history"], int(row["heap_blocks"]), int(row["count_width"])) for row in rows]
        self.assertEqual(keys, sorted(keys))
        self.assertEqual(len(set(keys)), 15 * 4)
        for row in rows:
            shape = (int(row["heap_blocks"]), int(row["count_width"]))
            run = huwekapo.run(self.histories / row["history"], *shape, may_stop=True)
            self.assertEqual((row["number"], row["records"], row["stopped"]), (str(run.number), str(run.records), run.stop()))
            # A run that stopped has no figures.
            self.assertEqual(row["peak"], "" if run.stopped else str(run.figures.peak))
            has_data = not run.stopped and row["history"].startswith("images/")
            self.assertEqual(row["data_blocks"] not in ("", "0"), has_data, row["history"])
            self.assertEqual(row["library"], library.build())
        stops = {row["history"]: row["stopped"] for row in rows if row["stopped"]}
        words = {"stopped.history": "refused 3 at record 1", "cut off, and with a comma.history": "refused 10 at record 1"}
        self.assertEqual(stops, words)
        self.assertEqual(sorted(set(swept.runs)), sorted({(row["history"], int(row["number"])) for row in rows}))

    def test_however_it_is_run(self) -> None:
        self.put_examples(3000)
        tables = []
        for jobs in [1, 2, 3]:
            self.table = self.top / f"{jobs}.csv"
            sweep(self.histories, self.table, [1, 2, 3, 4], [1024, 4096], jobs=jobs)
            tables.append(self.table.read_bytes())
        self.assertEqual(tables[1:], 2 * tables[:1])
        self.assertEqual(len(self.rows()), 15 * 8)
        self.assertEqual(sorted(path.name for path in self.top.iterdir()), ["1.csv", "2.csv", "3.csv", "histories"])

    def test_dask(self) -> None:
        try:
            import distributed
        except ImportError:
            self.skipTest("distributed (Dask) can't be imported")
        self.put_examples(2000, [1])
        sweep(self.histories, self.table, [1, 2], [1024])
        expected = self.table.read_bytes()
        self.table = self.top / "dask.csv"
        before = os.environ.get("PYTHONPATH")
        os.environ["PYTHONPATH"] = str(PYTHON)
        try:
            with distributed.LocalCluster(n_workers=2, threads_per_worker=1, dashboard_address=None) as cluster:
                swept = sweep(self.histories, self.table, [1, 2], [1024], dask=cluster.scheduler_address)
                self.assertEqual((swept.kept, swept.run), (0, 9 * 2))
                self.assertEqual(self.table.read_bytes(), expected)
                # On the same cluster again: nothing is left to run.
                self.assertEqual(sweep(self.histories, self.table, [1, 2], [1024], dask=cluster.scheduler_address).run, 0)
        finally:
            if before is None:
                del os.environ["PYTHONPATH"]
            else:
                os.environ["PYTHONPATH"] = before
        self.assertEqual(self.table.read_bytes(), expected)

    def test_nothing_left(self) -> None:
        self.put_examples(500)
        sweep(self.histories, self.table, [1], [1024])
        before = self.table.read_bytes()
        swept = sweep(self.histories, self.table, [1], [1024], jobs=2)
        self.assertEqual((swept.kept, swept.run, self.table.read_bytes()), (15, 0, before))

    def test_changed_histories(self) -> None:
        self.put_examples(500)
        sweep(self.histories, self.table, [1, 2], [1024])
        self.put("trees/1.history", examples.example("trees", 700))
        self.put("new.history", allocate(2, 0))
        (self.histories / "lists/2.history").unlink()
        before = self.table.read_bytes()
        # Rows are not dropped unless it is asked for.
        with self.assertRaisesRegex(SweepError, r"has 2 rows of histories that are not in .*: lists/2\.history\. `--prune` takes them out"):
            sweep(self.histories, self.table, [1, 2], [1024])
        self.assertEqual(self.table.read_bytes(), before)
        swept = sweep(self.histories, self.table, [1, 2], [1024], prune=True)
        self.assertEqual((swept.kept, swept.run, swept.anew, swept.pruned), (13 * 2, 2 * 2, 2, 2))
        resumed = self.table.read_bytes()
        self.table = self.top / "anew.csv"
        sweep(self.histories, self.table, [1, 2], [1024])
        self.assertEqual(resumed, self.table.read_bytes())

    def test_a_row_that_is_none(self) -> None:
        # Nothing behind it is lost: the table is refused, and stays.
        self.put_examples(500)
        sweep(self.histories, self.table, [1], [1024])
        lines = self.table.read_text().splitlines(keepends=True)
        for wrong in ["\n", "leak/2.history,5\n", lines[7].replace(",1024,", ",many,"), lines[7].rstrip() + ",7\n"]:
            self.table.write_text("".join([*lines[:7], wrong, *lines[8:]]))
            before = self.table.read_bytes()
            for act in [lambda: sweep(self.histories, self.table, [1], [1024]), lambda: verify(self.table, self.histories)]:
                with self.assertRaisesRegex(SweepError, "table.csv: row 7, .* is none of a sweep"):
                    act()
            self.assertEqual(self.table.read_bytes(), before)

    def test_rows_of_another_library(self) -> None:
        self.put_examples(500)
        sweep(self.histories, self.table, [1], [1024])
        whole = self.table.read_text()
        self.table.write_text(whole.replace(library.build(), "0.2.0+0123456789abcdef", 3))
        swept = sweep(self.histories, self.table, [1], [1024])
        self.assertEqual((swept.kept, swept.run, swept.anew), (12, 3, 3))
        self.assertEqual(self.table.read_text(), whole)

    def test_saved_by_a_spreadsheet(self) -> None:
        self.put_examples(500)
        sweep(self.histories, self.table, [1, 2], [1024])
        whole = self.table.read_bytes()
        for changed in [b"\xef\xbb\xbf" + whole.replace(b"\n", b"\r\n"), whole.replace(b"\n", b"\r\n"), b"\xef\xbb\xbf" + whole]:
            self.table.write_bytes(changed)
            self.assertEqual(verify(self.table, self.histories).differences, [])
            swept = sweep(self.histories, self.table, [1, 2], [1024])
            self.assertEqual((swept.kept, swept.run, self.table.read_bytes()), (30, 0, whole))

    def test_table_among_the_histories(self) -> None:
        self.put_examples(500)
        self.table = self.histories / "table.history"
        for kept in [0, 15]:
            swept = sweep(self.histories, self.table, [1], [1024])
            self.assertEqual((swept.kept, swept.failures, len(self.rows())), (kept, [], 15))
        # By another name of its folder too.
        link = self.top / "link"
        link.symlink_to(self.histories)
        self.assertEqual(sweep(self.histories, link / "table.history", [1], [1024]).kept, 15)
        self.assertEqual(verify(link / "table.history", self.histories).differences, [])
        # By a link to the file too, which stays one.
        other = self.top / "other.csv"
        other.symlink_to(self.table)
        self.assertEqual((sweep(self.histories, other, [1], [1024]).kept, other.is_symlink()), (15, True))

    def test_nothing_is_passed_over_in_silence(self) -> None:
        self.put_examples(500, [1])
        (self.histories / "nothing.history").symlink_to("nowhere")
        os.mkfifo(self.histories / "trees/pipe.history")
        (self.histories / "folder").symlink_to(self.histories / "trees")
        (self.histories / "memory.history").symlink_to("/proc/self/mem")
        swept = sweep(self.histories, self.table, [1], [1024])
        self.assertEqual(
            swept.failures[:3],
            [
                "folder: passed over: a link to a folder, which is not followed",
                "nothing.history: passed over: a link to nothing",
                "trees/pipe.history: passed over: no regular file",
            ],
        )
        # It can be opened, but not read.
        self.assertRegex(swept.failures[3], r"^memory\.history, 1024 blocks, width 1: .*Input/output error")
        self.assertEqual((swept.run, len(swept.failures)), (9, 4))

    def test_dead_worker(self) -> None:
        self.put_examples(500)
        with mock.patch.dict(os.environ, {"PYTHONPATH": str(PYTHON)}), self.assertRaisesRegex(SweepError, "a worker process died"):
            sweep(self.histories, self.table, [1, 2], [1024], jobs=2, progress=_kill_a_child)
        self.assertGreaterEqual(standing(self.table), 1)
        self.assertEqual(sweep(self.histories, self.table, [1, 2], [1024]).failures, [])

    def test_torn_row(self) -> None:
        self.put_examples(500)
        sweep(self.histories, self.table, [1, 2], [1024])
        whole = self.table.read_bytes()
        lines = whole.splitlines(keepends=True)
        for left in [0, 5, len(lines[0]), len(lines[0]) + 7, len(whole) // 2, len(whole) - 1]:
            with self.subTest(left=left):
                self.table.write_bytes(whole[:left])
                swept = sweep(self.histories, self.table, [1, 2], [1024])
                finished = max(0, whole[:left].count(b"\n") - 1)
                self.assertEqual((swept.kept, swept.run), (finished, 30 - finished))
                self.assertEqual(self.table.read_bytes(), whole)

    def test_other_tables(self) -> None:
        self.put_examples(500)
        sweep(self.histories, self.table, [1, 2], [1024])
        before = self.table.read_bytes()
        for widths, blocks, roots in [([1], [1024], 64), ([1, 2], [2048], 64), ([1, 2], [1024], 63)]:
            with self.assertRaisesRegex(SweepError, "which is not asked for"):
                sweep(self.histories, self.table, widths, blocks, roots)
        with self.assertRaises(huwekapo.Refused):
            sweep(self.histories, self.table, [1, 2, 5], [1024])
        with self.assertRaisesRegex(SweepError, "has no file"):
            sweep(self.histories, self.table, [1, 2], [1024], pattern="*.nothing")
        self.assertEqual(self.table.read_bytes(), before)
        # More widths are no other table.
        self.assertEqual(sweep(self.histories, self.table, [1, 2, 3], [1024]).run, 15)
        other = self.top / "other.csv"
        other.write_text("a,b\n1,2\n")
        with self.assertRaisesRegex(SweepError, "is no table of a sweep"):
            sweep(self.histories, other, [1, 2], [1024])
        self.assertEqual(other.read_text(), "a,b\n1,2\n")

    def test_vanished_history(self) -> None:
        self.put_examples(500)
        vanished = self.histories / "trees/2.history"

        def progress(done: int, total: int) -> None:
            if vanished.exists():
                vanished.unlink()

        swept = sweep(self.histories, self.table, [1], [1024], progress=progress)
        self.assertEqual((swept.run, len(swept.failures), len(self.rows())), (14, 1, 14))
        self.assertIn("trees/2.history", swept.failures[0])

    def test_changed_during_the_sweep(self) -> None:
        self.put("one.history", examples.example("trees", 500))

        def progress(done: int, total: int) -> None:
            self.put("one.history", examples.example("lists", 500))

        swept = sweep(self.histories, self.table, [1, 2], [1024], progress=progress)
        self.assertEqual(swept.failures, ["one.history: changed during the sweep; run it again"])
        swept = sweep(self.histories, self.table, [1, 2], [1024])
        self.assertEqual((swept.kept, swept.run, swept.failures), (1, 1, []))


class Trouble(Case):
    """Four folders of made-up trouble, beside one that is good: what the command says of them, in the table, in words and by its
    status. It is run as a user who may not read everything."""

    def sweep(self, *words: object) -> tuple[int, list[str]]:
        # A user who is not root needs the package, the library and the folders where it may read them.
        package, found = self.top / "python", self.top / "lib"
        if not package.exists():
            shutil.copytree(PYTHON / "huwekapo", package / "huwekapo", ignore=shutil.ignore_patterns("__pycache__"))
            found.mkdir()
            shutil.copy(library.path(), found / "libhuwekapo.so")
        os.chmod(self.top, 0o777)
        environment = {**os.environ, "PYTHONPATH": str(package), "HUWEKAPO_LIBRARY": str(found), "PYTHONDONTWRITEBYTECODE": "1"}
        environment.pop("PYTHONPYCACHEPREFIX", None)
        command = [sys.executable, "-m", "huwekapo", "sweep", str(self.histories), "-o", str(self.table), "--jobs", "1", *map(str, words)]
        user = {"user": 65534, "group": 65534, "extra_groups": []} if os.getuid() == 0 else {}
        try:
            done = subprocess.run(command, env=environment, capture_output=True, text=True, check=False, **user)  # type: ignore[call-overload]
        except PermissionError as error:
            self.skipTest(f"another user can't run this Python: {error}")
        self.assertEqual(done.stdout, "")
        self.assertNotIn("Traceback", done.stderr)
        return done.returncode, done.stderr.splitlines()

    def test_four_folders(self) -> None:
        good = allocate(2, 0) + allocate(1, 1)
        self.put("good/good.history", good)
        self.assertEqual(self.sweep("--widths", 2, "--blocks", 8), (0, [f"{self.table}: 1 rows, 1 of them run now", "1 run ended, 0 stopped"]))
        # Cut off, text, out of room: rows that say so, with no figures, and status 3.
        self.put("cut off/cut.history", good + b"\x01\x02")
        self.put("text/notes.history", b"These are notes, and no history.\n")
        self.put("out of room/large.history", good + allocate(8, 2))
        status, said = self.sweep("--widths", 2, "--blocks", 8)
        self.assertEqual(status, 3)
        self.assertEqual(
            said,
            [
                f"{self.table}: 4 rows, 3 of them run now",
                "1 run ended, 3 stopped",
                "  1 refused 5 (no chunk is free, not after a full collection either): out of room/large.history",
                "  1 refused 9 (an unknown operation, or a field that has to be 0 and is not): text/notes.history",
                "  1 refused 10 (the file ends inside a record, or goes on past 4,294,967,295 records): cut off/cut.history",
            ],
        )
        rows = {row["history"]: (row["stopped"], row["records"], row["allocations"], row["peak"]) for row in self.rows()}
        self.assertEqual(
            rows,
            {
                "cut off/cut.history": ("refused 10 at record 2", "2", "", ""),
                "good/good.history": ("", "2", "2", "3"),
                "out of room/large.history": ("refused 5 at record 2", "2", "", ""),
                "text/notes.history": ("refused 9 at record 0", "0", "", ""),
            },
        )
        # Unreadable: a folder, and a file. Named, and status 1; the other rows stand.
        os.chmod(self.put("unreadable folder/hidden.history", good).parent, 0)
        os.chmod(self.put("unreadable/locked.history", good), 0)
        try:
            status, said = self.sweep("--widths", 2, "--blocks", 8)
        finally:
            os.chmod(self.histories / "unreadable folder", 0o755)
        self.assertEqual((status, len(self.rows())), (1, 4))
        self.assertEqual(said[0], f"{self.table}: 4 rows, 0 of them run now")
        self.assertEqual(said[-2], "not run: unreadable folder: passed over: Permission denied")
        self.assertRegex(said[-1], r"^not run: unreadable/locked\.history, 8 blocks, width 2: .*Permission denied")


class Verified(Case):
    def setUp(self) -> None:
        super().setUp()
        self.put_examples(1500, [1])
        sweep(self.histories, self.table, [2, 3], [1024, 4096])

    def command(self, *words: object, status: int = 0) -> str:
        command = [sys.executable, "-m", "huwekapo", "verify", str(self.table), str(self.histories), "--jobs", "1", *map(str, words)]
        environment = {**os.environ, "PYTHONPATH": str(PYTHON)}
        done = subprocess.run(command, env=environment, capture_output=True, text=True, check=False)
        self.assertEqual((done.returncode, done.stderr), (status, ""), done.stdout)
        return done.stdout

    def test_true_table(self) -> None:
        for jobs in [1, 2]:
            found = verify(self.table, self.histories, jobs=jobs)
            self.assertEqual(found, (36, 36, 0, 0, []))
        self.assertEqual(verify(self.table, self.histories, sample=5, seed=3), (36, 5, 0, 0, []))
        self.assertIn("36 of 36 rows were run again", self.command())
        self.assertRegex(self.command("--sample", 4), r"^4 of 36 rows were run again, taken by seed \d+")

    def test_every_false_figure_is_found(self) -> None:
        whole = self.table.read_text()
        names = ["cut off, and with a comma.history", "trees/1.history"]
        for history in names:
            for column in TABLE_COLUMNS[1:-1]:
                rows = self.rows()
                row = next(row for row in rows if (row["history"], row["heap_blocks"], row["count_width"]) == (history, "1024", "2"))
                word = row[column]
                stopped = row["stopped"] != ""
                # A row that is none any more is another fault.
                if word == "" and (stopped or column == "stopped"):
                    continue
                row[column] = str(int(word) + 1) if word.isdigit() else word[:-1] + ("0" if word[-1] != "0" else "1")
                with open(self.table, "w", newline="") as file:
                    writer = csv.DictWriter(file, TABLE_COLUMNS, lineterminator="\n")
                    writer.writeheader()
                    writer.writerows(rows)
                with self.subTest(history=history, column=column):
                    differences = verify(self.table, self.histories).differences
                    self.assertTrue(differences, column)
                    if column not in ("heap_blocks", "count_width", "roots"):
                        self.assertEqual(
                            differences,
                            [f"{history}, 1024 blocks, width 2: {column} is `{row[column]}` in the table, and `{word}` when it is run"],
                        )
                self.table.write_text(whole)

    def test_command_finds_a_false_figure(self) -> None:
        whole = self.table.read_text()
        run = huwekapo.run(self.histories / "trees/1.history", 4096, 3)
        shape = "4096,3,64,,0,1500,"
        line = shape + ",".join(map(str, run.figures))
        self.assertEqual(whole.count(line), 1)
        false = shape + ",".join(map(str, run.figures._replace(peak=run.figures.peak - 1)))
        self.table.write_text(whole.replace(line, false))
        said = self.command(status=1).splitlines()
        what = f"peak is `{run.figures.peak - 1}` in the table, and `{run.figures.peak}` when it is run"
        self.assertEqual(said[0], f"trees/1.history, 4096 blocks, width 3: {what}")
        self.assertIn("1 difference" if report_program() is None else "2 differences", said[-1])

    def test_missing_and_torn_rows(self) -> None:
        lines = self.table.read_text().splitlines(keepends=True)
        self.table.write_text("".join(lines[:5] + lines[6:] + lines[7:8]))
        gone = next(csv.reader([lines[5]]))
        twice = next(csv.reader([lines[7]]))
        self.assertEqual(
            verify(self.table, self.histories).differences,
            [
                f"{twice[0]}, {twice[2]} blocks, width {twice[3]}: has 2 rows",
                f"{gone[0]}, {gone[2]} blocks, width {gone[3]}: has no row",
            ],
        )
        self.table.write_text("".join(lines)[:-20])
        self.assertIn("row 36, the last, is not whole", verify(self.table, self.histories).differences)
        self.table.write_text("".join(lines))
        (self.histories / "leak/1.history").unlink()
        self.put("new.history", b"")
        differences = verify(self.table, self.histories).differences
        self.assertEqual(differences[0], "leak/1.history: there is no such history")
        self.assertEqual(len([words for words in differences if words.endswith("has no row")]), 4)
        self.table.write_text("")
        with self.assertRaisesRegex(SweepError, "has no row"):
            verify(self.table, self.histories)

    def test_rows_of_another_library(self) -> None:
        self.table.write_text(self.table.read_text().replace(library.build(), "0.2.0+0123456789abcdef"))
        self.assertEqual(verify(self.table, self.histories), (36, 36, 0, 36, []))
        self.assertIn("36 rows are of another library than this one\nno difference\n", self.command())

    def test_against_the_program(self) -> None:
        program = report_program()
        if program is None:
            self.skipTest("the program report is not built")
        self.assertEqual(verify(self.table, self.histories, report=program), (36, 36, 9, 0, []))
        # One that says something else.
        other = self.top / "report"
        other.write_text("#!/bin/sh\necho 1 1 1 0 1 0\n")
        other.chmod(0o755)
        differences = verify(self.table, self.histories, report=str(other)).differences
        self.assertEqual(len(differences), 9)
        self.assertRegex(differences[0], r"the program report prints `1 1 1 0 1 0`; the row's line is `")


class Killed(Case):
    """The command, killed without warning."""

    def start(self, *words: str) -> subprocess.Popen[bytes]:
        command = [sys.executable, "-m", "huwekapo", "sweep", str(self.histories), "-o", str(self.table), *words]
        # A file, and no pipe: a worker process that stayed behind would keep that open.
        with open(self.top / "said", "wb") as said:
            return subprocess.Popen(command, env={**os.environ, "PYTHONPATH": str(PYTHON)}, stderr=said)

    def kill(self, sweeping: subprocess.Popen[bytes]) -> int:
        """Kills a sweep, and sees that its processes end with it. How many these were."""
        children = [int(pid) for pid in Path(f"/proc/{sweeping.pid}/task/{sweeping.pid}/children").read_text().split()]
        self.assertIsNone(sweeping.poll(), "it ended before it could be killed")
        sweeping.send_signal(signal.SIGKILL)
        sweeping.wait()
        try:
            self.wait_for(lambda: not any(_lives(pid) for pid in children))
        finally:
            for pid in filter(_lives, children):
                os.kill(pid, signal.SIGKILL)
        return len(children)

    def wait_for(self, what: Callable[[], bool]) -> None:
        end = time.monotonic() + 30
        while not what():
            self.assertLess(time.monotonic(), end)
            time.sleep(0.001)

    def finished(self) -> list[str]:
        try:
            return self.table.read_text().splitlines(keepends=True)[1:]
        except FileNotFoundError:
            return []

    def test_killed_and_resumed(self) -> None:
        self.put_examples(60_000)
        words = ["--widths", "1-4", "--blocks", "1024,4096"]
        sweep(self.histories, self.table, [1, 2, 3, 4], [1024, 4096])
        expected = self.table.read_bytes()
        for jobs in ["1", "2"]:
            with self.subTest(jobs=jobs):
                self.table = self.top / f"killed {jobs}.csv"
                runs, kept = [], []
                for least in [10, 60]:
                    sweeping = self.start("--jobs", jobs, *words)
                    self.wait_for(lambda: len(self.finished()) >= least or sweeping.poll() is not None)
                    self.assertEqual(self.kill(sweeping) > 1, jobs == "2")
                    rows = [row for row in self.finished() if row.endswith("\n")]
                    # No finished row was lost.
                    self.assertLessEqual(set(kept), set(rows))
                    self.assertGreaterEqual(len(rows), least)
                    kept = rows
                    runs.append(len(rows))
                sweeping = self.start("--jobs", jobs, *words)
                self.assertEqual(sweeping.wait(), 3)
                said = (self.top / "said").read_text()
                self.assertIn(f"120 rows, {120 - runs[-1]} of them run now", said)
                self.assertEqual(self.table.read_bytes(), expected)

    def test_interrupted(self) -> None:
        self.put_examples(100_000)
        for jobs in ["1", "2"]:
            self.table = self.top / f"interrupted {jobs}.csv"
            sweeping = self.start("--jobs", jobs)
            self.wait_for(lambda: len(self.finished()) >= 3)
            sweeping.send_signal(signal.SIGINT)
            self.assertEqual(sweeping.wait(timeout=30), 130)
            said = (self.top / "said").read_text()
            self.assertEqual(said, f"interrupted: {self.table}: {len(self.finished())} rows stand; the same command goes on from there\n")

    def test_one_at_a_time(self) -> None:
        self.put_examples(100_000)
        first = self.start("--jobs", "1")
        self.wait_for(lambda: len(self.finished()) >= 2)
        with self.assertRaisesRegex(SweepError, "another sweep writes"):
            sweep(self.histories, self.table, [1, 2, 3, 4], [4096])
        self.kill(first)
        self.assertGreater(sweep(self.histories, self.table, [1, 2, 3, 4], [4096]).kept, 0)


def _kill_a_child(*_: int) -> None:
    for child in multiprocessing.active_children():
        child.kill()


def _lives(pid: int) -> bool:
    """Whether there is a process that has not ended; one that nobody has waited for has."""
    try:
        return Path(f"/proc/{pid}/stat").read_text().rpartition(")")[2].split()[0] not in "ZX"
    except FileNotFoundError:
        return False


if __name__ == "__main__":
    unittest.main()
