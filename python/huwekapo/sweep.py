"""A whole collection of histories, each at each count width and size of heap, as one table.

Rows are appended to the table as they are finished, so that a sweep that is killed loses none; the same command goes on where it
stopped. At the end the table is put in order: by history, size and width. It is then the same, row for row, however it was run.
A row is kept only where the history has the same bytes and the library is the same.
"""

from __future__ import annotations

import concurrent.futures
import csv
import fcntl
import hashlib
import io
import multiprocessing
import multiprocessing.connection
import os
import signal
import stat
import sys
import threading
from concurrent.futures import BrokenExecutor, Executor, Future
from contextlib import contextmanager
from pathlib import Path
from typing import BinaryIO, Callable, Iterable, Iterator, List, NamedTuple, Optional, Sequence

from .files import Place, shown
from .heap import Heap
from .history import PIECE, History
from .library import REPORT_ROOTS, build
from .measures import COLUMNS, FIGURE_COLUMNS, measure
from .runs import Run
from .widening import OLD_RECORD, may_be_old

#: The columns of the table: the history's path below the folder, the SHA-256 of its bytes, and those of `measures`.
TABLE_COLUMNS = ["history", "sha256", *COLUMNS]

#: A row, as the table has it.
Row = List[str]

#: Is told how many rows are done, and of how many.
Progress = Callable[[int, int], object]


class Task(NamedTuple):
    """A history to run on a heap: the key of its row."""

    history: str
    blocks: int
    width: int
    roots: int

    def __str__(self) -> str:
        return f"{shown(self.history)}, {self.blocks} blocks, width {self.width}"


class Swept(NamedTuple):
    """What a sweep did."""

    #: rows that stood already
    kept: int
    #: rows that were run
    run: int
    #: rows that stood, but were of other bytes of the history or of another library: these were run anew
    anew: int
    #: rows of histories that are not there any more: these were taken out
    pruned: int
    #: what could not be run or was passed over, with the reason
    failures: list[str]
    #: the history of each row and the number that stopped it
    runs: list[tuple[str, int]]
    #: the histories that may be of the old form, of records of eight bytes
    old: list[str]


class SweepError(Exception):
    """A sweep that can't begin, or go on. The message says why, and where it had begun how many rows stand."""


def sweep(
    folder: Place,
    table: Place,
    widths: Sequence[int],
    blocks: Sequence[int],
    roots: int = REPORT_ROOTS,
    pattern: str = "*.history",
    jobs: int = 1,
    dask: Optional[str] = None,
    progress: Optional[Progress] = None,
    prune: bool = False,
) -> Swept:
    """Runs every history below a folder whose name matches, in so many processes, or on the Dask cluster at an address, whose
    workers must have this package, and the folder under the same path. The table is no history, wherever it lies. Rows of histories
    that are not there any more are refused, or taken out with `prune`."""
    paths, passed_over = histories(folder, pattern, table)
    if not paths:
        raise SweepError("; ".join([f"{shown(folder)} has no file {pattern}", *passed_over]))
    widths, blocks = sorted(set(widths)), sorted(set(blocks))
    for n in blocks:
        for width in widths:
            # What the library refuses, it refuses here.
            Heap(n, width, roots)
    tasks = [Task(history, n, width, roots) for history in sorted(paths) for n in blocks for width in widths]
    with workers_for(min(jobs, len(tasks)), dask) as workers, _Table(Path(os.path.realpath(table))) as file:
        rows, anew, lost = _still_true(file.rows(), tasks, paths)
        if lost and not prune:
            names = ", ".join(map(shown, sorted(set(lost))))
            raise SweepError(
                f"{shown(table)} has {len(lost)} row{'s' * (len(lost) > 1)} of histories that are not in {shown(folder)}: {names}. "
                "`--prune` takes them out; or name another table"
            )
        file.replace(rows.values())
        kept = len(rows)
        failures = []
        for task, row, error in finished(workers, paths, (task for task in tasks if task not in rows)):
            if row is None:
                failures.append(f"{task}: {error}")
                continue
            file.append(row)
            rows[task] = row
            if progress:
                progress(len(rows), len(tasks))
        file.replace(rows[task] for task in tasks if task in rows)
    runs = [(task.history, int(cell(rows[task], "number"))) for task in tasks if task in rows]
    old = sorted({task.history for task in tasks if task in rows and _may_be_old(paths[task.history], task, rows[task])})
    return Swept(kept, len(rows) - kept, anew, len(lost), passed_over + failures + _changed(rows.values()), runs, old)


def _may_be_old(path: Path, task: Task, row: Row) -> bool:
    run = Run(int(cell(row, "number")), int(cell(row, "records")))
    if run.records != 0 or not run.stopped:
        return False
    try:
        with open(path, "rb", buffering=0) as file:
            return may_be_old(file.read(OLD_RECORD), run, task.blocks, task.width, task.roots)
    except OSError:
        return False


def histories(folder: Place, pattern: str, left_out: Optional[Place] = None) -> tuple[dict[str, Path], list[str]]:
    """The files below a folder whose names match, by their paths below it; and what was passed over, with the reason. A table and
    the file that it is renamed from are left out."""
    top = Path(folder).resolve()
    if not top.exists():
        raise SweepError(f"{shown(folder)}: no such folder")
    if not top.is_dir():
        raise SweepError(f"{shown(folder)} is no folder")
    out = {os.path.realpath(left_out), os.path.realpath(left_out) + ".new"} if left_out is not None else set()
    found: dict[str, Path] = {}
    passed_over: list[str] = []

    def pass_over(path: "str | Path", why: str) -> None:
        passed_over.append(f"{shown(os.path.relpath(path, top))}: passed over: {why}")

    def failed(error: OSError) -> None:
        pass_over(error.filename or top, str(error.strerror))

    for place, folders, files in os.walk(top, onerror=failed):
        for name in folders:
            if os.path.islink(os.path.join(place, name)):
                pass_over(os.path.join(place, name), "a link to a folder, which is not followed")
        for name in files:
            path = Path(place, name)
            below = path.relative_to(top).as_posix()
            if not Path(below).match(pattern) or str(path) in out:
                continue
            try:
                kind = os.stat(path).st_mode
            except OSError as error:
                pass_over(path, "a link to nothing" if path.is_symlink() else str(error.strerror))
                continue
            if stat.S_ISREG(kind):
                found[below] = path
            else:
                pass_over(path, "no regular file")
    return found, sorted(passed_over)


def cell(row: Row, column: str) -> str:
    """What a row has in a column."""
    return row[TABLE_COLUMNS.index(column)]


def row_of(path: str, task: Task) -> Row:
    """Runs a history, and gives its row. The digest is of the very bytes that were run."""
    with open(path, "rb", buffering=0) as file:
        digested = _Digested(file)
        measured = measure(History(digested), task.blocks, task.width, task.roots)  # type: ignore[arg-type]
        return [task.history, digested.whole(), *measured.row()]


class _Digested:
    """A binary file that is read once, and the digest of its bytes."""

    def __init__(self, file: BinaryIO) -> None:
        self._file = file
        self._sum = hashlib.sha256()

    def readinto(self, view: memoryview) -> int:
        read = self._file.readinto(view)  # type: ignore[attr-defined]
        self._sum.update(view[:read])
        return int(read)

    def whole(self) -> str:
        """The digest of all bytes: what a run that stopped has not read is read now."""
        rest = memoryview(bytearray(PIECE))
        while self.readinto(rest):
            pass
        return self._sum.hexdigest()


def _digest(path: Path) -> str:
    with open(path, "rb", buffering=0) as file:
        return _Digested(file).whole()


class _Table:
    """The table's file, open and locked: no other sweep writes it meanwhile."""

    def __init__(self, path: Path) -> None:
        self._path = path
        while True:
            self._file = open(path, "a+b")
            try:
                fcntl.flock(self._file, fcntl.LOCK_EX | fcntl.LOCK_NB)
            except BlockingIOError:
                self._file.close()
                raise SweepError(f"another sweep writes {shown(path)}") from None
            # It may have been replaced since it was opened.
            if os.path.exists(path) and os.path.samestat(os.fstat(self._file.fileno()), os.stat(path)):
                return
            self._file.close()

    def __enter__(self) -> _Table:
        return self

    def __exit__(self, *_: object) -> None:
        self._file.close()

    def rows(self) -> list[Row]:
        """The rows, without a last one that is torn."""
        self._file.seek(0)
        return whole_rows(self._file.read(), self._path)[0]

    def append(self, row: Row) -> None:
        """Adds a row, and sees it to the disk."""
        self._file.write(_line(row).encode("utf-8", "surrogateescape"))
        self._saved()

    def replace(self, rows: Iterable[Row]) -> None:
        """Puts these rows in place of all, at once."""
        new = self._path.with_name(self._path.name + ".new")
        before = self._file
        self._file = open(new, "w+b")
        fcntl.flock(self._file, fcntl.LOCK_EX)
        for row in [TABLE_COLUMNS, *rows]:
            self._file.write(_line(row).encode("utf-8", "surrogateescape"))
        self._saved()
        os.replace(new, self._path)
        before.close()

    def _saved(self) -> None:
        self._file.flush()
        os.fsync(self._file.fileno())


def standing(table: Place) -> int:
    """How many whole rows a table has."""
    try:
        with open(table, "rb") as file:
            return len(whole_rows(file.read(), table)[0])
    except (OSError, SweepError):
        return 0


def whole_rows(content: bytes, path: Place, progress: Optional[Progress] = None) -> tuple[list[Row], bool]:
    """The rows of a table, and whether a last one behind them is torn, as a sweep that is killed may leave it. A spreadsheet's line
    ends and byte order mark are read over."""
    text = content.decode("utf-8", "surrogateescape")
    if text.startswith("\ufeff"):
        text = text[1:]
    if _line(TABLE_COLUMNS).startswith(text):
        return [], False
    rows = list(csv.reader(io.StringIO(text, newline="")))
    if not rows or rows.pop(0) != TABLE_COLUMNS:
        raise SweepError(
            f"{shown(path)} is no table of a sweep, or one of another version: its first line is another. Name another table, or "
            "delete this one"
        )
    torn = bool(rows) and not (text.endswith("\n") and _is_whole(rows[-1]))
    if torn:
        rows.pop()
    for number, row in enumerate(rows, 1):
        if progress and number % 1024 == 1:
            progress(number, len(rows))
        if not _is_whole(row):
            raise SweepError(f"{shown(path)}: row {number}, `{shown(','.join(row))}`, is none of a sweep: put it right, or take it out")
    return rows, torn


def _is_whole(row: Row) -> bool:
    """Whether a row has every column, with a number where there must be one: a run that stopped has no figures."""
    if len(row) != len(TABLE_COLUMNS) or not row[0] or not cell(row, "library"):
        return False
    stopped = cell(row, "stopped") != ""
    return all(cell(row, name).isdigit() for name in ["heap_blocks", "count_width", "roots", "number", "records"]) and all(
        cell(row, name) == "" if stopped else cell(row, name).isdigit() for name in FIGURE_COLUMNS
    )


def task_of(row: Row) -> Task:
    """The key of a row that is whole."""
    return Task(row[0], *(int(cell(row, name)) for name in ["heap_blocks", "count_width", "roots"]))


def _line(row: Sequence[str]) -> str:
    line = io.StringIO()
    csv.writer(line, lineterminator="\n").writerow(row)
    return line.getvalue()


def _still_true(rows: Iterable[Row], tasks: Sequence[Task], paths: dict[str, Path]) -> tuple[dict[Task, Row], int, list[str]]:
    """The rows of histories that are there and have not changed, run by the library that is loaded; how many are of other bytes or
    of another library; and the histories of those that are of none that is there."""
    shapes = {task[1:] for task in tasks}
    digests: dict[str, str] = {}
    kept: dict[Task, Row] = {}
    anew, lost = 0, []
    for row in rows:
        task = task_of(row)
        if task[1:] not in shapes:
            raise SweepError(
                f"the table has a row of {task.blocks} blocks, width {task.width} and {task.roots} roots, which is not asked for: name "
                "another table, or delete this one"
            )
        if task.history not in paths:
            lost.append(task.history)
            continue
        if task.history not in digests:
            digests[task.history] = _digest(paths[task.history])
        if (digests[task.history], build()) == (cell(row, "sha256"), cell(row, "library")):
            kept[task] = row
        else:
            anew += 1
    return kept, anew, lost


def _changed(rows: Iterable[Row]) -> list[str]:
    """The histories that were changed during the sweep: their rows are of different bytes."""
    digests: dict[str, set[str]] = {}
    for row in rows:
        digests.setdefault(row[0], set()).add(row[1])
    return [f"{shown(history)}: changed during the sweep; run it again" for history, found in digests.items() if len(found) > 1]


class _Workers(NamedTuple):
    """What runs tasks, and how many it should be given at a time."""

    executor: Executor
    most: int


class _Here(Executor):
    """Runs what it is given at once, in this process."""

    def submit(self, fn, /, *arguments, **named):  # type: ignore[no-untyped-def]
        future: Future[Row] = Future()
        try:
            future.set_result(fn(*arguments, **named))
        except Exception as error:
            future.set_exception(error)
        return future


@contextmanager
def workers_for(jobs: int, dask: Optional[str]) -> Iterator[_Workers]:
    if dask is not None:
        try:
            from distributed import Client
        except ImportError:
            raise SweepError(
                f"a Dask cluster needs distributed, which {sys.executable} has not: `apt-get install python3-distributed` on Debian"
            ) from None
        with Client(dask) as client:  # type: ignore[no-untyped-call]
            yield _Workers(client.get_executor(pure=False), 2 * max(1, sum(client.ncores().values())))
        return
    if jobs == 1:
        yield _Workers(_Here(), 1)
        return
    # Processes that are started anew hold nothing of this one, and so see its end.
    context = multiprocessing.get_context("spawn")
    executor = concurrent.futures.ProcessPoolExecutor(jobs, mp_context=context, initializer=_begin_worker)
    try:
        yield _Workers(executor, 2 * jobs)
    except BaseException:
        # What they are at would be waited for. They are the executor's own, and none of a caller's.
        own = list((getattr(executor, "_processes", None) or {}).values())
        executor.shutdown(wait=False, cancel_futures=True)
        for process in own:
            process.terminate()
        raise
    executor.shutdown()


def _begin_worker() -> None:
    """A worker process leaves an interruption to the one that started it, and ends when that one is gone, were it killed."""
    signal.signal(signal.SIGINT, signal.SIG_IGN)
    parent = multiprocessing.parent_process()
    assert parent
    threading.Thread(target=_end_after, args=(parent.sentinel,), daemon=True).start()


def _end_after(sentinel: int) -> None:
    multiprocessing.connection.wait([sentinel])
    os._exit(1)


def finished(
    workers: _Workers, paths: dict[str, Path], tasks: Iterator[Task]
) -> Iterator[tuple[Task, Optional[Row], str]]:
    """Each task with its row, or with what went wrong, as they are finished. A worker process that dies ends it all."""
    try:
        yield from _finished(workers, paths, tasks)
    except BrokenExecutor as error:
        raise SweepError("a worker process died, as one does that is killed for want of memory") from error


def _finished(
    workers: _Workers, paths: dict[str, Path], tasks: Iterator[Task]
) -> Iterator[tuple[Task, Optional[Row], str]]:
    running: dict[Future[Row], Task] = {}
    while True:
        for task in tasks:
            running[workers.executor.submit(row_of, str(paths[task.history]), task)] = task
            if len(running) >= workers.most:
                break
        if not running:
            return
        for future in concurrent.futures.wait(running, return_when=concurrent.futures.FIRST_COMPLETED).done:
            task = running.pop(future)
            error: Optional[BaseException]
            try:
                error = future.exception()
            except concurrent.futures.CancelledError as cancelled:
                # A cluster that is gone leaves what it had been given.
                error = cancelled
            if error is None:
                yield task, future.result(), ""
            elif isinstance(error, BrokenExecutor):
                raise error
            elif isinstance(error, OSError):
                yield task, None, str(error)
            else:
                yield task, None, f"{type(error).__name__}: {error}"
