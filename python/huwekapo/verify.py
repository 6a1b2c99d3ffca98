"""Whether a sweep's table is what the histories give: its rows are run again."""

from __future__ import annotations

import os
import subprocess
from collections import Counter
from pathlib import Path
from random import Random
from typing import Callable, Iterator, NamedTuple, Optional

from . import library
from .files import Place, shown
from .heap import Heap
from .library import REPORT_BLOCKS, REPORT_ROOTS, REPORT_WIDTH
from .measures import LINE_COLUMNS
from .refused import Refused
from .sweep import TABLE_COLUMNS, Progress, Row, SweepError, Task, cell, finished, histories, task_of, whole_rows, workers_for

#: The environment variable that names the program `report`.
VARIABLE = "HUWEKAPO_REPORT"


class Verified(NamedTuple):
    """What came of it."""

    #: rows of the table
    rows: int
    #: rows that were run again
    run: int
    #: of these, rows that the program `report` was run for too
    by_report: int
    #: rows of another library than the one that is loaded
    other_library: int
    #: what differs, in words
    differences: list[str]


def report_program() -> Optional[str]:
    """The program `report`: the one that the environment variable names, that beside the library, or that of the clone."""
    named = os.environ.get(VARIABLE)
    if named:
        return named
    beside = os.path.join(os.path.dirname(os.path.realpath(library.path())), os.pardir, "libexec", "huwekapo", "report")
    clone = os.path.join(os.path.dirname(os.path.realpath(__file__)), os.pardir, os.pardir, "target", "bin", "report")
    return next((os.path.normpath(place) for place in (beside, clone) if os.access(place, os.X_OK)), None)


def verify(
    table: Place,
    folder: Place,
    sample: Optional[int] = None,
    seed: int = 1,
    pattern: str = "*.history",
    jobs: int = 1,
    report: Optional[str] = None,
    progress: Optional[Progress] = None,
) -> Verified:
    """Runs the rows of a table again, or so many of them, taken by the seed, and compares every column but the library's. Rows of the
    shape of the program `report` are held against it too, where one is named."""
    with open(table, "rb") as file:
        rows, torn = whole_rows(file.read(), table, progress)
    if not rows:
        raise SweepError(f"{shown(table)} has no row")
    paths, differences = histories(folder, pattern, table)
    if torn:
        differences.append(f"row {len(rows) + 1}, the last, is not whole")
    differences += list(_incomplete(rows, paths))
    due = [row for row in rows if row[0] in paths]
    if sample is not None and sample < len(due):
        due = [due[k] for k in sorted(Random(seed).sample(range(len(due)), sample))]
    by_task: dict[Task, Row] = {}
    for row in due:
        task = task_of(row)
        if _is_shape(task):
            by_task[task] = row
        else:
            differences.append(f"{task}, {task.roots} roots: there is no such heap")
    by_report = 0
    with workers_for(max(1, min(jobs, len(by_task))), None) as workers:
        for done, (task, again, error) in enumerate(finished(workers, paths, iter(by_task)), 1):
            row = by_task[task]
            differences += [f"{task}: {words}" for words in ([error] if again is None else _different(row, again))]
            if report is not None and task[1:] == (REPORT_BLOCKS, REPORT_WIDTH, REPORT_ROOTS):
                by_report += 1
                differences += [f"{task}: {words}" for words in _held_against(report, paths[task.history], row)]
            if progress:
                progress(done, len(by_task))
    other = sum(cell(row, "library") != library.build() for row in rows)
    return Verified(len(rows), len(by_task), by_report, other, differences)


def _incomplete(rows: list[Row], paths: dict[str, Path]) -> Iterator[str]:
    """A sweep's table has each history at each shape, once."""
    met = Counter(map(task_of, rows))
    for task, times in met.items():
        if times > 1:
            yield f"{task}: has {times} rows"
    for history in sorted({task.history for task in met} - paths.keys()):
        yield f"{shown(history)}: there is no such history"
    for shape in sorted({task[1:] for task in met}):
        for history in sorted(paths):
            if Task(history, *shape) not in met:
                yield f"{Task(history, *shape)}: has no row"


def _is_shape(task: Task) -> bool:
    try:
        Heap(task.blocks, task.width, task.roots)
    except (Refused, OverflowError):
        return False
    return True


def _different(row: Row, again: Row) -> Iterator[str]:
    for name in TABLE_COLUMNS:
        if name != "library" and cell(row, name) != cell(again, name):
            yield f"{name} is {_shown(cell(row, name))} in the table, and {_shown(cell(again, name))} when it is run"


def _held_against(report: str, history: Path, row: Row) -> Iterator[str]:
    """The line of the program `report`, against the row's figures."""
    with open(history, "rb") as file:
        ran = subprocess.run([report], stdin=file, stdout=subprocess.PIPE, check=False)
    line = ran.stdout.decode("ascii", "replace").rstrip("\n")
    due = cell(row, "stopped") or " ".join(cell(row, name) for name in LINE_COLUMNS)
    if line != due:
        yield f"the program report prints {_shown(line)}; the row's line is {_shown(due)}"


def _shown(word: str) -> str:
    return f"`{word}`" if word else "empty"
