"""What changed between two tables of one collection of histories: by another library, say, or after histories were recorded anew."""

from __future__ import annotations

from typing import Dict, List, NamedTuple, Optional, Sequence

from .files import Place, shown
from .measures import FIGURE_COLUMNS
from .sweep import Progress, Row, SweepError, Task, cell, task_of, whole_rows

#: The differences that are named one by one for reading, at most.
NAMED = 20


class Change(NamedTuple):
    """A column of a row that has another word in the second table."""

    task: Task
    column: str
    first: str
    second: str

    def __str__(self) -> str:
        words = f"{self.task}: {self.column} {self.first or 'empty'}, then {self.second or 'empty'}"
        if self.first.isdigit() and self.second.isdigit() and int(self.first):
            return f"{words} ({100 * (int(self.second) - int(self.first)) / int(self.first):+.1f} %)"
        return words


class Compared(NamedTuple):
    """What came of it."""

    #: rows that both tables have
    both: int
    #: rows that only one of them has
    only_first: List[Task]
    only_second: List[Task]
    #: histories whose bytes are others in the second table
    other_bytes: List[str]
    #: the libraries of each
    libraries: List[List[str]]
    #: what changed in the rows that both have: where a run stopped, and figures
    changes: List[Change]

    @property
    def differ(self) -> bool:
        """Whether there is a difference other than the libraries' names."""
        return bool(self.only_first or self.only_second or self.other_bytes or self.changes)


def compare(first: Place, second: Place, progress: Optional[Progress] = None) -> Compared:
    """Two tables of sweeps, row by row."""
    tables = [_rows(first, progress), _rows(second, progress)]
    both = [task for task in tables[0] if task in tables[1]]
    changes: List[Change] = []
    other: Dict[str, None] = {}
    for task in both:
        one, two = (table[task] for table in tables)
        if cell(one, "sha256") != cell(two, "sha256"):
            other[task.history] = None
        for column in ["stopped", *FIGURE_COLUMNS]:
            if cell(one, column) != cell(two, column):
                changes.append(Change(task, column, cell(one, column), cell(two, column)))
    return Compared(
        len(both),
        sorted(tables[0].keys() - tables[1].keys()),
        sorted(tables[1].keys() - tables[0].keys()),
        sorted(other),
        [sorted({cell(row, "library") for row in table.values()}) for table in tables],
        changes,
    )


def _rows(table: Place, progress: Optional[Progress]) -> Dict[Task, Row]:
    with open(table, "rb") as file:
        rows, torn = whole_rows(file.read(), table, progress)
    if torn:
        raise SweepError(f"{shown(table)}: row {len(rows) + 1}, the last, is not whole: the same sweep goes on from there")
    if not rows:
        raise SweepError(f"{shown(table)} has no row")
    found = {task_of(row): row for row in rows}
    if len(found) < len(rows):
        raise SweepError(f"{shown(table)} has a history twice at one size and width")
    return found


def text(found: Compared, names: Sequence[str]) -> str:
    """The differences for reading: how many rows have another word in each column, with the median of the change where both are numbers; then
    the rows, the first of them."""
    lines = [f"{found.both:,} rows are in both tables"]
    for tasks, name in [(found.only_first, names[0]), (found.only_second, names[1])]:
        if tasks:
            lines.append(f"{len(tasks):,} row{_s(len(tasks))} only in {shown(name)}: {_some([str(task) for task in tasks])}")
    if found.libraries[0] != found.libraries[1]:
        lines.append(f"other libraries: {', '.join(found.libraries[0])}, then {', '.join(found.libraries[1])}")
    if found.other_bytes:
        number = len(found.other_bytes)
        lines.append(f"{number:,} histor{'y has' if number == 1 else 'ies have'} other bytes: {_some([shown(name) for name in found.other_bytes])}")
    for column in ["stopped", *FIGURE_COLUMNS]:
        some = [change for change in found.changes if change.column == column]
        if some:
            lines.append(f"{column}: {len(some):,} row{_s(len(some))}{_trend(some)}")
    if found.changes:
        lines.append("")
        lines += [f"  {change}" for change in found.changes[:NAMED]]
        if len(found.changes) > NAMED:
            lines.append(f"  and {len(found.changes) - NAMED:,} more (--csv has all)")
    if not found.differ:
        lines.append("no difference")
    return "\n".join(lines) + "\n"


def _trend(some: Sequence[Change]) -> str:
    """How many rose, how many fell, and by how much, in the middle."""
    both = [(int(change.first), int(change.second)) for change in some if change.first.isdigit() and change.second.isdigit()]
    if not both:
        return ""
    by = sorted(second - first for first, second in both)
    middle = (by[(len(by) - 1) // 2] + by[len(by) // 2]) / 2
    return f", {sum(one > 0 for one in by):,} more and {sum(one < 0 for one in by):,} less, by {middle:+,g} in the median"


def _some(words: Sequence[str]) -> str:
    more = f" and {len(words) - 5:,} more" if len(words) > 5 else ""
    return ", ".join(words[:5]) + more


def _s(number: int) -> str:
    return "" if number == 1 else "s"
