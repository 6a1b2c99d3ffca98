"""A history's figures by count width and size of heap, as a table."""

from __future__ import annotations

import csv
import json
from typing import Iterable, Iterator, Optional, Sequence, TextIO

from .history import History, Progress, Source
from .measures import COLUMNS, Measured, measure


def widths(
    history: Source, blocks: Sequence[int], counts: Sequence[int], roots: int, progress: Optional[Progress] = None
) -> Iterator[Measured]:
    """A history at each size of heap and each count width."""
    history = History.of(history)
    size = history.size() or 0
    runs = [(n, width) for n in blocks for width in counts]
    for done, (n, width) in enumerate(runs):

        def tell(part: int, before: int = done * size) -> None:
            if progress:
                progress(before + part)

        yield measure(history, n, width, roots, tell)


def write_csv(measures: Iterable[Measured], file: TextIO) -> None:
    """The table with commas, a line for each."""
    writer = csv.writer(file, lineterminator="\n")
    writer.writerow(COLUMNS)
    for measured in measures:
        writer.writerow(measured.row())


def write_json(measures: Iterable[Measured], file: TextIO) -> None:
    """The table as a list of objects with the same names; a figure that a stopped run hasn't is null."""
    json.dump([measured.columns() for measured in measures], file, indent=2)
    file.write("\n")


#: The columns for reading: two lines of a head, and which of the columns it is.
_HEADS = [
    ("", "blocks", "heap_blocks"),
    ("", "width", "count_width"),
    ("full", "collections", "collections"),
    ("most blocks", "in use", "peak"),
    ("stuck", "moments", "stuck_moments"),
    ("blocks of", "data", "data_blocks"),
    ("garbage held by", "stuck counts alone", "garbage_stuck_alone"),
    ("garbage held by", "cycles alone", "garbage_cycles_alone"),
    ("garbage held", "by both", "garbage_both"),
    ("", "stopped", "stopped"),
]

#: The place of the column of data.
_DATA = [head[2] for head in _HEADS].index("data_blocks")


def text(measures: Iterable[Measured]) -> str:
    """The table for reading. A run that stopped has no figures. The column of data is left out where no run left any."""
    rows: list[tuple[str, ...]] = [tuple(head[line] for head in _HEADS) for line in range(2)]
    for measured in measures:
        columns = measured.columns()
        rows.append(tuple(_word(columns[head[2]]) for head in _HEADS))
    if all(row[_DATA] in ("-", "0") for row in rows[2:]):
        rows = [row[:_DATA] + row[_DATA + 1 :] for row in rows]
    breadths = [max(map(len, column)) for column in zip(*rows)]
    lines = ["  ".join(word.rjust(breadth) for word, breadth in zip(row, breadths)).rstrip() for row in rows]
    return "\n".join(lines) + "\n"


def _word(cell: object) -> str:
    if cell is None:
        return "-"
    return f"{cell:,}" if isinstance(cell, int) else str(cell)
