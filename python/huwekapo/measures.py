"""What is measured of a history at one size and one width, and how tables name it."""

from __future__ import annotations

from typing import Dict, Iterable, List, NamedTuple, Optional, Tuple, Union

from . import library
from .files import shown
from .heap import Heap
from .history import History, Progress, Source
from .library import Figures
from .refused import stop_in_words
from .runs import Run
from .unreached import Garbage, Kinds, garbage, kinds

_FIGURE_COLUMNS = {"blocks": "blocks_allocated", "largest": "largest_size", "stuck": "stuck_moments"}

#: The columns that have a figure of the printed line.
LINE_COLUMNS = [_FIGURE_COLUMNS.get(name, name) for name in Figures._fields]

#: The columns that have a figure of a history: empty where its run stopped, since it has none then. Objects, data and garbage are
#: those at the end, in blocks.
FIGURE_COLUMNS = [
    *LINE_COLUMNS,
    "object_blocks",
    "data_blocks",
    "garbage_stuck_alone",
    "garbage_cycles_alone",
    "garbage_both",
]

#: The columns of a table. `stopped` is empty, or says where the run stopped, as `refused 5 at record 7`; `number` is 0, or what
#: stopped it; `records` are those that were run. `library` is the version, and 16 digits of the library's SHA-256.
COLUMNS = ["heap_blocks", "count_width", "roots", "stopped", "number", "records", *FIGURE_COLUMNS, "library"]

#: The figures in words, in the order of the line.
FIGURE_WORDS = {
    "allocations": "accepted allocations",
    "blocks": "blocks allocated in all",
    "largest": "largest accepted size",
    "collections": "full collections",
    "peak": "most blocks in use",
    "stuck": "moments at which an object became stuck",
}

#: The kinds of objects in words.
KIND_WORDS = {"objects": "blocks of objects at the end", "data": "blocks of data at the end"}

#: The parts of garbage in words.
GARBAGE_WORDS = {
    "stuck": "garbage held by stuck counts alone",
    "cycles": "garbage held by cycles alone",
    "both": "garbage held by both",
}


class Measured(NamedTuple):
    """A history's run on a heap of so many blocks, with counts of so many bits, and the garbage and the kinds of objects that it left."""

    blocks: int
    width: int
    roots: int
    run: Run
    garbage: Garbage
    kinds: Kinds

    def figures(self) -> List[Optional[int]]:
        """The numbers of `FIGURE_COLUMNS`: none where the run stopped."""
        if self.run.stopped:
            return [None] * len(FIGURE_COLUMNS)
        return [*self.run.figures, *(held.blocks for held in (*self.kinds, *self.garbage))]

    def columns(self) -> Dict[str, Union[int, str, None]]:
        """What each of `COLUMNS` has."""
        run = self.run
        row: List[Union[int, str, None]] = [self.blocks, self.width, self.roots, run.stop(), run.number, run.records]
        return dict(zip(COLUMNS, [*row, *self.figures(), library.build()]))

    def row(self) -> List[str]:
        """The same as words, for a comma-separated table."""
        return ["" if word is None else str(word) for word in self.columns().values()]


def measure(history: Source, blocks: int, width: int, roots: int, progress: Optional[Progress] = None) -> Measured:
    """Runs a history on a new heap, and looks at what is left. The run may stop."""
    heap = Heap(blocks, width, roots)
    run = History.of(history).run(heap, progress, may_stop=True)
    return Measured(blocks, width, roots, run, garbage(heap), kinds(heap))


def summary(runs: Iterable[Tuple[str, int]]) -> List[str]:
    """How many runs ended and how many stopped, in lines: from the name of each one's history and the number that stopped it. A
    number has a line of its own, with the histories."""
    ended = 0
    stops: Dict[int, List[str]] = {}
    for name, number in runs:
        if number:
            stops.setdefault(number, []).append(name)
        else:
            ended += 1
    lines = [f"{ended:,} run{_s(ended)} ended, {sum(map(len, stops.values())):,} stopped"]
    for number, names in sorted(stops.items()):
        histories = ", ".join(map(shown, sorted(set(names))))
        lines.append(f"  {len(names):,} refused {number} ({stop_in_words(number)}): {histories}")
    return lines


def _s(number: int) -> str:
    return "" if number == 1 else "s"
