"""How long a program has to wait: a full collection against one in small steps, at the moments at which a history's run collects.

At such a moment the heap is copied. One copy collects at once; on others a collection is opened and stepped, so many steps a call, until it
closes. Every call of the library checks the heap first, and a collection in steps makes many calls: so the check's own time is shown beside.
"""

from __future__ import annotations

import csv
import time
from typing import Any, Callable, Dict, Iterator, List, NamedTuple, Optional, Sequence, TextIO, Tuple

from .collection import Quartiles
from .files import Place, shown
from .heap import Heap
from .history import History, Progress, Source
from .plot import BREADTHS, pictures, saved
from .record import RECORD
from .runs import Run

#: The moments that are measured at most, unless more are asked for; and how many there are where the run never collects.
MOMENTS, SPREAD = 20, 10

#: The turns of each measurement, of which the shortest counts: what else the machine does only makes it longer.
TURNS = 3


class Pause(NamedTuple):
    """A collection on one copy of a heap: how it was made (0 is at once, else the steps a call), the calls that it took, the steps of the
    longest in steps and in all, and the microseconds of the longest call and of all."""

    budget: int
    calls: int
    most_steps: int
    steps: int
    longest: float
    whole: float


class Moment(NamedTuple):
    """The heap before the record of this number: the objects that a root reaches, the microseconds of a check with no collection open and
    with one, and the collection made at once and in steps."""

    record: int
    reached: int
    check: float
    open_check: float
    pauses: List[Pause]


class Pauses(NamedTuple):
    """What was measured of a run."""

    #: whether the run collects at these moments; else they are spread over it
    collects: bool
    moments: List[Moment]
    run: Run


def pauses(
    history: Source,
    blocks: int,
    width: int,
    roots: int,
    budgets: Sequence[int],
    most: int = MOMENTS,
    progress: Optional[Progress] = None,
) -> Pauses:
    """The pauses of a run. Where it collects more often than `most`, so many of its collections, spread evenly, are measured."""
    source = History.of(history)
    run = source.run(Heap(blocks, width, roots), may_stop=True)
    step = max(1, run.records // 400)
    if run.figures.collections:
        wanted = _spread(run.figures.collections, most)
        found = _before_collections(source, Heap(blocks, width, roots), step, set(wanted))
    else:
        wanted = _spread(run.records, min(most, SPREAD))
        found = _before_records(source, Heap(blocks, width, roots), wanted)
    moments = []
    for record, heap in found:
        moments.append(_measured(record, heap, budgets))
        if progress:
            progress(RECORD * record)
    return Pauses(run.figures.collections > 0, moments, run)


def _spread(number: int, most: int) -> List[int]:
    """At most so many of the numbers below, spread evenly."""
    if number <= most:
        return list(range(number))
    return sorted({number * part // most for part in range(most)})


def _before_collections(history: History, heap: Heap, step: int, wanted: "set[int]") -> Iterator[Tuple[int, Heap]]:
    """The heap before each of these collections, counted from 0, with the number of the record that collects. Of several in one step of
    records the first is taken."""
    run = Run()
    for piece in history.pieces():
        for at in range(0, len(piece), RECORD * step):
            part = piece[at : at + RECORD * step]
            before, start = heap.copy(), run
            run = heap.run_records(run, part)
            if wanted & set(range(start.figures.collections, run.figures.collections)):
                yield _last_before(before, start, part)
            if run.stopped:
                return


def _last_before(heap: Heap, run: Run, part: bytes) -> Tuple[int, Heap]:
    """The heap before the first record of a part that collects, found by halves."""
    while len(part) > RECORD:
        half = len(part) // RECORD // 2 * RECORD
        after = heap.copy()
        reached = after.run_records(run, part[:half])
        if reached.figures.collections == run.figures.collections:
            heap, run, part = after, reached, part[half:]
        else:
            part = part[:half]
    return run.records, heap


def _before_records(history: History, heap: Heap, wanted: Sequence[int]) -> Iterator[Tuple[int, Heap]]:
    """The heap before each of these records."""
    run, due = Run(), list(wanted)
    for piece in history.pieces():
        at = 0
        while due and (due[0] - run.records) * RECORD <= len(piece) - at:
            part = RECORD * (due[0] - run.records)
            run = heap.run_records(run, piece[at : at + part])
            at += part
            yield due.pop(0), heap.copy()
        if not due:
            return
        run = heap.run_records(run, piece[at:])


def _measured(record: int, heap: Heap, budgets: Sequence[int]) -> Moment:
    opened = heap.copy()
    opened.open_collection()
    check, open_check = (min(_timed(one.check) for _ in range(TURNS)) for one in (heap, opened))
    at_once = min(_at_once(heap) for _ in range(TURNS))
    by_steps = [_in_steps(opened, budget) for budget in budgets]
    reached = by_steps[0].steps if by_steps else _in_steps(opened, 2**32).steps
    return Moment(record, reached, check, open_check, [Pause(0, 1, reached, reached, at_once, at_once), *by_steps])


def _timed(call: Callable[[], object]) -> float:
    """Microseconds of a call."""
    began = time.perf_counter_ns()
    call()
    return (time.perf_counter_ns() - began) / 1000


def _at_once(heap: Heap) -> float:
    return _timed(heap.copy().collect)


def _in_steps(opened: Heap, budget: int) -> Pause:
    """The shortest of some turns, call by call: each makes the same calls."""
    turns: List[List[Tuple[float, int]]] = []
    for _ in range(TURNS):
        heap, calls = opened.copy(), []
        while heap.is_open:
            began = time.perf_counter_ns()
            stepped = heap.step_collection(budget)
            calls.append(((time.perf_counter_ns() - began) / 1000, stepped.steps))
        turns.append(calls)
    times = [min(one) for one in zip(*([took for took, _ in calls] for calls in turns))]
    steps = [number for _, number in turns[0]]
    return Pause(budget, len(times), max(steps), sum(steps), max(times), sum(times))


#: The columns of the comma-separated table: a row for each moment and each way.
COLUMNS = ["record", "reached_objects", "check_us", "open_check_us", "budget", "calls", "most_steps", "steps", "longest_us", "whole_us"]


def write_csv(found: Pauses, file: TextIO) -> None:
    """All of it, with commas. Budget 0 is the collection at once."""
    writer = csv.writer(file, lineterminator="\n")
    writer.writerow(COLUMNS)
    for moment in found.moments:
        for pause in moment.pauses:
            times = [f"{time:.1f}" for time in (moment.check, moment.open_check, pause.longest, pause.whole)]
            writer.writerow([moment.record, moment.reached, *times[:2], *pause[:4], *times[2:]])


def by_way(found: Pauses) -> Dict[int, List[Pause]]:
    """The pauses of each way, by its steps a call."""
    ways: Dict[int, List[Pause]] = {}
    for moment in found.moments:
        for pause in moment.pauses:
            ways.setdefault(pause.budget, []).append(pause)
    return ways


def text(found: Pauses) -> str:
    """The pauses for reading: medians over the moments, and the most."""
    number = len(found.moments)
    if not number:
        return "there is no record, and so no moment\n"
    what = "its collections" if found.collects else "moments of a run that never collects"
    checks, opened = ([getattr(moment, name) for moment in found.moments] for name in ("check", "open_check"))
    reached = Quartiles.of([moment.reached for moment in found.moments])
    lines = [
        f"{number:,} of {what}: {reached.median:,.0f} objects reached (median, {reached.least:,.0f} to {reached.most:,.0f})",
        f"the check of the heap, in each call: {Quartiles.of(checks).median:,.1f} µs, with a collection open "
        f"{Quartiles.of(opened).median:,.1f} µs (medians)",
    ]
    rows = [["collection", "calls", "longest pause,", "longest pause, µs", "", "all calls, µs"], ["", "(median)", "in steps", "median", "most", "median"]]
    for budget, some in by_way(found).items():
        name = "at once" if budget == 0 else f"{budget:,} step{'' if budget == 1 else 's'} a call"
        longest = Quartiles.of([pause.longest for pause in some])
        calls, whole = (Quartiles.of([getattr(pause, part) for pause in some]).median for part in ("calls", "whole"))
        steps = max(pause.most_steps for pause in some)
        rows.append([name, f"{calls:,.0f}", f"{steps:,}", f"{longest.median:,.1f}", f"{longest.most:,.1f}", f"{whole:,.1f}"])
    breadths = [max(map(len, column)) for column in zip(*rows)]
    for row in rows:
        cells = [word.ljust(breadth) if place == 0 else word.rjust(breadth) for place, (word, breadth) in enumerate(zip(row, breadths))]
        lines.append("  " + "  ".join(cells).rstrip())
    return "\n".join(lines) + "\n"


def plot(found: Pauses, title: Optional[str], path: Place, columns: int = 2) -> None:
    """Draws the pauses to a file whose ending names its kind."""
    saved(lambda: draw(found, title, columns), path)


def draw(found: Pauses, title: Optional[str], columns: int = 2) -> Any:
    """The picture: the longest pause of each way over the moments, as a box with its quartiles, in microseconds and, on a scale of powers of
    ten, in steps; a dashed line at the check's time, which every call takes."""
    pyplot = pictures()
    from matplotlib.ticker import NullFormatter, StrMethodFormatter  # type: ignore[import]

    breadth, narrow = BREADTHS[columns], columns == 1
    across, down = (1, 2) if narrow else (2, 1)
    above, below = 0.5 if title else 0.3, 0.55
    height = above + below + 2.0 * down + 0.5 * (down - 1)
    figure, panels = pyplot.subplots(down, across, figsize=(breadth, height), squeeze=False)
    ways = by_way(found)
    names = ["at once" if budget == 0 else f"{budget:,}" for budget in ways]
    for panel, (unit, part) in zip(panels.flat, [("µs", "longest"), ("steps", "most_steps")]):
        summaries = []
        for some in ways.values():
            # A collection that finds nothing takes no step, which a scale of powers of ten has no place for.
            one = Quartiles.of([max(0.5, float(getattr(pause, part))) for pause in some])
            summaries.append({"med": one.median, "q1": one.lower, "q3": one.upper, "whislo": one.least, "whishi": one.most})
        drawn = panel.bxp(summaries, positions=range(len(ways)), widths=0.5, showfliers=False, patch_artist=True, manage_ticks=False)
        for place, box in enumerate(drawn["boxes"]):
            box.set(linewidth=0.6, facecolor="#f4b183" if place == 0 else "#dfe8f2", hatch="////" if place == 0 else "")
        for line in [line for name in ("whiskers", "caps", "medians") for line in drawn[name]]:
            line.set(color="black", linewidth=0.8)
        if part == "longest":
            checks = Quartiles.of([moment.open_check for moment in found.moments])
            panel.axhline(checks.median, color="0.35", linewidth=0.9, linestyle="--", label="the check, which every call makes")
            panel.legend(loc="lower right", fontsize=6, frameon=False)
            panel.set_ylim(bottom=0)
        else:
            panel.set_yscale("log")
            panel.yaxis.set_minor_formatter(NullFormatter())
        panel.yaxis.set_major_formatter(StrMethodFormatter("{x:,.0f}"))
        panel.set_title(f"longest pause, {'microseconds' if unit == 'µs' else 'steps'}", fontsize=7, loc="left", pad=3)
        panel.set_ylabel(unit, fontsize=7)
        panel.set_xticks(range(len(ways)))
        panel.set_xticklabels(names, fontsize=7)
        panel.set_xlabel("steps a call", fontsize=7)
        panel.set_xlim(-0.6, len(ways) - 0.4)
        panel.tick_params(labelsize=7)
        panel.grid(True, axis="y", linewidth=0.3, color="0.8")
        panel.set_axisbelow(True)
    note = f"{len(found.moments):,} {'collections of the run' if found.collects else 'moments'}; boxes: quartiles and median; whiskers: least and most"
    figure.text(0.5, 0.04 / height, note, ha="center", va="bottom", fontsize=6)
    if title:
        figure.suptitle(shown(title).replace("$", r"\$"), y=1 - 0.08 / height, va="top", fontsize=9)
    figure.subplots_adjust(
        left=0.6 / breadth, right=1 - 0.12 / breadth, top=1 - above / height, bottom=below / height, hspace=0.5, wspace=0.28
    )
    return figure
