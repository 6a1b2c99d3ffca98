"""Blocks in use over the records of a history, for each count width, as a picture. Needs matplotlib."""

from __future__ import annotations

import os
import sys
from typing import Any, Callable, NamedTuple, Optional, Sequence

from .files import Place, shown, written
from .heap import Heap
from .history import History, Progress, Source
from .measures import GARBAGE_WORDS
from .record import RECORD
from .runs import Run
from .unreached import Garbage, Held, in_use, survey

#: Samples of each run, where no step is given.
_SAMPLES = 400

#: The kinds of pictures, by their endings.
KINDS = ("svg", "pdf", "png")

#: The breadth in inches of a picture for one column of a journal, and for two.
BREADTHS = {1: 3.5, 2: 7.2}

_NOTHING = Garbage(Held(0, 0), Held(0, 0), Held(0, 0))


class MatplotlibMissing(ImportError):
    """matplotlib can't be imported. The message says by which Python, and how to install it."""

    def __init__(self) -> None:
        super().__init__(
            f"the plot needs matplotlib, which {sys.executable} has not: `apt-get install python3-matplotlib` for Debian's "
            f"/usr/bin/python3, or `{sys.executable} -m pip install matplotlib`. Everything else works without it."
        )


class Sample(NamedTuple):
    """The heap after so many records."""

    records: int
    in_use: int
    #: the most blocks in use after any record since the sample before
    highest: int
    #: of the blocks in use, those of garbage
    garbage: Garbage
    #: full collections since the sample before
    collections: int
    #: of the blocks in use, those of data that a root reaches
    data: int


class Course(NamedTuple):
    """The samples of a run at one width."""

    width: int
    samples: list[Sample]
    run: Run


def course(
    history: Source, blocks: int, width: int, roots: int, step: Optional[int] = None, progress: Optional[Progress] = None
) -> Course:
    """Runs a history on a new heap, and looks at it after every `step` records; without a step, so often that there are 400 samples
    of the run, whether or not it comes to the history's end."""
    history = History.of(history)
    if step is not None:
        return _course(history, blocks, width, roots, step, progress)
    records = (history.size() or 0) // RECORD
    one = _course(history, blocks, width, roots, _share(records), progress)
    if one.run.records < records and _share(one.run.records) < _share(records):
        return _course(history, blocks, width, roots, _share(one.run.records), progress)
    return one


def _share(records: int) -> int:
    return max(1, -(-records // _SAMPLES))


def _course(history: History, blocks: int, width: int, roots: int, step: int, progress: Optional[Progress]) -> Course:
    heap = Heap(blocks, width, roots)
    samples = [Sample(0, 0, 0, _NOTHING, 0, 0)]
    run = Run()
    for after, highest in history.steps(heap, step):
        collections = after.figures.collections - run.figures.collections
        if after.records > run.records or collections:
            reached, garbage = survey(heap)
            samples.append(Sample(after.records, in_use(heap), highest, garbage, collections, reached.data.blocks))
        run = after
        if progress:
            progress(RECORD * run.records)
    return Course(width, samples, run)


def pictures() -> Any:
    """matplotlib's pyplot, drawing to files alone."""
    try:
        import matplotlib  # type: ignore[import]

        matplotlib.use("Agg")
        from matplotlib import pyplot
    except ImportError as error:
        raise MatplotlibMissing() from error
    return pyplot


def kind(path: Place) -> str:
    """The kind of picture that a file's ending names. ValueError where it names none."""
    ending = os.path.splitext(os.fspath(path))[1][1:].lower()
    if ending not in KINDS:
        raise ValueError(f"{shown(path)}: the ending says which kind of picture it is: {', '.join('.' + one for one in KINDS)}")
    return ending


#: Fonts as PDF and SVG should have them; numbers that make the same courses the same file.
_SETTINGS = {
    "svg.hashsalt": "huwekapo",
    "svg.fonttype": "none",
    "pdf.fonttype": 42,
    "ps.fonttype": 42,
    "font.size": 8,
    "hatch.linewidth": 0.4,
    "axes.linewidth": 0.6,
}


def plot(courses: Sequence[Course], blocks: int, title: Optional[str], path: Place, columns: int = 2) -> None:
    """Draws the courses to a file whose ending names its kind (svg, pdf, png), with a title or none, as wide as one or two columns of
    a journal."""
    saved(lambda: draw(courses, blocks, title, columns), path)


def saved(drawn: Callable[[], Any], path: Place) -> None:
    """Writes a picture to a file whose ending names its kind; the same picture is the same file."""
    ending = kind(path)
    pyplot = pictures()
    with pyplot.rc_context(_SETTINGS):
        figure = drawn()
        dates = {"svg": {"Date": None}, "pdf": {"CreationDate": None}, "png": {}}
        try:
            with written(path) as file:
                figure.savefig(file, format=ending, metadata=dates[ending], dpi=300)
        finally:
            pyplot.close(figure)


def draw(courses: Sequence[Course], blocks: int, title: Optional[str], columns: int = 2) -> Any:
    """The picture: the courses one below another on the same scale. The vertical axis goes up to the number of blocks."""
    pyplot = pictures()
    from matplotlib.ticker import FixedLocator, MaxNLocator, StrMethodFormatter  # type: ignore[import]

    breadth, narrow = BREADTHS[columns], columns == 1
    parts = _parts(courses)
    # Above and below the panels, in inches, whatever their number: a title, then the axis, its name and the legend.
    rows = -(-len(parts) // (1 if narrow else 3))
    above, below = (0.42 if title else 0.22) + 0.12 * narrow, 0.46 + 0.13 * rows
    height = above + below + 1.3 * len(courses) + (0.12 * narrow) * (len(courses) - 1)
    figure, panels = pyplot.subplots(len(courses), 1, sharex=True, sharey=True, figsize=(breadth, height), squeeze=False)
    for panel, one in zip(panels[:, 0], courses):
        _draw(panel, one, narrow)
    lowest = panels[-1, 0]
    lowest.set_xlim(0, max(1, *(one.samples[-1].records for one in courses)))
    lowest.xaxis.set_major_locator(MaxNLocator(nbins=4 if narrow else 7, integer=True, steps=[1, 2, 2.5, 5, 10]))
    lowest.set_ylim(0, blocks)
    # Quarters of a power of two from 8 on.
    lowest.yaxis.set_major_locator(FixedLocator([blocks * quarter // 4 for quarter in range(5)]))
    for panel in panels[:, 0]:
        panel.xaxis.set_major_formatter(StrMethodFormatter("{x:,.0f}"))
        panel.yaxis.set_major_formatter(StrMethodFormatter("{x:,.0f}"))
    lowest.set_xlabel("records", fontsize=8)
    left = 0.62 / breadth
    figure.supylabel("blocks", x=0.1 / breadth, fontsize=8)
    if title:
        # A `$` begins no formula, and bytes that are no text are shown as such.
        figure.suptitle(shown(title).replace("$", r"\$"), y=1 - 0.08 / height, va="top", fontsize=9)
    handles = {}
    for panel in panels[:, 0]:
        handles.update({label: handle for handle, label in zip(*panel.get_legend_handles_labels())})
    legend = [(handles[part], part) for part in parts if part in handles]
    if legend:
        figure.legend(
            *zip(*legend), loc="lower center", ncol=1 if narrow else 3, frameon=False, fontsize=7, labelspacing=0.25, borderaxespad=0.1
        )
    gap = (0.24 + 0.12 * narrow) / 1.3
    figure.subplots_adjust(left=left, right=1 - 0.34 / breadth, top=1 - above / height, bottom=below / height, hspace=gap)
    return figure


#: What a panel shows: the bands from below upwards, each with how it is filled, the line and the marks.
_BANDS = {
    "data reached by a root": {"facecolor": "#b7d3b0", "edgecolor": "none"},
    "reached by a root": {"facecolor": "#dfe8f2", "edgecolor": "none"},
    GARBAGE_WORDS["stuck"]: {"facecolor": "#f4b183", "edgecolor": "0.35", "hatch": "////"},
    GARBAGE_WORDS["both"]: {"facecolor": "#c9a6c9", "edgecolor": "0.35", "hatch": "xxxx"},
    GARBAGE_WORDS["cycles"]: {"facecolor": "#a9a9a9", "edgecolor": "0.35", "hatch": ".."},
}
_LINE = "most in use in each step"
_MARK = "step with a full collection"
_STOP = "the run stopped"


def _heights(sample: Sample) -> list[int]:
    """The blocks of each band at a sample."""
    parts = sample.garbage
    return [sample.data, sample.in_use - parts.blocks - sample.data, parts.stuck.blocks, parts.both.blocks, parts.cycles.blocks]


def _parts(courses: Sequence[Course]) -> list[str]:
    """What is there to be named."""
    samples = [sample for one in courses for sample in one.samples]
    named = [name for k, name in enumerate(_BANDS) if any(_heights(sample)[k] for sample in samples)]
    if len(samples) > len(courses):
        named.append(_LINE)
    if any(sample.collections for sample in samples):
        named.append(_MARK)
    if any(one.run.stopped for one in courses):
        named.append(_STOP)
    return named


def _draw(panel: Any, one: Course, narrow: bool) -> None:
    """One width. Each step is flat: the bands have the heap at its end, the line the most blocks in use during it."""
    samples = one.samples
    records = [sample.records for sample in samples]
    lower = [0] * len(samples)
    for k, (name, filling) in enumerate(_BANDS.items()):
        upper = [low + _heights(sample)[k] for low, sample in zip(lower, samples)]
        if upper != lower:
            panel.fill_between(records, lower, upper, step="pre", linewidth=0, label=name, **filling)
        lower = upper
    if len(samples) > 1:
        highest = [samples[1].highest, *(sample.highest for sample in samples[1:])]
        panel.plot(records, highest, drawstyle="steps-pre", color="black", linewidth=0.8, label=_LINE)
    marks = [sample.records for sample in samples if sample.collections]
    if marks:
        panel.plot(
            marks,
            len(marks) * [0.0],
            linestyle="none",
            marker="^",
            markersize=5,
            color="tab:red",
            markeredgecolor="black",
            markeredgewidth=0.5,
            clip_on=False,
            zorder=5,
            label=_MARK,
        )
    if one.run.stopped:
        panel.axvline(one.run.records, color="tab:red", linewidth=1.2, linestyle="--", clip_on=False, label=_STOP)
    panel.set_title(_title(one, narrow), fontsize=7, loc="left", pad=3)
    if one.run.records == 0:
        words = f"no record was run: {one.run.stop()}" if one.run.stopped else "an empty history: no record was run"
        box = {"facecolor": "white", "edgecolor": "none"}
        panel.text(0.5, 0.5, words, transform=panel.transAxes, ha="center", va="center", fontsize=8, bbox=box)
    panel.grid(True, linewidth=0.3, color="0.8")
    # Over the bands, below the line.
    panel.set_axisbelow("line")
    panel.tick_params(labelsize=7)


def _title(one: Course, narrow: bool) -> str:
    """The words above a panel. Figures of a run that stopped are not the history's: the words say where it did."""
    figures = one.run.figures
    if one.run.stopped:
        return f"width {one.width}: STOPPED, {one.run.stop()}" + ("" if narrow else f": {one.run.stop_in_words()}")
    collections = f"{figures.collections:,} full collection{'' if figures.collections == 1 else 's'}"
    return f"width {one.width}: {collections}," + ("\n" if narrow else " ") + f"most blocks in use {figures.peak:,}"
