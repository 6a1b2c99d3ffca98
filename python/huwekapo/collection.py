"""Figures of a whole collection of histories by count width, with quartiles: read off a sweep's table, as a text and as a picture."""

from __future__ import annotations

from typing import Any, Callable, Dict, List, NamedTuple, Optional, Sequence, Tuple

from .files import Place, shown
from .plot import BREADTHS, pictures, saved
from .sweep import Progress, Row, SweepError, cell, whole_rows

#: The figures that are shown: their names, and how each is read off a row, whose heap has so many blocks.
MEASURES: Dict[str, Tuple[str, Callable[[Row], float]]] = {
    "full collections": ("number", lambda row: float(cell(row, "collections"))),
    "most blocks in use": ("per cent of the heap", lambda row: _share(row, "peak")),
    "garbage held by stuck counts alone": ("per cent of the heap", lambda row: _share(row, "garbage_stuck_alone")),
    "moments at which an object became stuck": ("per cent of allocations", lambda row: _per_allocation(row)),
}


class Quartiles(NamedTuple):
    """Of some numbers: the least, the quartiles, and the most."""

    least: float
    lower: float
    median: float
    upper: float
    most: float

    @staticmethod
    def of(numbers: Sequence[float]) -> Quartiles:
        """Between two numbers by their distance, as spreadsheets have it."""
        ordered = sorted(numbers)

        def at(part: float) -> float:
            place = part * (len(ordered) - 1)
            low = int(place)
            high = min(low + 1, len(ordered) - 1)
            return ordered[low] + (place - low) * (ordered[high] - ordered[low])

        return Quartiles(*(at(part) for part in (0, 0.25, 0.5, 0.75, 1)))


class Group(NamedTuple):
    """The rows of a table at one size of heap and one width: how many there are, how many of them stopped and so have no figures, and of
    each measure the numbers of the others."""

    blocks: int
    width: int
    rows: int
    stopped: int
    numbers: Dict[str, List[float]]


def groups(table: Place, progress: Optional[Progress] = None) -> List[Group]:
    """The groups of a table, by size and width."""
    with open(table, "rb") as file:
        rows, _ = whole_rows(file.read(), table, progress)
    if not rows:
        raise SweepError(f"{shown(table)} has no row")
    by_shape: Dict[Tuple[int, int], List[Row]] = {}
    for row in rows:
        by_shape.setdefault((int(cell(row, "heap_blocks")), int(cell(row, "count_width"))), []).append(row)
    found = []
    for (blocks, width), some in sorted(by_shape.items()):
        ended = [row for row in some if not cell(row, "stopped")]
        numbers = {name: [read(row) for row in ended] for name, (_, read) in MEASURES.items()}
        found.append(Group(blocks, width, len(some), len(some) - len(ended), numbers))
    return found


def _share(row: Row, column: str) -> float:
    return 100 * int(cell(row, column)) / int(cell(row, "heap_blocks"))


def _per_allocation(row: Row) -> float:
    allocations = int(cell(row, "allocations"))
    return 100 * int(cell(row, "stuck_moments")) / allocations if allocations else 0.0


def text(some: Sequence[Group]) -> str:
    """The groups for reading: of each measure the median, and the quartiles around it."""
    rows = [["blocks", "width", "histories", "stopped", *MEASURES], ["", "", "", "", *(f"({unit})" for unit, _ in MEASURES.values())]]
    for group in some:
        found = [Quartiles.of(numbers) if numbers else None for numbers in group.numbers.values()]
        words = [f"{one.median:,.1f} ({one.lower:,.1f} to {one.upper:,.1f})" if one else "-" for one in found]
        rows.append([f"{group.blocks:,}", str(group.width), f"{group.rows:,}", f"{group.stopped:,}", *words])
    breadths = [max(map(len, column)) for column in zip(*rows)]
    lines = ["  ".join(word.rjust(breadth) for word, breadth in zip(row, breadths)).rstrip() for row in rows]
    return "medians, with the quartiles in brackets\n" + "\n".join(lines) + "\n"


def plot(some: Sequence[Group], title: Optional[str], path: Place, columns: int = 2) -> None:
    """Draws the groups to a file whose ending names its kind."""
    saved(lambda: draw(some, title, columns), path)


def draw(some: Sequence[Group], title: Optional[str], columns: int = 2) -> Any:
    """The picture: a panel for each measure, with a box for each width, from the lower to the upper quartile and with a line at the median;
    its whiskers go to the least and the most. Sizes of heap stand side by side, told apart by their hatching."""
    pyplot = pictures()
    from matplotlib.patches import Patch  # type: ignore[import]

    breadth, narrow = BREADTHS[columns], columns == 1
    across = 1 if narrow else 2
    down = -(-len(MEASURES) // across)
    above, below = 0.5 if title else 0.3, 0.75
    height = above + below + 1.7 * down
    figure, panels = pyplot.subplots(down, across, figsize=(breadth, height), squeeze=False)
    sizes = sorted({group.blocks for group in some})
    widths = sorted({group.width for group in some})
    looks = [{"facecolor": color, "hatch": hatch} for color, hatch in zip(("#dfe8f2", "#f4e3c8", "#d5e8d0", "#e3d3e3"), ("", "////", "....", "xxxx"))]
    for panel, (name, (unit, _)) in zip(panels.flat, MEASURES.items()):
        for group in some:
            if group.numbers[name]:
                _box(panel, group, name, sizes, widths, looks[sizes.index(group.blocks) % len(looks)])
        panel.set_title(name, fontsize=7, loc="left", pad=3)
        panel.set_ylabel(unit, fontsize=7)
        panel.set_xticks(range(len(widths)))
        panel.set_xticklabels([f"width {width}" for width in widths], fontsize=7)
        panel.set_xlim(-0.6, len(widths) - 0.4)
        panel.set_ylim(bottom=0)
        panel.tick_params(labelsize=7)
        panel.grid(True, axis="y", linewidth=0.3, color="0.8")
        panel.set_axisbelow(True)
    stopped = sum(group.stopped for group in some)
    histories = max(group.rows for group in some)
    note = f"{histories:,} histories; boxes: quartiles and median; whiskers: least and most"
    note += f"; {stopped:,} runs stopped and are left out" if stopped else ""
    figure.text(0.5, 0.06 / height, note, ha="center", va="bottom", fontsize=6 if narrow else 7, wrap=True)
    patches = [Patch(edgecolor="black", linewidth=0.5, label=f"{size:,} blocks", **look) for size, look in zip(sizes, looks)]
    figure.legend(handles=patches, loc="lower center", bbox_to_anchor=(0.5, 0.22 / height), ncol=len(patches), frameon=False, fontsize=7)
    if title:
        figure.suptitle(shown(title).replace("$", r"\$"), y=1 - 0.08 / height, va="top", fontsize=9)
    figure.subplots_adjust(
        left=0.6 / breadth, right=1 - 0.12 / breadth, top=1 - above / height, bottom=below / height, hspace=0.42, wspace=0.28
    )
    return figure


def _box(panel: Any, group: Group, name: str, sizes: Sequence[int], widths: Sequence[int], look: Dict[str, str]) -> None:
    one = Quartiles.of(group.numbers[name])
    room = 0.8 / len(sizes)
    at = widths.index(group.width) + (sizes.index(group.blocks) - (len(sizes) - 1) / 2) * room
    summary = {"med": one.median, "q1": one.lower, "q3": one.upper, "whislo": one.least, "whishi": one.most}
    drawn = panel.bxp([summary], positions=[at], widths=[0.8 * room], showfliers=False, patch_artist=True, manage_ticks=False)
    for box in drawn["boxes"]:
        box.set(linewidth=0.6, **look)
    for part in ("whiskers", "caps", "medians"):
        for line in drawn[part]:
            line.set(color="black", linewidth=1.4 if part == "medians" else 0.6)
