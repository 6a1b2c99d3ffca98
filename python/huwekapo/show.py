"""A heap to look at: its map, its objects and its free chunks, as text and as HTML. Read off the heap's buffers."""

from __future__ import annotations

import html
import string
from typing import TYPE_CHECKING, Dict, Iterator, List, NamedTuple, Optional, Tuple

from .refused import Refused
from .unreached import counts, data, in_use, objects, reached, references, stuck

if TYPE_CHECKING:
    from .heap import Heap

#: The letters of objects, in the order of their first blocks; behind the last the first comes again.
LETTERS = string.ascii_uppercase + string.ascii_lowercase + string.digits

#: The blocks of a line of the map.
LINE = 64

#: What stands for a free block, and below a block for what is wrong with its object.
FREE, STUCK, UNREACHED, BOTH = ".", "^", "~", "#"

#: The names of an object that are listed at most.
NAMES = 8


class One(NamedTuple):
    """An object as it is shown."""

    letter: str
    first: int
    size: int
    count: int  # type: ignore[assignment]
    is_stuck: bool
    is_data: bool
    is_reached: bool
    #: what names it: `root 0`, or `A.7` for cell 7 of the object with the letter A; `cell 7 of block 90` where the letters come again
    names: List[str]

    @property
    def mark(self) -> str:
        """What stands below it in the map; a space where nothing does."""
        return {(False, True): " ", (True, True): STUCK, (False, False): UNREACHED, (True, False): BOTH}[self.is_stuck, self.is_reached]

    def words(self) -> str:
        """All of it but its letter."""
        words = f"block {self.first:,}, {self.size:,} block{'' if self.size == 1 else 's'}, count {self.count}"
        words += ", stuck" * self.is_stuck + ", data" * self.is_data + ", no root reaches it" * (not self.is_reached)
        if not self.names:
            return f"{words}; nothing names it"
        more = f" and {len(self.names) - NAMES:,} more" if len(self.names) > NAMES else ""
        return f"{words}; named by {', '.join(self.names[:NAMES])}{more}"


def shown(heap: Heap) -> List[One]:
    """The objects of a heap that is not damaged, by their first blocks."""
    sizes, count = objects(heap), counts(heap)
    letters = {first: LETTERS[place % len(LETTERS)] for place, first in enumerate(sizes)}
    names: Dict[int, List[str]] = {first: [] for first in sizes}
    for root, v in enumerate(heap.roots.tolist()):
        if v:
            names[v - 1].append(f"root {root}")
    cells = references(heap)
    for place, (owner, size) in enumerate(sizes.items()):
        for j, v in enumerate(cells[4 * owner : 4 * (owner + size)]):
            if v:
                names[v - 1].append(f"{letters[owner]}.{j}" if place < len(LETTERS) else f"cell {j} of block {owner:,}")
    at_capacity, numbers, led_to = set(stuck(heap)), data(heap), reached(heap)
    return [
        One(letters[first], first, size, count[first], first in at_capacity, first in numbers, first in led_to, names[first])
        for first, size in sizes.items()
    ]


class Chunks(NamedTuple):
    """The free chunks of a section, none of them part of a larger one: how many there are of each size."""

    first: int
    blocks: int
    free: int
    sizes: Dict[int, int]


def chunks(heap: Heap) -> List[Chunks]:
    """The free chunks of each section. A chunk is s blocks starting at a multiple of s, s a power of two."""
    bits, length = int.from_bytes(heap.a, "little"), heap.section_blocks
    found = []
    for first in range(0, heap.blocks, length):
        used = bits >> first & ((1 << length) - 1)
        sizes: Dict[int, int] = {}
        for _, size in _free(used, 0, length):
            sizes[size] = sizes.get(size, 0) + 1
        found.append(Chunks(first, length, length - bin(used).count("1"), dict(sorted(sizes.items(), reverse=True))))
    return found


def _free(used: int, at: int, size: int) -> Iterator[Tuple[int, int]]:
    if used == 0:
        yield at, size
    elif size > 1:
        half = size // 2
        yield from _free(used & ((1 << half) - 1), at, half)
        yield from _free(used >> half, at + half, half)


def head(heap: Heap, some: List[One]) -> str:
    """What there is, in one line."""
    used = in_use(heap)
    return (
        f"{heap.blocks:,} blocks, width {heap.width}, {len(heap.roots)} roots: {used:,} in use, {heap.blocks - used:,} free; "
        f"{len(some):,} object{'' if len(some) == 1 else 's'}, {sum(one.is_stuck for one in some):,} stuck, "
        f"{sum(not one.is_reached for one in some):,} that no root reaches"
    )


def text(heap: Heap) -> str:
    """The heap for reading: its map with a letter for each object, the objects, and the free chunks by section. Of one that is damaged it
    says how, and no more."""
    try:
        heap.check()
    except Refused as refused:
        return f"{heap!r}\nno map: refused {refused}\n"
    some = shown(heap)
    lines = [head(heap, some), *_open(heap), *_map_lines(heap, some)]
    if some:
        lines += ["", *(f"  {one.letter}  {one.words()}" for one in some[: len(LETTERS)])]
    if len(some) > len(LETTERS):
        more = len(some) - len(LETTERS)
        lines.append(f"  and {more:,} object{'' if more == 1 else 's'} more, for which the letters come again in the map")
    lines += ["", "free chunks, largest first"]
    lines += _alike([(one.first, one.blocks, _sizes(one)) for one in chunks(heap)])
    return "\n".join(line.rstrip() for line in lines) + "\n"


def _open(heap: Heap) -> List[str]:
    if not heap.is_open:
        return []
    marked = bin(int.from_bytes(heap.marks, "little")).count("1")
    listed = sum(1 for place in heap.list.tolist()[:-1] if place)
    return [f"a collection is open: {marked:,} objects marked, {listed:,} of them on its list"]


def _map_lines(heap: Heap, some: List[One]) -> List[str]:
    """The map, a line for each 64 blocks, with a line of marks below where there are any."""
    blocks, marks = [FREE] * heap.blocks, [" "] * heap.blocks
    for one in some:
        blocks[one.first : one.first + one.size] = [one.letter] * one.size
        marks[one.first : one.first + one.size] = [one.mark] * one.size
    lines: List[str] = []
    free_from: Optional[int] = None
    for at in range(0, heap.blocks, LINE):
        row = "".join(blocks[at : at + LINE])
        below = "".join(marks[at : at + LINE])
        if row == FREE * LINE and heap.blocks > 8 * LINE:
            # Of a large heap, free lines are told and not drawn.
            free_from = at if free_from is None else free_from
            continue
        lines += _told_free(free_from, at)
        free_from = None
        lines.append(f"{at:>7,}  {row}")
        if below.strip():
            lines.append(f"{'':>7}  {below}")
    lines += _told_free(free_from, heap.blocks)
    seen = [(STUCK, "stuck"), (UNREACHED, "no root reaches it"), (BOTH, "both")]
    used = [f"{mark} {words}" for mark, words in seen if any(one.mark == mark for one in some)]
    return lines + ([f"{'':>7}  {', '.join(used)}"] if used else [])


def _told_free(first: Optional[int], end: int) -> List[str]:
    return [] if first is None else [f"{first:>7,}  free to block {end - 1:,}"]


def _sizes(one: Chunks) -> str:
    return ", ".join(f"{number} of {size}" for size, number in one.sizes.items()) or "none"


def _alike(rows: List[Tuple[int, int, str]]) -> List[str]:
    """A line for each section, or for several on end that are alike."""
    lines: List[str] = []
    at = 0
    while at < len(rows):
        first, length, words = rows[at]
        end = at + 1
        while end < len(rows) and rows[end][2] == words:
            end += 1
        each = f", in each of {end - at} sections" if end - at > 1 else ""
        lines.append(f"  blocks {first:,} to {first + (end - at) * length - 1:,}: {words}{each}")
        at = end
    return lines


#: How the page's part looks: by letters and borders, so that it is readable in grey too.
_STYLE = """<style>
.huwekapo-map {border-collapse: collapse; table-layout: fixed; font: 11px/1.1 monospace}
.huwekapo-map th {font-weight: normal; text-align: right; padding-right: 6px; border: none}
.huwekapo-map td {border: 1px solid #777; padding: 1px 0; height: 14px; min-width: 9px; text-align: center; overflow: hidden; color: #000; background: #fff}
.huwekapo-map .o0 {background: #cfe3f5} .huwekapo-map .o1 {background: #f5e6c8}
.huwekapo-map .o2 {background: #d8efd3} .huwekapo-map .o3 {background: #eed9ee}
.huwekapo-map .stuck {border: 3px solid #000} .huwekapo-map .lost {border-style: dashed; background: #ddd}
.huwekapo-map .data {text-decoration: underline dotted}
</style>"""


def page(heap: Heap) -> str:
    """The heap as a part of a page: the same map, with what there is to say of an object where the pointer rests on it."""
    try:
        heap.check()
    except Refused as refused:
        return f"<pre>{html.escape(repr(heap))}\nno map: refused {html.escape(str(refused))}</pre>"
    some = shown(heap)
    rows = []
    for at in range(0, heap.blocks, LINE):
        parts = "".join(_cell(one, length) for one, length in _parts(some, at, min(LINE, heap.blocks - at)))
        rows.append(f"<tr><th>{at:,}</th>{parts}</tr>")
    legend = "a letter and its count; thick border: stuck; dashed: no root reaches it; dots below: data; empty: free"
    said = "".join(f"<div>{html.escape(line)}</div>" for line in [head(heap, some), *_open(heap)])
    return f'<div>{_STYLE}{said}<table class="huwekapo-map">{"".join(rows)}</table><div>{legend}</div></div>'


def _parts(some: List[One], at: int, length: int) -> Iterator[Tuple[Optional[One], int]]:
    """The objects, and None for free blocks, of a line, each with the blocks that it has there."""
    here = at
    for one in some:
        start, end = max(one.first, at), min(one.first + one.size, at + length)
        if start < end:
            if here < start:
                yield None, start - here
            yield one, end - start
            here = end
    if here < at + length:
        yield None, at + length - here


def _cell(one: Optional[One], length: int) -> str:
    if one is None:
        return f'<td colspan="{length}" title="free: {length} in this line"></td>'
    kinds = [f"o{LETTERS.index(one.letter) % 4}"]
    kinds += ["stuck"] * one.is_stuck + ["lost"] * (not one.is_reached) + ["data"] * one.is_data
    title = html.escape(f"{one.letter}: {one.words()}", quote=True)
    count = one.count if length > 1 else ""
    return f'<td colspan="{length}" class="{" ".join(kinds)}" title="{title}">{one.letter}{count}</td>'
