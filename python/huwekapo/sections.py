"""The largest free chunk of each section of a heap, as a table."""

from __future__ import annotations

from .heap import Heap

#: The sections of a line.
_IN_A_LINE = 8


def text(heap: Heap) -> str:
    """The table for reading: eight sections a line, behind the first block of the line."""
    figures, size = heap.sections.tolist(), heap.section_blocks
    lines = [f"largest free chunk of each section of {size} blocks, from block:"]
    for at in range(0, len(figures), _IN_A_LINE):
        line = figures[at : at + _IN_A_LINE]
        lines.append(f"  {at * size:>6,}:" + "".join(f"{figure:>5}" for figure in line))
    return "\n".join(lines) + "\n"
