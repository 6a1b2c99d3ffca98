"""Whether what the roots of two heaps reach is the same, wherever it lies."""

from __future__ import annotations

from typing import Iterator, List, Optional

from .heap import Heap


def same_shape(first: Heap, second: Heap) -> bool:
    """Whether the objects that roots reach can be paired one to one, keeping roots and their number, sizes, D bits, references and data.
    The heaps may be of any sizes and widths. Refusals: 1, 2, 11, 13, of either."""
    return first.shape() == second.shape()


def parting(first: List[int], second: List[int]) -> Optional[str]:
    """Where two shapes first part, in words; None where they are equal."""
    # Neither list is the beginning of the other: up to there the lists say what follows.
    for place, one, other in zip(_places(first), first, second):
        if one != other:
            return f"{place}: {one} and {other}"
    return None


def _places(shape: List[int]) -> Iterator[str]:
    """What each number of a shape is."""
    yield "number of roots"
    roots = shape[0]
    for root in range(roots):
        yield f"root {root}, object"
    at, number = 1 + roots, 1
    while at < len(shape):
        size, is_data = shape[at], shape[at + 1]
        yield f"object {number}, size"
        yield f"object {number}, D bit"
        for cell in range(4 * size):
            yield f"object {number}, cell {cell}, {'number' if is_data else 'object'}"
        at, number = at + 2 + 4 * size, number + 1


def objects_of(shape: List[int]) -> int:
    """How many objects a shape has."""
    return sum(place.endswith(", size") for place in _places(shape))
