"""Traces at random, for tests."""

from __future__ import annotations

from random import Random
from typing import Dict, List


def at_random(seed: int, events: int) -> List[bytes]:
    """A trace with cycles, statics, many local variables at a time, methods that end several at once, and arrays of both kinds."""
    chance = Random(seed)
    lines = ["C 1 java.lang.String", "C 2 own.Node", "C 3 char[]", "C 4 own.Node[]"]
    sizes: Dict[int, int] = {}
    kinds: Dict[int, str] = {}
    numbers: List[int] = []
    depth, slots = 0, chance.choice([3, 8, 90])
    width = chance.choice([4, 12, 200])
    made_at = chance.randrange(1, 5)

    def any_object() -> int:
        """Mostly one of the last, at times a very old one, at times null."""
        if not numbers or chance.random() < 0.12:
            return 0
        return numbers[-1 - chance.randrange(min(len(numbers), width if chance.random() < 0.9 else len(numbers)))]

    for _ in range(events):
        draw = chance.random()
        if draw < 0.2 or not numbers:
            made_at += chance.randrange(1, 3)
            kind = chance.choice("ooorn")
            size = chance.choice([0, 4, 12, 16, 60]) if kind != "n" else chance.choice([0, 2, 30, 5000])
            lines.append(f"A {made_at} {dict(o=chance.choice('12'), r='4', n='3')[kind]} {kind} {size}")
            sizes[made_at], kinds[made_at] = size, kind
            numbers.append(made_at)
        elif draw < 0.55:
            owner = any_object()
            if owner and kinds[owner] != "n" and sizes[owner] >= 4:
                lines.append(f"U {owner} {chance.randrange(sizes[owner] // 4)} {any_object()}")
        elif draw < 0.6:
            lines.append(f"S {chance.choice([0, 3, 17])} {any_object()}")
        elif draw < 0.68:
            lines.append("E")
            depth += 1
            if slots == 90 and chance.random() < 0.3:
                lines += [f"L {slot} {any_object()}" for slot in range(slots)]
        elif draw < 0.75 and depth:
            if chance.random() < 0.5:
                lines.append(f"R {any_object()}")
            ended = min(depth, chance.choice([1, 1, 1, 3]))
            lines += ["X"] * ended
            depth -= ended
        elif depth:
            lines.append(f"L {chance.randrange(slots)} {any_object()}")
    return [f"{line}\n".encode() for line in lines]
