"""What a conversion has to say at its end: what it added, left out and can't keep, and how many references objects had."""

from __future__ import annotations

from typing import Dict, Iterable, List, NamedTuple, Optional, Sequence

from .convert import SLOTS, Converted
from .history import Progress
from .events import Trace
from .kept import Checked, Records
from .library import MAX_BLOCKS
from .record import RECORD, records

#: The capacities of counts of 1 to 4 bits.
CAPACITIES = (1, 3, 7, 15)

#: The classes that are shown at most.
SHOWN = 10

#: The rules in words.
RULE_WORDS = {True: "each local variable is a reference", False: "local variables are no references"}


class References(NamedTuple):
    """Of some objects: how many there are; how many of them ever had more references than each capacity, and how many as many, with
    which an object is stuck; and the most that one had."""

    objects: int
    above: List[int]
    stuck: List[int]
    most: int

    @staticmethod
    def of(most: Sequence[int]) -> References:
        """From the most of each object."""
        above = [sum(number > capacity for number in most) for capacity in CAPACITIES]
        stuck = [sum(number >= capacity for number in most) for capacity in CAPACITIES]
        return References(len(most), above, stuck, max(most, default=0))


def met(converted: Converted, objects: int, progress: Optional[Progress] = None) -> List[int]:
    """By object, the most references that it ever has in the history, those for one record too; what stands at 0 is of no object."""
    heap = Records()
    for done, one in enumerate(records(converted.history)):
        heap.step(one)
        if progress and done % 1024 == 0:
            progress(RECORD * done)
    return [0] + [heap.most.get(number + converted.prologue, 0) for number in range(1, objects + 1)]


def by_class(trace: Trace, most: Sequence[int]) -> Dict[str, References]:
    """The objects of each class, those first of which most get stuck at width 4, then 3, then 2."""
    found: Dict[str, List[int]] = {}
    for name, number in zip(trace.classes[1:], most[1:]):
        found.setdefault(name, []).append(number)
    counted = {name: References.of(numbers) for name, numbers in found.items()}
    return dict(sorted(counted.items(), key=lambda item: ([-number for number in reversed(item[1].stuck)], item[0])))


def text(
    trace: Trace,
    converted: Converted,
    rule: str,
    leave_out: Optional[int],
    classes: Optional[Sequence[str]],
    checked: Optional[Checked],
    progress: Optional[Progress] = None,
) -> str:
    """The whole of it, for reading."""
    in_history = met(converted, trace.objects, progress)
    lines = [*_what(trace, converted, rule), *_notes(trace, converted, leave_out, classes, checked)]
    lines += ["", "objects that ever had more than so many references, in per cent"]
    rows = [["", *(f">{capacity}" for capacity in CAPACITIES), "most"]]
    for words, most in [
        ("by cells and statics", converted.most_cells),
        ("by local variables too", converted.most_all),
        (f"in this history, rule {rule}, what is fetched for a record too", in_history),
    ]:
        found = References.of(most[1:])
        rows.append([words, *(_per_cent(number, found.objects) for number in found.above), f"{found.most:,}"])
    lines += _table(rows, left=1)
    found_classes = by_class(trace, in_history)
    lines += ["", "who sticks: objects by class in this history, with counts that know no limit; 3, 7 or 15 references stick at width 2, 3 or 4"]
    rows = [["class", "objects", "width 2", "width 3", "width 4", *(f">{capacity}" for capacity in CAPACITIES), "most"]]
    for name, found in list(found_classes.items())[:SHOWN]:
        rows.append([name, *(f"{number:,}" for number in (found.objects, *found.stuck[1:], *found.above, found.most))])
    lines += _table(rows, left=1)
    if len(found_classes) > SHOWN:
        lines.append(f"  and {len(found_classes) - SHOWN:,} classes more")
    return "\n".join(lines) + "\n"


def _what(trace: Trace, converted: Converted, rule: str) -> List[str]:
    blocks = sum(layout.blocks for layout in trace.layouts[1:])
    names = len(set(trace.classes[1:]))
    lines = [
        f"{_some(len(trace), 'event')}: {_some(trace.objects, 'object')} of {names:,} class{'' if names == 1 else 'es'}, "
        f"{_some(blocks, 'block')} in all, "
        f"{converted.most_blocks:,} at most at a time",
        f"{_some(len(converted.history) // RECORD, 'record')} by the rule {rule}: {RULE_WORDS[rule == SLOTS]}",
    ]
    if converted.most_blocks > MAX_BLOCKS:
        lines.append(f"too large: a heap has {MAX_BLOCKS:,} blocks at most, so a run stops for want of room")
    return lines


def _notes(
    trace: Trace, converted: Converted, leave_out: Optional[int], classes: Optional[Sequence[str]], checked: Optional[Checked]
) -> List[str]:
    new = converted.added
    made = [
        (new.statics, f"an object of {_some(-(-new.statics // 4), 'block')} for {_some(new.statics, 'static')}"),
        (
            new.pool,
            f"an object of {_some(-(-new.pool // 4), 'block')} for the variables that find no root, {new.pool:,} at most at a time",
        ),
        (
            new.fetched,
            f"{_some(new.fetched, 'time')} a reference for one record, to have an object in a root: {_some(new.fetch_records, 'record')}",
        ),
        (new.kept, f"{_some(new.kept, 'time')} a reference to an object that is used later, and that nothing else would have held"),
    ]
    out = [
        (
            trace.large.objects,
            f"{_some(trace.large.objects, 'array')} of numbers above {leave_out or 0:,} bytes, {trace.large.size:,} bytes in all",
        ),
        (
            trace.other_classes.objects,
            f"{_some(trace.other_classes.objects, 'object')} of classes other than {', '.join(classes or [])}, "
            f"{trace.other_classes.size:,} bytes in all, and the references that they held",
        ),
    ]
    lines = []
    lines += _named("added:", [words for number, words in made if number])
    lines += _named("left out:", [words for number, words in out if number])
    lines += _named(
        "not kept:",
        ["the numbers in fields and arrays; the operand stack, but for what is used later; weak references as weak; time; threads"],
    )
    if checked is None:
        lines += _named("checked:", ["no: `--check` replays events and records apart, and compares them"])
    else:
        words = f"behind {checked.moments:,} of {checked.events:,} events the same objects, with all cells, and as many names of each"
        lines += _named("checked:", [words])
    return lines


def _named(name: str, words: Sequence[str]) -> List[str]:
    return [f"{name if place == 0 else '':<10}{line}" for place, line in enumerate(words or ["nothing"])]


def _some(number: int, noun: str) -> str:
    return f"{number:,} {noun}{'' if number == 1 else 's'}"


def _per_cent(number: int, of: int) -> str:
    return f"{100 * number / of:.2f}" if of else "-"


def _table(rows: Iterable[Sequence[str]], left: int) -> List[str]:
    """The rows with their columns below each other, the first ones flush left."""
    kept = list(rows)
    breadths = [max(map(len, column)) for column in zip(*kept)]
    lines = []
    for row in kept:
        cells = [word.ljust(breadth) if place < left else word.rjust(breadth) for place, (word, breadth) in enumerate(zip(row, breadths))]
        lines.append("  " + "  ".join(cells).rstrip())
    return lines


def side_by_side(tables: Dict[str, str]) -> str:
    """Tables with the same head as one, with a column in front that says which each row is of."""
    lines: List[str] = []
    breadth = max(map(len, tables))
    for name, table in tables.items():
        head, rows = table.splitlines()[:2], table.splitlines()[2:]
        if not lines:
            lines += [f"{'':<{breadth}}  {head[0]}", f"{'rule':<{breadth}}  {head[1]}"]
        lines += [f"{name:<{breadth}}  {row}" for row in rows]
    return "\n".join(line.rstrip() for line in lines) + "\n"
