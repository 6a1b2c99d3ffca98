"""Whether a history keeps what its trace says: both are replayed apart, from their files alone, and compared.

Nothing here is shared with the reading of events or with the conversion: the lines are read by a few words of their own, and what is alive
is found anew at each moment.
"""

from __future__ import annotations

import fnmatch
from typing import Dict, Iterable, Iterator, List, NamedTuple, Optional, Sequence, Set

from .convert import FOR_HOLDS, POOL, RULES, SLOTS, STATICS, Converted, Progress
from .record import ALLOCATE, ALLOCATE_DATA, CLEAR, COPY, READ, WRITE, Record, records

#: The moments at most at which a trace and its history are compared, unless more are asked for.
MOMENTS = 2000

#: Events up to which the check is made where nothing is said.
SMALL = 100_000


#: The places of the fields that each operation names: d, s, c, size.
_FIELDS = {ALLOCATE: (1, 4), ALLOCATE_DATA: (1, 4), COPY: (1, 2), READ: (1, 2, 3), WRITE: (1, 2, 3), CLEAR: (1,)}


class NotKept(ValueError):
    """A history that is not as its trace says, with the event, counted from 0, where that was seen first."""


class Checked(NamedTuple):
    """How much was compared."""

    moments: int
    events: int


class _Program:
    """The events, carried out on plain dictionaries."""

    def __init__(
        self, lines: Iterable[bytes], leave_out: Optional[int], classes: Optional[Sequence[str]], slots: bool
    ) -> None:
        words = (line.decode().partition("#")[0].split() for line in lines)
        self._events = [line for line in words if line]
        self._slots = slots
        names = {line[1]: line[2] for line in self._events if line[0] == "C"}
        self._gone: Set[int] = {
            int(line[1])
            for line in self._events
            if line[0] == "A"
            and (
                line[3] == "n" and leave_out is not None and int(line[4]) > leave_out
                or classes is not None and not any(fnmatch.fnmatchcase(names[line[2]], one) for one in classes)
            )
        }
        self._events = [
            line for line in self._events if line[0] != "C" and not (line[0] == "A" and int(line[1]) in self._gone)
        ]
        self.last: Dict[int, int] = {}
        for at, line in enumerate(self._events):
            for number in self._named(line):
                self.last[number] = at
        self.order: List[int] = []
        self.kinds: Dict[int, str] = {}
        self.sizes: Dict[int, int] = {}
        self.cells: Dict[int, Dict[int, int]] = {}
        self.statics: Dict[str, int] = {}
        self.frames: List[Dict[str, int]] = []

    def __len__(self) -> int:
        return len(self._events)

    def _number(self, word: str) -> int:
        return 0 if int(word) in self._gone else int(word)

    def _named(self, line: List[str]) -> List[int]:
        places = {"A": [1], "U": [1, 3], "S": [2], "L": [2], "R": [1]}.get(line[0], [])
        return [self._number(line[place]) for place in places]

    def step(self, at: int) -> None:
        line = self._events[at]
        letter, named = line[0], self._named(line)
        if letter == "A":
            self.order.append(named[0])
            self.kinds[named[0]] = line[3]
            self.sizes[named[0]] = int(line[4])
            self.cells[named[0]] = {}
        elif letter == "U" and named[0]:
            self.cells[named[0]][int(line[2])] = named[1]
        elif letter == "S":
            self.statics[line[1]] = named[0]
        elif letter == "E":
            self.frames.append({})
        elif letter == "X":
            self.frames.pop()
        elif letter == "L":
            self.frames[-1][line[1]] = named[0]

    def variables(self) -> Iterator[int]:
        """What local variables name, where they are references."""
        for frame in self.frames if self._slots else ():
            yield from frame.values()

    def alive(self, now: int) -> Set[int]:
        """The objects that a local variable or a static leads to, or one that an event names later."""
        later = (number for number in self.order if self.last[number] > now)
        return led_to([*later, *self.statics.values(), *self.variables()], self.cells)


class Records:
    """The records, carried out on plain dictionaries, with counts that know no limit. Objects are numbered from 1 as they are made."""

    def __init__(self) -> None:
        self.roots = [0] * 64
        self.cells: Dict[int, Dict[int, int]] = {0: {}}
        self.data: Set[int] = set()
        self.sizes: Dict[int, int] = {}
        self.counts: Dict[int, int] = {}
        #: the most references that an object ever had
        self.most: Dict[int, int] = {}

    def step(self, one: Record) -> None:
        operation, d, s, c, size, _ = one
        named = _FIELDS.get(operation)
        if named is None:
            raise NotKept(f"operation {operation} is none that a conversion writes")
        if any(one[place] for place in range(1, 6) if place not in named):
            raise NotKept(f"a field of operation {operation} has to be 0, and is not")
        if max(d, s) >= len(self.roots):
            raise NotKept(f"there is no root {max(d, s)}")
        if operation in (ALLOCATE, ALLOCATE_DATA):
            made = len(self.cells)
            self.cells[made], self.sizes[made] = {}, size
            if operation == ALLOCATE_DATA:
                self.data.add(made)
            self._put(d, made)
        elif operation == COPY:
            self._put(d, self.roots[s])
        elif operation == CLEAR:
            self._put(d, 0)
        elif operation == READ:
            self._put(d, self._cells_of(s, c).get(c, 0))
        else:
            cells, to = self._cells_of(d, c), self.roots[s]
            old = cells.get(c, 0)
            self._up(to)
            cells[c] = to
            self._down(old)

    def _cells_of(self, root: int, c: int) -> Dict[int, int]:
        number = self.roots[root]
        if not number or number in self.data or c >= 4 * self.sizes[number]:
            raise NotKept(f"root {root} has no object with a reference in cell {c}")
        return self.cells[number]

    def _put(self, root: int, number: int) -> None:
        old = self.roots[root]
        self._up(number)
        self.roots[root] = number
        self._down(old)

    def _up(self, number: int) -> None:
        if number:
            self.counts[number] = self.counts.get(number, 0) + 1
            self.most[number] = max(self.most.get(number, 0), self.counts[number])

    def _down(self, number: int) -> None:
        waiting = [number]
        while waiting:
            one = waiting.pop()
            if one:
                self.counts[one] -= 1
                if self.counts[one] == 0:
                    waiting.extend(self.cells[one].values())
                    self.cells[one] = {}


def led_to(start: Iterable[int], cells: Dict[int, Dict[int, int]]) -> Set[int]:
    """The objects of `start` and those that they lead to."""
    waiting = [number for number in start if number]
    found: Set[int] = set()
    while waiting:
        number = waiting.pop()
        if number not in found:
            found.add(number)
            waiting.extend(to for to in cells[number].values() if to)
    return found


def moments(events: int, most: Optional[int] = MOMENTS) -> List[int]:
    """The events behind which is compared: all of them, or so many, spread evenly; the last is always one."""
    if most is None or events <= most:
        return list(range(events))
    return sorted({(events - 1) * part // (most - 1) for part in range(most)})


def check(
    lines: Iterable[bytes],
    converted: Converted,
    rule: str,
    header: int,
    leave_out: Optional[int] = None,
    classes: Optional[Sequence[str]] = None,
    most: Optional[int] = MOMENTS,
    progress: Optional[Progress] = None,
) -> Checked:
    """Raises `NotKept` where at some moment the objects that the roots of the history reach are not exactly those alive by the events,
    or one has other cells or another kind, or statics name one another number of times, or roots and pool do not name it as often as
    local variables do: as an object that is used later, and that no variable names, it may be held once."""
    assert rule in RULES
    program = _Program(lines, leave_out, classes, rule == SLOTS)
    heap, source = Records(), records(converted.history)
    done = at = 0
    if len(program) != len(converted.marks):
        raise NotKept(f"{len(program)} events, and marks for {len(converted.marks)}")
    compared = moments(len(program), most)
    for now in compared:
        while at <= now:
            program.step(at)
            at += 1
        while done < converted.marks[now]:
            one = next(source, None)
            if one is None:
                raise NotKept(f"event {now}: the history ends before it")
            heap.step(one)
            done += 1
        _compare(program, heap, now, converted.prologue, header)
        if progress:
            progress(now)
    if next(source, None) is not None and compared:
        raise NotKept("the history goes on behind the last event")
    for place, made in enumerate(program.order):
        _made_alike(program, heap, made, place + 1 + converted.prologue, header)
    return Checked(len(compared), len(program))


def _compare(program: _Program, heap: Records, now: int, prologue: int, header: int) -> None:
    number = {one: place + 1 + prologue for place, one in enumerate(program.order)}
    number[0] = 0
    alive = program.alive(now)
    reached = led_to(heap.roots, heap.cells) - set(range(1, prologue + 1))
    due = {number[one] for one in alive}
    if reached != due:
        raise NotKept(f"event {now}: {len(due - reached)} objects that are alive are not reached, {len(reached - due)} are that are not alive")
    pool, statics = heap.roots[POOL], heap.roots[STATICS]
    by_roots = _times([*heap.roots[:FOR_HOLDS], *heap.cells[pool].values()])
    by_variables = _times(number[one] for one in program.variables())
    if _times(heap.cells[statics].values()) != _times(number[one] for one in program.statics.values()):
        raise NotKept(f"event {now}: statics name other objects")
    for one in alive:
        first = header + (program.kinds[one] != "o")
        cells = {first + cell: number[to] for cell, to in program.cells[one].items() if to}
        if cells != {cell: to for cell, to in heap.cells[number[one]].items() if to}:
            raise NotKept(f"event {now}: object {one} has other cells")
        held, named = by_roots.get(number[one], 0), by_variables.get(number[one], 0)
        if held != named and not (named == 0 and held == 1 and program.last[one] > now):
            raise NotKept(f"event {now}: roots name object {one} {held} times, local variables {named} times")


def _made_alike(program: _Program, heap: Records, one: int, made: int, header: int) -> None:
    words = header + (program.kinds[one] != "o")
    blocks = max(1, (4 * words + program.sizes[one] + 15) // 16)
    if heap.sizes[made] != blocks or (made in heap.data) != (program.kinds[one] == "n"):
        raise NotKept(f"object {one} has another size or is of another kind")


def _times(numbers: Iterable[int]) -> Dict[int, int]:
    found: Dict[int, int] = {}
    for number in numbers:
        if number:
            found[number] = found.get(number, 0) + 1
    return found
