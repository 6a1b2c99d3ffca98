"""From a trace of a real program to a history, with the object graph kept exact after every event.

A record speaks of at most 64 roots, a trace of any number of objects and local variables. So a root, or a cell of one object more, the
pool, *holds* an object for each local variable (rule `slots`), and for each object that the program still uses though nothing else leads
to it (both rules). Roots 0 to 60 are for holds and for what is fetched for one record; 61 has the object of the statics, 62 the pool, and
63 is always empty.
"""

from __future__ import annotations

from collections import OrderedDict, deque
from typing import Callable, Container, Deque, Dict, Iterable, List, NamedTuple, Optional, Set, Tuple

from .events import ENTERED, LEFT, LOCAL, MADE, NUMBERS, STATIC, STORED, Trace
from .record import ALLOCATE, ALLOCATE_DATA, CLEAR, COPY, LARGEST_NUMBER, READ, RECORD, WRITE, record

#: The rules: whether each local variable is a reference, or none is.
SLOTS, USES = "slots", "uses"
RULES = (SLOTS, USES)

#: The roots for holds, and those that are always the same.
FOR_HOLDS, STATICS, POOL, EMPTY = 61, 61, 62, 63

#: The number of the statics' owner among the objects.
TOP = 0

#: Is told how many events are done.
Progress = Callable[[int], object]


class CantBeKept(ValueError):
    """What no history can say, in words."""


class Added(NamedTuple):
    """What a history has that its trace hasn't."""

    #: cells of the object that the statics lie in; 0 where there are none
    statics: int = 0
    #: cells of the pool; 0 where it was never needed
    pool: int = 0
    #: objects brought into a root for one record, and the records of that, their clearing too
    fetched: int = 0
    fetch_records: int = 0
    #: holds that were moved to the pool since no root was free
    moved: int = 0
    #: objects held for a later use since nothing else would have led to them
    kept: int = 0


class Converted(NamedTuple):
    """A history, and what there is to say of it."""

    history: bytes
    #: the records in front that make the objects of statics and pool
    prologue: int
    #: by event: the records up to its end
    marks: List[int]
    added: Added
    #: by object: the most references that cells and statics ever had to it, and the most with all local variables
    most_cells: List[int]
    most_all: List[int]
    #: the most blocks that objects alive have together, without those that were added
    most_blocks: int


class _Hold:
    """What keeps an object for the program: the place is a root, or -1 - a cell of the pool."""

    __slots__ = ("number", "place")

    def __init__(self, number: int, place: int) -> None:
        self.number = number
        self.place = place


def convert(trace: Trace, rule: str = SLOTS, progress: Optional[Progress] = None) -> Converted:
    """The history of a trace."""
    return _Converter(trace, rule == SLOTS).convert(progress)


class _Converter:
    def __init__(self, trace: Trace, slots: bool) -> None:
        objects = trace.objects + 1
        self._trace, self._slots, self._last, self._layouts = trace, slots, trace.last, trace.layouts
        self._now = 0
        self._out = bytearray()
        # The graph, of objects that are alive: what their cells name, and which cells name them.
        self._cells: List[Dict[int, int]] = [{} for _ in range(objects)]
        self._names: List[Dict[Tuple[int, int], None]] = [{} for _ in range(objects)]
        # What holds each object; its hold for a later use; the local variables of each frame.
        self._holds: List[Dict[_Hold, None]] = [{} for _ in range(objects)]
        self._kept: Dict[int, _Hold] = {}
        self._frames: List[Dict[int, _Hold]] = []
        self._in_root: "OrderedDict[_Hold, None]" = OrderedDict()
        self._free_roots = list(range(FOR_HOLDS - 1, -1, -1))
        self._spare_cells: List[int] = []
        self._pinned: List[int] = []
        # How many local variables name each object, by the events and whatever the rule.
        self._variables: List[Dict[int, int]] = []
        self._locals = [0] * objects
        self._most_cells, self._most_all = [0] * objects, [0] * objects
        self._pool = self._fetched = self._fetch_records = self._moved = self._kept_for_use = 0
        self._blocks = self._most_blocks = 0

    def convert(self, progress: Optional[Progress]) -> Converted:
        marks: List[int] = []
        for self._now, (kind, one, two, three) in enumerate(self._trace.events()):
            self._event(kind, one, two, three)
            marks.append(len(self._out) // RECORD)
            if progress and self._now % 1024 == 0:
                progress(self._now)
        front = b""
        for root, cells in ((STATICS, self._trace.statics), (POOL, self._pool)):
            if cells:
                front += record(ALLOCATE, d=root, size=-(-cells // 4))
        added = Added(self._trace.statics, self._pool, self._fetched, self._fetch_records, self._moved, self._kept_for_use)
        before = len(front) // RECORD
        return Converted(
            front + bytes(self._out),
            before,
            [mark + before for mark in marks],
            added,
            self._most_cells,
            self._most_all,
            self._most_blocks,
        )

    # Events.

    def _event(self, kind: int, one: int, two: int, three: int) -> None:
        named: Tuple[int, ...] = ()
        if kind == MADE:
            self._made(one)
            named = (one,)
        elif kind == STORED:
            self._stored(one, two, three)
            named = (one, three)
        elif kind == STATIC:
            self._stored(TOP, one, two)
            named = (two,)
        elif kind == LOCAL:
            self._counted(one, two)
            if self._slots:
                self._local(one, two)
            named = (two,)
        elif kind == ENTERED:
            self._variables.append({})
            self._frames.append({})
        elif kind == LEFT:
            for number in self._variables.pop().values():
                self._locals[number] -= 1
            for hold in self._frames.pop().values():
                self._let_go(hold)
        else:
            named = (one,)
        for number in named:
            # The last use of it.
            if number and self._last[number] == self._now and number in self._kept:
                self._let_go(self._kept[number])
        self._pinned.clear()

    def _counted(self, slot: int, number: int) -> None:
        frame = self._variables[-1]
        self._locals[frame.get(slot, 0)] -= 1
        self._locals[number] += 1
        frame[slot] = number
        self._count(number)

    def _made(self, number: int) -> None:
        root = self._root()
        layout = self._layouts[number]
        self._record(ALLOCATE_DATA if layout.kind == NUMBERS else ALLOCATE, d=root, size=layout.blocks)
        self._keep(number, root)
        self._blocks += layout.blocks
        self._most_blocks = max(self._most_blocks, self._blocks)

    def _stored(self, owner: int, cell: int, to: int) -> None:
        d, d_fetched = self._at_hand(owner)
        if to == owner and to != TOP:
            s, s_fetched = d, False
        else:
            s, s_fetched = self._at_hand(to) if to else (EMPTY, False)
        old = self._cells[owner].get(cell, 0)
        self._link(owner, cell, to)
        lost: List[int] = []
        if old != to:
            lost, used = self._lost(old)
            if used:
                # Before the reference goes, what is used later gets a hold.
                self._link(owner, cell, old)
                self._keep_for_use(used)
                self._link(owner, cell, to)
                lost, used = self._lost(old)
        self._record(WRITE, d=d, s=s, c=self._first(owner) + cell)
        self._count(to)
        self._bury(lost)
        for root, fetched in ((d, d_fetched), (s, s_fetched)):
            if fetched:
                self._empty(root)
                self._fetch_records += 1
        if to in self._kept:
            self._let_go_if_reached(self._kept[to])

    def _local(self, slot: int, number: int) -> None:
        frame = self._frames[-1]
        old = frame.get(slot)
        if old and old.number == number:
            return
        if number and number in self._kept:
            # What the stack had, the variable has now: no record.
            if old:
                self._let_go(frame.pop(slot))
            frame[slot] = self._kept.pop(number)
            return
        if number == 0:
            if old:
                self._let_go(frame.pop(slot))
            return
        if old and old.place >= 0 and self._written_over(old, number):
            return
        root = self._root()
        self._pinned.append(root)
        self._fetch(number, root)
        frame[slot] = self._hold(number, root)
        if old:
            self._let_go(old)

    def _written_over(self, hold: _Hold, number: int) -> bool:
        """Writes a variable's root over, where nothing that goes with the old object is used later. Whether that was so."""
        old = hold.number
        del self._holds[old][hold]
        lost, used = self._lost(old)
        self._holds[old][hold] = None
        if used or number in lost:
            return False
        self._pinned.append(hold.place)
        self._fetch(number, hold.place)
        del self._holds[old][hold]
        hold.number = number
        self._holds[number][hold] = None
        self._in_root.move_to_end(hold)
        self._bury(lost)
        return True

    # Holds.

    def _hold(self, number: int, root: int) -> _Hold:
        hold = _Hold(number, root)
        self._holds[number][hold] = None
        self._in_root[hold] = None
        return hold

    def _keep(self, number: int, root: int) -> None:
        self._kept[number] = self._hold(number, root)

    def _keep_for_use(self, numbers: Iterable[int]) -> None:
        for number in numbers:
            root = self._root()
            self._fetch(number, root)
            self._keep(number, root)
            self._kept_for_use += 1

    def _let_go(self, hold: _Hold) -> None:
        """A variable ends, or an object was used for the last time. What is used later, and would go with it, is held."""
        number = hold.number
        del self._holds[number][hold]
        lost, used = self._lost(number)
        if number in used:
            # The program still has it elsewhere: the hold stays, for that.
            self._holds[number][hold] = None
            self._kept[number] = hold
            return
        if used:
            self._holds[number][hold] = None
            self._keep_for_use(used)
            del self._holds[number][hold]
            lost, used = self._lost(number)
        self._drop(hold)
        self._bury(lost)

    def _let_go_if_reached(self, hold: _Hold) -> None:
        """What is held for a later use needs no hold where something else leads to it."""
        del self._holds[hold.number][hold]
        if self._unreached(hold.number):
            self._holds[hold.number][hold] = None
        else:
            self._drop(hold)

    def _drop(self, hold: _Hold) -> None:
        if self._kept.get(hold.number) is hold:
            del self._kept[hold.number]
        self._in_root.pop(hold, None)
        if hold.place >= 0:
            self._empty(hold.place)
        else:
            self._record(WRITE, d=POOL, s=EMPTY, c=-1 - hold.place)
            self._spare_cells.append(-1 - hold.place)

    # Roots and records.

    def _record(self, operation: int, d: int = 0, s: int = 0, c: int = 0, size: int = 0) -> None:
        self._out += record(operation, d, s, c, size)

    def _first(self, owner: int) -> int:
        return self._layouts[owner].first

    def _empty(self, root: int) -> None:
        self._record(CLEAR, d=root)
        self._free_roots.append(root)

    def _root(self) -> int:
        """A free root. Where there is none, the hold that has had its root for longest goes to the pool."""
        if not self._free_roots:
            hold = next(hold for hold in self._in_root if hold.place not in self._pinned)
            cell = self._spare_cells.pop() if self._spare_cells else self._pool
            if cell > LARGEST_NUMBER:
                raise CantBeKept(f"event {self._now}: more than {LARGEST_NUMBER + 1:,} variables find no root")
            self._pool = max(self._pool, cell + 1)
            self._record(WRITE, d=POOL, s=hold.place, c=cell)
            self._empty(hold.place)
            hold.place = -1 - cell
            del self._in_root[hold]
            self._moved += 1
        return self._free_roots.pop()

    def _at_hand(self, number: int) -> Tuple[int, bool]:
        """A root that has the object, and whether it was fetched, for this record alone."""
        if number == TOP:
            return STATICS, False
        for hold in self._holds[number]:
            if hold.place >= 0:
                self._pinned.append(hold.place)
                return hold.place, False
        root = self._root()
        self._pinned.append(root)
        before = len(self._out)
        self._fetch(number, root)
        self._fetched += 1
        self._fetch_records += (len(self._out) - before) // RECORD
        return root, True

    def _fetch(self, number: int, d: int) -> None:
        """Brings an object into root d, by reads along a shortest path."""
        s, cells = self._path(number)
        if not cells:
            self._record(COPY, d=d, s=s)
        for c in cells:
            self._record(READ, d=d, s=s, c=c)
            s = d

    def _path(self, goal: int) -> Tuple[int, List[int]]:
        """A root, and the cells from there to an object."""
        towards: Dict[int, Optional[Tuple[int, int]]] = {goal: None}
        waiting: Deque[int] = deque([goal])
        while waiting:
            number = waiting.popleft()
            start = self._start(number)
            if start:
                root, cells = start
                step = towards[number]
                while step:
                    cells.append(step[1])
                    step = towards[step[0]]
                return root, cells
            for owner, cell in self._names[number]:
                if owner not in towards:
                    towards[owner] = (number, self._first(owner) + cell)
                    waiting.append(owner)
        raise AssertionError(f"event {self._now}: nothing leads to object {goal}")

    def _start(self, number: int) -> Optional[Tuple[int, List[int]]]:
        """Where a path may begin: a root that has the object, or the pool and its cell."""
        if number == TOP:
            return STATICS, []
        places = [hold.place for hold in self._holds[number]]
        if not places:
            return None
        place = max(places)
        return (place, []) if place >= 0 else (POOL, [-1 - place])

    # The graph.

    def _link(self, owner: int, cell: int, to: int) -> None:
        old = self._cells[owner].pop(cell, 0)
        if old:
            del self._names[old][owner, cell]
        if to:
            self._cells[owner][cell] = to
            self._names[to][owner, cell] = None

    def _count(self, number: int) -> None:
        """Notes how many references an object has, where that is the most."""
        cells = len(self._names[number])
        if cells > self._most_cells[number]:
            self._most_cells[number] = cells
        if cells + self._locals[number] > self._most_all[number]:
            self._most_all[number] = cells + self._locals[number]

    def _unreached(self, number: int, known: Container[int] = ()) -> Set[int]:
        """Where neither a hold nor a static leads to an object, the object and all that lead to it, which are unreached too, but for those
        that are known to be; nothing where one does."""
        if number == TOP or self._holds[number]:
            return set()
        seen, waiting = {number}, [number]
        for one in waiting:
            for owner, _ in self._names[one]:
                if owner not in seen and owner not in known:
                    if owner == TOP or self._holds[owner]:
                        return set()
                    seen.add(owner)
                    waiting.append(owner)
        return seen

    def _lost(self, number: int) -> Tuple[List[int], List[int]]:
        """What is not reached any more, now that a reference to an object is gone: what dies, and of what is used later as few as lead
        to it all."""
        known = self._unreached(number) if number else set()
        if not known:
            return [], []
        unreached = {number: None}
        waiting = [number]
        for one in waiting:
            for to in self._cells[one].values():
                if to not in unreached:
                    if to not in known:
                        known |= self._unreached(to, known)
                    if to in known:
                        unreached[to] = None
                        waiting.append(to)
        used: Dict[int, None] = {}
        for one in waiting:
            if one in unreached and self._last[one] > self._now:
                saved = [one]
                while saved:
                    two = saved.pop()
                    if two in unreached:
                        del unreached[two]
                        saved.extend(self._cells[two].values())
                    else:
                        # One that was chosen before, and that this one leads to, needs no hold of its own.
                        used.pop(two, None)
                used[one] = None
        return list(unreached), list(used)

    def _bury(self, dead: List[int]) -> None:
        for number in dead:
            for cell, to in self._cells[number].items():
                self._names[to].pop((number, cell), None)
            self._blocks -= self._layouts[number].blocks
        for number in dead:
            self._cells[number] = {}
            self._names[number] = {}
