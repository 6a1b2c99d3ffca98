"""Traces of real programs: the events of a program's run, as text. docs/FILES.md states the form."""

from __future__ import annotations

import fnmatch
import gzip
import os
from array import array
from typing import BinaryIO, Callable, Dict, Iterator, List, NamedTuple, Optional, Sequence, Tuple, Union, cast

from .record import LARGEST_NUMBER
from .words import TextError, lines_of

#: The events, as a trace keeps them.
MADE, STORED, STATIC, ENTERED, LEFT, LOCAL, HANDED = range(7)

#: The letter of each event, and the numbers behind it.
FORMS: Dict[str, Tuple[int, str]] = {
    "U": (STORED, "OWNER CELL OBJECT"),
    "S": (STATIC, "CELL OBJECT"),
    "E": (ENTERED, ""),
    "X": (LEFT, ""),
    "L": (LOCAL, "SLOT OBJECT"),
    "R": (HANDED, "OBJECT"),
}

#: The kinds of objects: fields, an array of references, an array of numbers.
FIELDS, REFERENCES, NUMBERS = "o", "r", "n"

#: The bytes of a cell, as the program has them, and of a block.
CELL, BLOCK = 4, 16

#: Is told how many bytes of the file have been read.
Progress = Callable[[int], object]


class Layout(NamedTuple):
    """An object's kind, the words in front of its first cell, and its size in blocks."""

    kind: str
    first: int
    blocks: int

    @staticmethod
    def of(kind: str, size: int, header: int) -> Layout:
        """Of an object of so many bytes behind a header of so many words; an array has one word more, its length."""
        first = header + (kind != FIELDS)
        return Layout(kind, first, max(1, -(-(CELL * first + size) // BLOCK)))


class LeftOut(NamedTuple):
    """Objects that a trace has and a history is to be without, and their bytes: as if they were null."""

    objects: int
    size: int


class Trace:
    """The events of a file, with the objects numbered from 1 as they are made; 0 is null, and the owner of the statics.

    events: of each its kind and three numbers: the object made; owner, cell and object stored; a static's cell and object; a local
    variable's slot and object; the object handed back.
    """

    def __init__(self) -> None:
        self.kinds = bytearray()
        self.numbers = tuple(array("Q") for _ in range(3))
        #: by the object's number; what stands at 0 is of no object
        self.layouts: List[Layout] = [Layout(FIELDS, 0, 0)]
        self.classes: List[str] = [""]
        #: the last event that names an object
        self.last: List[int] = [-1]
        #: the number of cells that statics have
        self.statics = 0
        self.large = LeftOut(0, 0)
        self.other_classes = LeftOut(0, 0)

    def __len__(self) -> int:
        return len(self.kinds)

    @property
    def objects(self) -> int:
        """The number of objects."""
        return len(self.layouts) - 1

    def events(self) -> Iterator[Tuple[int, int, int, int]]:
        """Each event: its kind and its numbers."""
        one, two, three = self.numbers
        return zip(self.kinds, one, two, three)

    def _add(self, kind: int, one: int = 0, two: int = 0, three: int = 0) -> None:
        for numbers, number in zip(self.numbers, (one, two, three)):
            numbers.append(number)
        self.kinds.append(kind)


def opened(path: Union[str, "os.PathLike[str]"]) -> BinaryIO:
    """A file of events, packed by gzip where its name says so."""
    return cast(BinaryIO, gzip.open(path, "rb")) if os.fspath(path).endswith(".gz") else open(path, "rb")


def trace(
    lines: Iterator[bytes],
    header: int = 1,
    leave_out: Optional[int] = None,
    classes: Optional[Sequence[str]] = None,
    progress: Optional[Progress] = None,
) -> Trace:
    """The trace of a text, given as its lines. Without it are arrays of numbers of more than `leave_out` bytes, and objects whose class
    is of none of these patterns. What is not of its form is a `TextError`, which names the line."""
    return _Reader(header, leave_out, classes, progress).read(lines)


class _Reader:
    """Reads a trace, and tests each line against those before it."""

    def __init__(
        self, header: int, leave_out: Optional[int], classes: Optional[Sequence[str]], progress: Optional[Progress]
    ) -> None:
        self._header, self._leave_out, self._patterns, self._progress = header, leave_out, classes, progress
        self._trace = Trace()
        self._class_names: Dict[int, str] = {}
        self._followed: Dict[int, bool] = {}
        # By the file's numbers; 0 for what is left out.
        self._object: Dict[int, int] = {0: 0}
        self._sizes: List[int] = [0]
        self._depth = 0
        self._static_cells: Dict[int, int] = {}
        self._line = 0
        self._acts: Dict[int, Callable[..., None]] = {
            STORED: self._stored,
            STATIC: self._static,
            ENTERED: self._entered,
            LEFT: self._left,
            LOCAL: self._local,
            HANDED: self._handed,
        }

    def read(self, lines: Iterator[bytes]) -> Trace:
        done = 0

        def told() -> Iterator[bytes]:
            nonlocal done
            for line in lines:
                done += len(line)
                yield line

        for self._line, words in lines_of(told()):
            self._event(words)
            if self._progress and self._line % 1024 == 0:
                self._progress(done)
        self._trace.statics = len(self._static_cells)
        return self._trace

    def _wrong(self, words: str) -> TextError:
        return TextError(self._line, words)

    def _event(self, words: List[str]) -> None:
        letter = words[0]
        if letter == "C":
            self._class(words)
        elif letter == "A":
            self._made(words)
        elif letter in FORMS:
            kind, form = FORMS[letter]
            numbers = self._numbers(words[1:], letter, form)
            self._acts[kind](*numbers)
        else:
            raise self._wrong(f"{letter!r} is no event: a line begins with C, A, {', '.join(FORMS)}")

    def _numbers(self, words: List[str], letter: str, form: str) -> List[int]:
        if len(words) != len(form.split()) or not all(word.isascii() and word.isdigit() and len(word) < 19 for word in words):
            due = f"`{letter} {form}`".replace(" `", "`")
            raise self._wrong(f"{' '.join([letter, *words])!r} is not of the form {due}, each a number")
        return list(map(int, words))

    def _class(self, words: List[str]) -> None:
        if len(words) != 3:
            raise self._wrong("a class is `C CLASS NAME`")
        (number,) = self._numbers(words[1:2], "C", "CLASS")
        if number in self._class_names:
            raise self._wrong(f"class {number} stands there already")
        self._class_names[number] = words[2]
        followed = self._patterns is None or any(fnmatch.fnmatchcase(words[2], pattern) for pattern in self._patterns)
        self._followed[number] = followed

    def _made(self, words: List[str]) -> None:
        if len(words) != 5 or words[3] not in (FIELDS, REFERENCES, NUMBERS):
            raise self._wrong("an object is `A OBJECT CLASS KIND BYTES`, its kind o (fields), r (references) or n (numbers)")
        known, of_class, size = self._numbers([words[1], words[2], words[4]], "A", "OBJECT CLASS BYTES")
        if known in self._object:
            raise self._wrong(f"object {known} was made already" if known else "object 0 is null")
        if of_class not in self._followed:
            raise self._wrong(f"there is no class {of_class}")
        kind, found = words[3], self._trace
        if not self._followed[of_class]:
            found.other_classes = LeftOut(found.other_classes.objects + 1, found.other_classes.size + size)
            self._object[known] = 0
            return
        if kind == NUMBERS and self._leave_out is not None and size > self._leave_out:
            found.large = LeftOut(found.large.objects + 1, found.large.size + size)
            self._object[known] = 0
            return
        layout = Layout.of(kind, size, self._header)
        if layout.blocks > LARGEST_NUMBER:
            raise self._wrong(f"object {known} has {layout.blocks:,} blocks: a record can say {LARGEST_NUMBER:,} at most")
        number = len(found.layouts)
        self._object[known] = number
        found.layouts.append(layout)
        found.classes.append(self._class_names[of_class])
        found.last.append(len(found))
        self._sizes.append(size)
        found._add(MADE, number)

    def _named(self, known: int) -> int:
        """The object of that number in the file, which this event names."""
        number = self._object.get(known)
        if number is None:
            raise self._wrong(f"object {known} was not made before")
        self._trace.last[number] = len(self._trace)
        return number

    def _stored(self, owner: int, cell: int, value: int) -> None:
        if owner == 0:
            raise self._wrong("null has no cells")
        to, at = self._named(value), self._named(owner)
        if at == 0:
            # The owner is left out; the program uses the object all the same.
            self._trace._add(HANDED, to)
            return
        layout = self._trace.layouts[at]
        if layout.kind == NUMBERS:
            raise self._wrong(f"object {owner} is an array of numbers, and holds no reference")
        if CELL * (cell + 1) > self._sizes[at]:
            raise self._wrong(f"object {owner} has {self._sizes[at]} bytes, and no cell {cell}")
        if layout.first + cell > LARGEST_NUMBER:
            raise self._wrong(f"cell {cell} of object {owner}: a record can name cell {LARGEST_NUMBER - layout.first:,} at most")
        self._trace._add(STORED, at, cell, to)

    def _static(self, cell: int, value: int) -> None:
        place = self._static_cells.setdefault(cell, len(self._static_cells))
        if place > LARGEST_NUMBER:
            raise self._wrong(f"there are more than {LARGEST_NUMBER + 1:,} statics")
        self._trace._add(STATIC, place, self._named(value))

    def _entered(self) -> None:
        self._depth += 1
        self._trace._add(ENTERED)

    def _left(self) -> None:
        if self._depth == 0:
            raise self._wrong("no method is entered that could be left")
        self._depth -= 1
        self._trace._add(LEFT)

    def _local(self, slot: int, value: int) -> None:
        if self._depth == 0:
            raise self._wrong("a local variable where no method is entered")
        self._trace._add(LOCAL, slot, self._named(value))

    def _handed(self, value: int) -> None:
        self._trace._add(HANDED, self._named(value))
