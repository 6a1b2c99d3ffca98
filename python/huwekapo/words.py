"""Histories as text, one record a line. docs/FILES.md states the form."""

from __future__ import annotations

from typing import Dict, Iterable, Iterator, List, Optional, Tuple

from .history import History, Source
from .record import (
    ALLOCATE,
    ALLOCATE_DATA,
    CLEAR,
    COLLECT,
    COPY,
    LARGEST_NUMBER,
    LARGEST_ROOT,
    READ,
    RECORD,
    WRITE,
    WRITE_NUMBER,
    Record,
    record,
)

#: Each operation's line. A word in capitals stands for a number: a root d or s, a cell c, a size.
FORMS: Dict[int, Tuple[str, ...]] = {
    operation: tuple(line.split())
    for operation, line in [
        (ALLOCATE, "allocate SIZE into D"),
        (COPY, "copy S to D"),
        (WRITE, "write S into cell C of D"),
        (READ, "read cell C of S into D"),
        (CLEAR, "clear D"),
        (COLLECT, "collect"),
        (ALLOCATE_DATA, "allocate data SIZE into D"),
        (WRITE_NUMBER, "write number SIZE into cell C of D"),
    ]
}

#: The word that begins a line of bytes as they are.
BYTES = "bytes"

#: The largest number of each place, and its name for reading.
_PLACES = {"D": (LARGEST_ROOT, "root"), "S": (LARGEST_ROOT, "root"), "C": (LARGEST_NUMBER, "cell"), "SIZE": (LARGEST_NUMBER, "size")}


class TextError(ValueError):
    """A line of a text that is not of its form. The message names the line and what is wrong with it.

    line: its number, from 1.
    """

    def __init__(self, line: int, words: str) -> None:
        super().__init__(line, words)
        self.line = line
        self.words = words

    def __str__(self) -> str:
        return f"line {self.line}: {self.words}"


def lines_of(text: Iterable[bytes]) -> Iterator[Tuple[int, List[str]]]:
    """The words of each line that has any, behind the line's number: `#` begins a comment."""
    for number, line in enumerate(text, 1):
        try:
            words = line.decode("utf-8-sig" if number == 1 else "utf-8").partition("#")[0].split()
        except UnicodeDecodeError as error:
            raise TextError(number, f"byte {error.start + 1} is no UTF-8: is this a text?") from None
        if words:
            yield number, words


def assemble(text: Iterable[bytes]) -> Iterator[bytes]:
    """The records of a text, given as its lines."""
    cut_off: Optional[int] = None
    for number, words in lines_of(text):
        if cut_off is not None:
            raise TextError(number, f"stands behind a record that is cut off, in line {cut_off}: only the last may be")
        made = _bytes(number, words[1:]) if words[0] == BYTES else _record(number, words)
        if len(made) < RECORD:
            cut_off = number
        yield made


def _bytes(line: int, words: List[str]) -> bytes:
    if not 1 <= len(words) <= RECORD:
        raise TextError(line, f"bytes takes 1 to {RECORD} numbers, and here are {len(words)}")
    return bytes(_number(line, word, 0xFF, "byte") for word in words)


def _record(line: int, words: List[str]) -> bytes:
    beginning = [form for form in FORMS.values() if form[0] == words[0]]
    if not beginning:
        known = ", ".join(dict.fromkeys(form[0] for form in FORMS.values()))
        raise TextError(line, f"{words[0]!r} begins no record: a line begins with {known} or {BYTES}")
    for operation, form in FORMS.items():
        if len(form) == len(words) and all(part in _PLACES or part == word for part, word in zip(form, words)):
            fields: Dict[str, int] = {}
            for part, word in zip(form, words):
                if part in _PLACES:
                    largest, name = _PLACES[part]
                    named = "number" if operation == WRITE_NUMBER and part == "SIZE" else name
                    fields[part.lower()] = _number(line, word, largest, named)
            return record(operation, **fields)
    forms = " or ".join(f"`{_shown(form)}`" for form in beginning)
    raise TextError(line, f"{' '.join(words)!r} is no record: write {forms}")


def _shown(form: Tuple[str, ...]) -> str:
    names = {"D": "ROOT", "S": "ROOT", "C": "CELL"}
    return " ".join("NUMBER" if part == "SIZE" and "number" in form else names.get(part, part) for part in form)


def _number(line: int, word: str, largest: int, name: str) -> int:
    if not (word.isascii() and word.isdigit()):
        raise TextError(line, f"{word!r} is no number: a {name} is from 0 to {largest:,}")
    # A word of many digits is no number of a record either, and slow to convert.
    if len(word.lstrip("0")) > len(str(largest)) or int(word) > largest:
        raise TextError(line, f"{word} is too large: a {name} is from 0 to {largest:,}")
    return int(word)


def words(history: Source) -> Iterator[str]:
    """The lines of a history's text, each with its line end. What is no operation is written in bytes, so that the text is always
    assembled to the history that it was made of."""
    for piece in History.of(history).pieces():
        for at in range(0, len(piece), RECORD):
            yield _line(piece[at : at + RECORD]) + "\n"


def _line(some: bytes) -> str:
    if len(some) == RECORD:
        fields = Record.of(some)
        form = FORMS.get(fields.operation)
        if form:
            named = {part.lower(): getattr(fields, part.lower()) for part in form if part in _PLACES}
            if record(fields.operation, **named) == some:
                return " ".join(str(named[part.lower()]) if part in _PLACES else part for part in form)
    return " ".join([BYTES, *map(str, some)])
