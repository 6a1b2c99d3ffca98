"""Refusals and damage kinds, with the names and words that include/huwekapo.h gives them."""

from __future__ import annotations

import enum
from typing import Dict


class Number(enum.IntEnum):
    """The number of a reply: 0, or why a call was refused."""

    ACCEPTED = 0
    MISSHAPEN = 1
    DAMAGED = 2
    BAD_SIZE = 3
    BAD_ROOT = 4
    NO_CHUNK = 5
    NO_OBJECT = 6
    BAD_CELL = 7
    BAD_REFERENCE = 8
    NO_CALL = 9
    CUT_OFF = 10
    STALE_SECTIONS = 11
    WRONG_KIND = 12
    BAD_MARKS = 13
    OUT_OF_TURN = 14
    SHORT_REASON = 15
    SHORT_SHAPE = 16
    NO_PLACE = 17
    SHORT_REPLIES = 18
    BAD_RUN = 19


class Damage(enum.IntEnum):
    """What a damaged heap has: the value of a refusal with number 2. 6 is not used."""

    END_ON_FREE = 1
    OPEN_END = 2
    UNALIGNED = 3
    DANGLING_REFERENCE = 4
    WRONG_COUNT = 5
    STRAY_DATA = 7


_CALL_WORDS: Dict[int, str] = {
    Number.MISSHAPEN: "blocks, width, the number of roots or any buffer's length is not as it must be",
    Number.DAMAGED: "the heap is damaged",
    Number.BAD_SIZE: "n is 0 or above blocks",
    Number.BAD_ROOT: "r is not below the number of roots, or a bit of `chosen` is at or past it",
    Number.NO_CHUNK: "no chunk is free: a chunk is s blocks starting at a multiple of s, s the least power of two that is n or more",
    Number.NO_OBJECT: "`at` is not a first block (or not below blocks)",
    Number.BAD_CELL: "j is not below 4 times the object's size",
    Number.BAD_REFERENCE: "v is neither 0 nor 1 + a first block",
    Number.NO_CALL: "an entry is no call: its code is above 13, or it writes a number that no cell holds",
    Number.CUT_OFF: "the list ends inside a call",
    Number.STALE_SECTIONS: "a number of `sections` is not the size of the largest free chunk of its section",
    Number.WRONG_KIND: "a reference is stored in a cell of data, or read from one; or a number is written or read where the object is "
    "not data",
    Number.BAD_MARKS: "while a collection is open: the list is not of its form or holds an object that is unmarked, a mark is not on a "
    "first block, or a root, or a marked object that is not on the list, names an unmarked one; while none is: a mark or a place of the "
    "list is not 0",
    Number.OUT_OF_TURN: "a step while no collection is open; an opening or a full collection while one is",
    Number.SHORT_REASON: "the output is shorter than the sentence",
    Number.SHORT_SHAPE: "the output is shorter than the list",
    Number.NO_PLACE: "an object of the copy finds no free chunk at its turn",
    Number.SHORT_REPLIES: "`replies` is too short for the replies of all calls",
    Number.BAD_RUN: "no run leaves these numbers",
}

_RECORD_WORDS: Dict[int, str] = {
    Number.BAD_SIZE: "the size is 0 or above the number of blocks",
    Number.BAD_ROOT: "a root is not below the number of roots",
    Number.NO_CHUNK: "no chunk is free, not after a full collection either",
    Number.NO_OBJECT: "a root is empty where an object is needed",
    Number.BAD_CELL: "the cell is not below 4 times the object's size",
    Number.NO_CALL: "an unknown operation, or a field that has to be 0 and is not",
    Number.CUT_OFF: "the file ends inside a record, or goes on past 4,294,967,295 records",
    Number.WRONG_KIND: "a reference is stored in data or read from it, or a number is written where the object is not data",
    Number.OUT_OF_TURN: "a full collection while one in small steps is open",
}

_DAMAGE_WORDS: Dict[int, str] = {
    Damage.END_ON_FREE: "a 0 in the B-map on a free block",
    Damage.OPEN_END: "an allocated block with B bit 1 whose next block is free or past the end",
    Damage.UNALIGNED: "an object whose first block is not a multiple of the least power of two that is its size or more",
    Damage.DANGLING_REFERENCE: "a cell of a free block that isn't 0, or a cell, not of data, or a root that is neither 0 nor 1 + a first "
    "block",
    Damage.WRONG_COUNT: "a count other than 0 where no object starts; an object with count 0; a count below capacity that differs "
    "from the number of all roots and all cells, but those of data, naming the object",
    Damage.STRAY_DATA: "a D bit where no object starts",
}


def stop_in_words(number: int) -> str:
    """Why a run stopped at a record, in words."""
    return _RECORD_WORDS.get(number, "a number that this package has no words for")


class Refused(Exception):
    """A call that the library refused. The heap is as it was before the call.

    number: the first that applies of the refusals that the call names, in the order in which it names them.
    value: the damage kind for number 2, else 0.
    name: the number's name, as in `Number`; for number 2 the damage's, as in `Damage`.
    """

    def __init__(self, number: int, value: int = 0) -> None:
        super().__init__(number, value)
        self.number = number
        self.value = value

    @property
    def name(self) -> str:
        try:
            return Damage(self.value).name if self.number == Number.DAMAGED else Number(self.number).name
        except ValueError:
            return "UNKNOWN"

    def __str__(self) -> str:
        words = _CALL_WORDS.get(self.number, "a number that this package has no words for")
        if self.number == Number.DAMAGED:
            kind = _DAMAGE_WORDS.get(self.value, "a kind that this package has no words for")
            words = f"{words}, kind {self.value}: {kind}"
        return f"{self.number} {self.name}: {words}"
