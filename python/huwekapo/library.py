"""The library libhuwekapo.so: where it is found, and its functions as include/huwekapo.h declares them.

What a later version of the library adds to the heap's buffers or to a run's figures is added to `BUFFERS` or `Figures` here, and
to nothing else of the declarations. A library of another version takes other arguments: it is asked before anything is lent to it.
"""

from __future__ import annotations

import ctypes
import functools
import os
from typing import Any, Callable, Iterator, List, NamedTuple

#: The version of the library that this package is for, and its own.
VERSION = "0.9.0"

#: The environment variable that names the library: its file, or the folder that it lies in.
VARIABLE = "HUWEKAPO_LIBRARY"

FILE = "libhuwekapo.so"

WORD = ctypes.c_size_t

#: A cell or root, and whatever is lent with them: 0, or 1 + the first block of an object. The largest number that a cell holds.
REF = ctypes.c_uint32
MAX_NUMBER = 256 ** ctypes.sizeof(REF) - 1

#: The library's limits. What is beyond them is refused by it; no buffers of that size are made here.
MIN_BLOCKS = 8
MAX_BLOCKS = 65536
MAX_WIDTH = 4
MAX_ROOTS = 64

#: The blocks of a section; a smaller heap is one section.
MAX_SECTION = 256

#: The heap of the program `report`.
REPORT_BLOCKS = 4096
REPORT_WIDTH = 3
REPORT_ROOTS = 64


class Buffer(NamedTuple):
    """One of the heap's lent buffers: its name, the type of its numbers, and how many it has."""

    name: str
    number: Any
    length: Callable[[int, int, int], int]


#: The buffers in the order in which every call takes them. A length is a function of the blocks, the width and the roots.
BUFFERS = (
    Buffer("a", ctypes.c_uint8, lambda blocks, width, roots: blocks // 8),
    Buffer("b", ctypes.c_uint8, lambda blocks, width, roots: blocks // 8),
    Buffer("counts", ctypes.c_uint8, lambda blocks, width, roots: width * (blocks // 8)),
    Buffer("cells", REF, lambda blocks, width, roots: 4 * blocks),
    Buffer("roots", REF, lambda blocks, width, roots: roots),
    Buffer("waiting", REF, lambda blocks, width, roots: blocks),
    Buffer("sections", REF, lambda blocks, width, roots: max(1, blocks // MAX_SECTION)),
    Buffer("data", ctypes.c_uint8, lambda blocks, width, roots: blocks // 8),
    Buffer("marks", ctypes.c_uint8, lambda blocks, width, roots: blocks // 8),
    Buffer("list", REF, lambda blocks, width, roots: blocks + 1),
)


class Figures(NamedTuple):
    """The figures of a run, in the order of the printed line."""

    #: accepted allocations, those of data too
    allocations: int = 0
    #: blocks allocated in all
    blocks: int = 0
    #: largest accepted size
    largest: int = 0
    #: full collections, forced or recorded
    collections: int = 0
    #: most blocks in use after any record
    peak: int = 0
    #: how often an object became stuck
    stuck: int = 0


class Reply(ctypes.Structure):
    """struct huwekapo_reply."""

    _fields_ = [("number", WORD), ("value", WORD), ("second", WORD)]


class Tally(ctypes.Structure):
    """struct huwekapo_tally."""

    _fields_ = [(name, ctypes.c_uint64) for name in Figures._fields]


class RunSoFar(ctypes.Structure):
    """struct huwekapo_run."""

    _fields_ = [("number", WORD), ("records", WORD), ("tally", Tally)]


class Ran(ctypes.Structure):
    """struct huwekapo_ran."""

    _fields_ = [("reply", Reply), ("run", RunSoFar)]


class Reading(ctypes.Structure):
    """struct huwekapo_reading."""

    _fields_ = [("kind", WORD), ("root", WORD), ("links", WORD), ("block", WORD)]


#: What lends a heap: blocks, width, and each buffer as a pointer and a length in numbers.
LENT: list[Any] = [WORD, WORD] + len(BUFFERS) * [ctypes.c_void_p, WORD]

#: Each function: what it takes behind the heap's buffers, and what it answers.
FUNCTIONS: dict[str, tuple[list[Any], Any]] = {
    "format": ([], Reply),
    "check": ([], Reply),
    "allocate": ([WORD, WORD], Reply),
    "store_root": ([WORD, WORD], Reply),
    "store_cell": ([WORD, WORD, WORD], Reply),
    "return_roots": ([ctypes.c_uint64], Reply),
    "collect": ([], Reply),
    "look": ([WORD], Reply),
    "free_blocks": ([], Reply),
    "allocate_data": ([WORD, WORD], Reply),
    "write_number": ([WORD, WORD, REF], Reply),
    "read_number": ([WORD, WORD], Reply),
    "open_collection": ([], Reply),
    "step_collection": ([WORD], Reply),
    "reason": ([WORD, ctypes.c_void_p, WORD], Reply),
    "shape": ([ctypes.c_void_p, WORD], Reply),
    "copy": (LENT, Reply),
    "replay": ([ctypes.c_void_p, WORD, ctypes.c_void_p, WORD], Reply),
    "make_calls": ([ctypes.c_void_p, WORD, ctypes.c_void_p, WORD], Reply),
    "run_records": ([RunSoFar, ctypes.c_void_p, WORD], Ran),
}

#: Each function that takes no heap.
READERS: dict[str, tuple[list[Any], Any]] = {
    "read_reason": ([ctypes.c_void_p, WORD, ctypes.c_void_p, WORD], Reading),
}


def reason_length(blocks: int) -> int:
    """Bytes that are enough for the reason of any object in a heap of so many blocks."""
    return 8 + 12 * blocks


def shape_length(blocks: int, roots: int) -> int:
    """Numbers that are enough for the shape of any heap of so many blocks and roots."""
    return 1 + roots + 6 * blocks


class LibraryMissing(OSError):
    """libhuwekapo.so was not found, or is of another version. The message says where it was looked for."""


def places() -> Iterator[str]:
    """Where the library is looked for, in order: the file that the environment variable names, and no other where it is set; beside
    the package; in target/install of the clone that the package stands in, where `bash install.sh` puts it; in the system."""
    named = os.environ.get(VARIABLE)
    if named:
        yield os.path.join(named, FILE) if os.path.isdir(named) else named
        return
    package = os.path.dirname(os.path.realpath(__file__))
    yield os.path.join(package, FILE)
    clone = os.path.dirname(os.path.dirname(package))
    yield os.path.join(clone, "target", "install", "lib", FILE)
    # As the linker finds it; else by what ldconfig knows, which takes longer to ask.
    yield FILE
    from ctypes.util import find_library

    found = find_library("huwekapo")
    if found:
        yield found


@functools.lru_cache(maxsize=None)
def load() -> dict[str, Any]:
    """The library's functions, by their names without `huwekapo_`. It is loaded at the first call and stays so."""
    tried: List[str] = []
    for place in places():
        tried.append(place)
        try:
            library = ctypes.CDLL(place)
        except OSError as error:
            if os.path.exists(place):
                raise LibraryMissing(f"{place}: {error}") from error
            continue
        _same_version(library, place)
        return {name: _declared(library, name) for name in (*FUNCTIONS, *READERS)}
    raise LibraryMissing(
        f"{FILE} was not found: looked for {', '.join(tried)}. `bash install.sh` in Huwekapo's clone makes it; {VARIABLE} may name "
        "the file or its folder."
    )


def _same_version(library: Any, place: str) -> None:
    """Asks the library. The number of buffers comes first: in versions before 0.3.0, which could not be asked, there is no such
    function, and `huwekapo_version` is none."""
    try:
        buffers = _asked(library, "huwekapo_buffers")
        version = _asked(library, "huwekapo_version")
    except AttributeError:
        raise LibraryMissing(f"{place} is no libhuwekapo of version 0.3.0 or later; this package is for {VERSION}") from None
    words = f"{version // 1_000_000}.{version // 1000 % 1000}.{version % 1000}"
    if words.split(".")[:2] != VERSION.split(".")[:2]:
        raise LibraryMissing(f"{place} is version {words}; this package is for {VERSION}")
    if buffers != len(BUFFERS):
        raise LibraryMissing(f"{place} takes {buffers} buffers; this package lends {len(BUFFERS)}")


def _asked(library: Any, name: str) -> int:
    function = getattr(library, name)
    function.argtypes, function.restype = [], WORD
    return int(function())


@functools.lru_cache(maxsize=None)
def build() -> str:
    """The library that is loaded, as tables name it: the package's version, and of the SHA-256 of the library's file 16 digits."""
    import hashlib

    with open(path(), "rb") as file:
        return f"{VERSION}+{hashlib.sha256(file.read()).hexdigest()[:16]}"


class _Found(ctypes.Structure):
    """Dl_info of dlfcn.h."""

    _fields_ = [("file", ctypes.c_char_p), ("base", ctypes.c_void_p), ("name", ctypes.c_char_p), ("address", ctypes.c_void_p)]


def path() -> str:
    """The file that the library was loaded from."""
    found = _Found()
    address = ctypes.cast(load()["check"], ctypes.c_void_p)
    if not ctypes.CDLL(None).dladdr(address, ctypes.byref(found)) or not found.file:
        raise LibraryMissing("the file of the library that is loaded can't be found")
    return os.fsdecode(found.file)


def _declared(library: Any, name: str) -> Any:
    function = getattr(library, f"huwekapo_{name}")
    buffers = LENT if name in FUNCTIONS else []
    arguments, answer = FUNCTIONS[name] if name in FUNCTIONS else READERS[name]
    function.argtypes = buffers + arguments
    function.restype = answer
    return function
