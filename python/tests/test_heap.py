"""The heap's calls, and that the package declares what include/huwekapo.h does."""

from __future__ import annotations

import copy
import doctest
import os
import pickle
import pydoc
import re
import shutil
import subprocess
import sys
import tempfile
import threading
import unittest
from pathlib import Path

import huwekapo
from huwekapo import Damage, Heap, Look, Number, Refused, Reply, library

from .calls import buffers

PYTHON = Path(__file__).resolve().parent.parent
HEADERS = PYTHON.parent / "include"


class Calls(unittest.TestCase):
    def refused(self, number: int, value: int, name: str):  # type: ignore[no-untyped-def]
        case = self

        class Context:
            def __enter__(self) -> None:
                pass

            def __exit__(self, kind, error, trace) -> bool:  # type: ignore[no-untyped-def]
                case.assertIsInstance(error, Refused)
                case.assertEqual((error.number, error.value, error.name), (number, value, name))
                return True

        return Context()

    def test_first_paper_cases(self) -> None:
        heap = Heap(8, 2, 4)
        self.assertEqual([heap.allocate(2, 0), heap.allocate(1, 1), heap.allocate(3, 2)], [0, 2, 4])
        self.assertEqual((heap.a[0], heap.b[0]), (119, 185))
        self.assertEqual(heap.look(4), Look(size=3, count=1))
        with self.refused(5, 0, "NO_CHUNK"):
            heap.allocate(2, 3)
        self.assertEqual(heap.free_blocks(), 2)
        self.assertEqual(heap.allocate(1, 3), 3)

    def test_every_call(self) -> None:
        heap = Heap(8, 2, 4)
        heap.check()
        heap.allocate(2, 0)
        heap.allocate(1, 1)
        self.assertEqual(heap.store_cell(0, 7, 3), 0)
        self.assertEqual(heap.cells[7], 3)
        self.assertEqual(heap.store_root(1, 0), 0)
        self.assertEqual(heap.look(2), Look(1, 1))
        self.assertEqual(heap.return_roots(1), 3)
        heap.allocate(1, 0)
        heap.store_cell(0, 0, 1)
        self.assertEqual(heap.store_root(0, 0), 0)
        self.assertEqual(heap.collect(), 1)
        heap.allocate(8, 0)
        heap.format()
        self.assertEqual(heap.free_blocks(), 8)
        self.assertEqual(list(heap.roots), [0, 0, 0, 0])

    def test_data(self) -> None:
        heap = Heap(8, 2, 4)
        self.assertEqual((heap.allocate_data(2, 0), heap.allocate(1, 1)), (0, 2))
        self.assertEqual((heap.data[0], heap.cells[:8].tolist()), (1, 8 * [0]))
        # Numbers that look like references, 65536, and the ends of what a cell holds.
        for j, v in enumerate([3, 1, 4, 4294967295, 0, 256, 65536, 4294967294]):
            before = {buffer.name: list(getattr(heap, buffer.name)) for buffer in library.BUFFERS}
            heap.write_number(0, j, v)
            self.assertEqual(heap.read_number(0, j), v)
            before["cells"][j] = v
            # One cell, and nothing else.
            self.assertEqual({name: list(getattr(heap, name)) for name in before}, before)
        heap.check()
        self.assertEqual((heap.collect(), heap.look(2), heap.look(0)), (0, Look(1, 1), Look(2, 1)))
        for number, name, call in [
            (12, "WRONG_KIND", lambda: heap.store_cell(0, 7, 9)),
            (12, "WRONG_KIND", lambda: heap.write_number(2, 3, 0)),
            (12, "WRONG_KIND", lambda: heap.read_number(2, 3)),
            (7, "BAD_CELL", lambda: heap.store_cell(0, 8, 9)),
            (7, "BAD_CELL", lambda: heap.read_number(2, 4)),
            (6, "NO_OBJECT", lambda: heap.write_number(1, 0, 0)),
            (3, "BAD_SIZE", lambda: heap.allocate_data(9, 9)),
            (4, "BAD_ROOT", lambda: heap.allocate_data(1, 4)),
            (5, "NO_CHUNK", lambda: heap.allocate_data(8, 3)),
        ]:
            with self.subTest(name=name), self.refused(number, 0, name):
                call()
        # ctypes alone would make 0 of it.
        for v in [2**32, 2**32 + 1, 2**64, -1]:
            with self.subTest(v=v), self.assertRaises(OverflowError):
                heap.write_number(0, 0, v)
        self.assertEqual(heap.read_number(0, 0), 3)
        # Freed, it leaves nothing, and lets go of nothing: the object at 2 is there.
        self.assertEqual(heap.store_root(0, 0), 2)
        self.assertEqual((heap.data[0], heap.cells[:8].tolist(), heap.look(2)), (0, 8 * [0], Look(1, 1)))
        narrow = Heap(8, 1, 4)
        narrow.allocate_data(1, 0)
        self.assertTrue(narrow.became_stuck)

    def test_large_heaps(self) -> None:
        for blocks in [16384, 32768, 65536]:
            heap = Heap(blocks, 2, 4)
            self.assertEqual((heap.allocate(blocks // 2, 0), heap.allocate_data(blocks // 2, 1)), (0, blocks // 2))
            # The largest cells, and the largest number.
            self.assertEqual(heap.store_cell(0, 2 * blocks - 1, 1 + blocks // 2), 0)
            heap.write_number(blocks // 2, 2 * blocks - 1, 2**32 - 1)
            self.assertEqual((heap.cells[2 * blocks - 1], heap.cells[4 * blocks - 1]), (1 + blocks // 2, 2**32 - 1))
            for v in [1 + blocks, 1 + blocks // 2 + 65536, 2**32 + 1]:
                with self.refused(8, 0, "BAD_REFERENCE"):
                    heap.store_root(2, v)
            self.assertEqual((heap.store_root(1, 0), heap.collect(), heap.look(blocks // 2)), (0, 0, Look(blocks // 2, 1)))
            self.assertEqual((heap.reason(blocks // 2), len(heap.shape())), (f"root 0 cell {2 * blocks - 1} block {blocks // 2}\n", 9 + 4 * blocks))
            self.assertEqual((heap.store_root(0, 0), heap.sections.tolist()), (blocks, blocks // 256 * [256]))

    def test_became_stuck(self) -> None:
        heap = Heap(8, 2, 4)
        told = []
        for call in [
            lambda: heap.allocate(1, 0),
            lambda: heap.store_root(1, 1),
            lambda: heap.store_cell(0, 0, 1),
            lambda: heap.store_cell(0, 1, 1),
            lambda: heap.store_root(1, 0),
        ]:
            call()
            told.append(heap.became_stuck)
        self.assertEqual(told, [False, False, True, False, False])
        heap = Heap(8, 1, 4)
        heap.allocate(1, 0)
        self.assertTrue(heap.became_stuck)
        # A refusal and other calls leave it.
        with self.refused(3, 0, "BAD_SIZE"):
            heap.allocate(9, 0)
        heap.look(0)
        self.assertTrue(heap.became_stuck)

    def test_replay(self) -> None:
        heap = Heap(8, 2, 4)
        replies = heap.replay([(2, 2, 0), (2, 1, 1), (2, 3, 2), (6, 4), (2, 9, 0), (8, 5)])
        self.assertEqual(replies, [Reply(0, 0, 0), Reply(0, 2, 0), Reply(0, 4, 0), Reply(0, 3, 1), Reply(3, 0, 0), Reply(0, 5, 0)])
        self.assertEqual(heap.replay([]), [])
        with self.refused(9, 0, "NO_CALL"):
            heap.replay([(14,)])
        with self.refused(9, 0, "NO_CALL"):
            heap.replay([(9, 1, 0), (10, 0, 0, 2**32)])
        due = [Reply(0, 0, 0), Reply(0, 0, 0), Reply(0, 2**32 - 1, 0)]
        self.assertEqual(heap.replay([(9, 1, 0), (10, 0, 3, 2**32 - 1), (11, 0, 3)]), due)
        with self.assertRaises(ValueError):
            heap.replay([(2, 2, 0, 0, 0)])

    def test_make_calls(self) -> None:
        heap, other = Heap(8, 2, 4), Heap(8, 2, 4)
        self.assertEqual((heap.allocate(1, 3), other.allocate(1, 3)), (0, 0))
        calls = [(2, 2, 0), (9, 1, 1), (12,), (4, 2, 7, 1), (10, 2, 0, 2**32 - 1), (13, 1), (8, 2), (6, 5), (13, 9)]
        replies = heap.make_calls(calls)
        self.assertEqual([reply.number for reply in replies], [0, 0, 0, 0, 12, 0, 0, 6, 0])
        # The same one by one. What stood lives on.
        self.assertEqual((other.allocate(2, 0), other.allocate_data(1, 1)), (2, 1))
        other.open_collection()
        due = [2, 1, 0, other.store_cell(2, 7, 1), 0, other.step_collection(1).steps, other.return_roots(2), 0, other.step_collection(9).steps]
        self.assertEqual([reply.value for reply in replies], due)
        self.assertEqual(heap, other)
        self.assertEqual((heap.look(0), heap.is_open, heap.waiting.tolist()), (Look(1, 2), False, 8 * [0]))
        self.assertEqual((heap.make_calls([]), heap), ([], other))
        for wrong in [[(14,)], [(7,), (10, 0, 0, 2**32)]]:
            with self.refused(9, 0, "NO_CALL"):
                heap.make_calls(wrong)
        with self.assertRaises(ValueError):
            heap.make_calls([(2, 2, 0, 0, 0)])
        with self.assertRaises(OverflowError):
            heap.make_calls([(3, 0, -1)])
        with self.refused(2, 5, "WRONG_COUNT"):
            Heap.from_buffers(8, 2, **{**buffers(heap), "counts": [0, 0]}).make_calls([(14,)])

    def test_refusals(self) -> None:
        for shape in [(4, 2, 4), (12, 2, 4), (24576, 2, 4), (131072, 2, 4), (8, 0, 4), (8, 5, 4), (8, 2, 0), (8, 2, 65), (2**64 - 1, 2, 4)]:
            with self.subTest(shape=shape), self.refused(1, 0, "MISSHAPEN"):
                Heap(*shape)
        heap = Heap(8, 2, 4)
        heap.allocate(2, 0)
        for number, name, call in [
            (3, "BAD_SIZE", lambda: heap.allocate(9, 99)),
            (4, "BAD_ROOT", lambda: heap.allocate(1, 4)),
            (4, "BAD_ROOT", lambda: heap.return_roots(16)),
            (6, "NO_OBJECT", lambda: heap.look(1)),
            (7, "BAD_CELL", lambda: heap.store_cell(0, 8, 0)),
            (8, "BAD_REFERENCE", lambda: heap.store_root(0, 65537)),
        ]:
            with self.subTest(name=name), self.refused(number, 0, name):
                call()
        self.assertIn("no chunk is free", str(Refused(5)))
        self.assertEqual(pickle.loads(pickle.dumps(Refused(2, 3))).name, "UNALIGNED")

    def test_damage(self) -> None:
        fresh = {"counts": [0, 0], "cells": 32 * [0], "roots": 4 * [0], "sections": [8], "data": [0], "marks": [0], "list": 9 * [0]}
        for a, b, kind in [(0, 254, "END_ON_FREE"), (1, 255, "OPEN_END"), (6, 251, "UNALIGNED")]:
            heap = Heap.from_buffers(8, 2, a=[a], b=[b], **fresh)
            with self.subTest(kind=kind), self.refused(2, Damage[kind], kind):
                heap.check()
        with self.refused(2, 4, "DANGLING_REFERENCE"):
            Heap.from_buffers(8, 2, a=[0], b=[255], **{**fresh, "roots": [1, 0, 0, 0]}).check()
        with self.refused(2, 5, "WRONG_COUNT"):
            Heap.from_buffers(8, 2, a=[0], b=[255], **{**fresh, "counts": [1, 0]}).check()
        with self.refused(2, 7, "STRAY_DATA"):
            Heap.from_buffers(8, 2, a=[0], b=[255], **{**fresh, "data": [1]}).check()
        Heap.from_buffers(8, 2, a=[0], b=[255], waiting=8 * [2**32 - 1], **fresh).check()
        with self.refused(1, 0, "MISSHAPEN"):
            Heap.from_buffers(8, 2, a=[0, 0], b=[255], **fresh).check()
        with self.assertRaises(OverflowError):
            Heap.from_buffers(8, 2, a=[256], b=[255], **fresh)
        with self.assertRaises(TypeError):
            Heap.from_buffers(8, 2, a=[0], **fresh)

    def test_numbers_are_never_cut_off(self) -> None:
        heap = Heap(8, 2, 4)
        for number in [-1, 2**64, 2**64 + 1]:
            with self.subTest(number=number), self.assertRaises(OverflowError):
                heap.allocate(number, 0)
            with self.subTest(number=number), self.assertRaises(OverflowError):
                Heap(8, 2, number)
        with self.assertRaises(TypeError):
            heap.allocate(1.5, 0)  # type: ignore[arg-type]
        with self.refused(3, 0, "BAD_SIZE"):
            heap.allocate(2**64 - 1, 0)

    def test_views(self) -> None:
        heap = Heap(16, 3, 5)
        lengths = {"a": 2, "b": 2, "counts": 6, "cells": 64, "roots": 5, "waiting": 16, "sections": 1, "data": 2, "marks": 2, "list": 17}
        views = {name: getattr(heap, name) for name in lengths}
        self.assertEqual({name: len(view) for name, view in views.items()}, lengths)
        with self.assertRaises(TypeError):
            views["roots"][0] = 1
        heap.allocate(1, 4)
        self.assertEqual(list(views["roots"]), [0, 0, 0, 0, 1])
        self.assertEqual(list(views["sections"]), [8])

    def test_threads(self) -> None:
        heap = Heap(1024, 4, 8)

        def work(root: int) -> None:
            for size in range(1, 60):
                heap.allocate(size, root)
                heap.store_root(root, 0)

        threads = [threading.Thread(target=work, args=(root,)) for root in range(8)]
        for thread in threads:
            thread.start()
        for thread in threads:
            thread.join()
        heap.check()
        self.assertEqual(heap.free_blocks(), 1024)

    def test_copies(self) -> None:
        heap = Heap(64, 2, 4)
        heap.allocate(3, 0)
        heap.store_root(1, 1)
        for other in [heap.copy(), copy.copy(heap), copy.deepcopy(heap)]:
            self.assertEqual(heap, other)
            self.assertEqual(repr(other), "<Heap of 64 blocks, width 2, 4 roots: 3 blocks in use>")
            other.store_root(2, 1)
            self.assertTrue(other.became_stuck and not heap.became_stuck)
            self.assertNotEqual(heap, other)
            # Each has buffers of its own, and can be used on.
            self.assertEqual((heap.look(0).count, other.look(0).count), (2, 3))
            other.check()
        buffers = {buffer.name: getattr(heap, buffer.name) for buffer in library.BUFFERS}
        again = Heap.from_buffers(64, 2, **{**buffers, "waiting": [7] * 64})
        # The waiting list is left out, and nothing else.
        self.assertEqual(heap, again)
        self.assertNotEqual(heap, Heap.from_buffers(64, 2, **{**buffers, "sections": [9]}))
        self.assertNotEqual(heap, Heap.from_buffers(64, 2, **{**buffers, "cells": [0, 0, 1, *(253 * [0])]}))
        self.assertNotEqual(Heap(8, 1, 4), Heap(8, 2, 4))
        self.assertNotEqual(Heap(8, 2, 4), Heap(8, 2, 5))
        self.assertNotEqual(heap, "a heap")
        with self.assertRaises(TypeError):
            hash(heap)

    def test_documentation(self) -> None:
        found = doctest.testmod(huwekapo)
        self.assertEqual(found.failed, 0)
        self.assertGreater(found.attempted, 12)
        # Help begins with what one wants: a history's figures.
        text = pydoc.plain(pydoc.render_doc(huwekapo))
        self.assertLess(text.index("huwekapo.run(history"), 900)
        self.assertIn("except huwekapo.Stopped", text)
        for name in huwekapo.__all__:
            self.assertTrue(getattr(huwekapo, name).__doc__, name)


class Library(unittest.TestCase):
    environment = {**os.environ, "PYTHONPATH": str(PYTHON)}

    def start(self, **environment: str) -> subprocess.CompletedProcess[str]:
        command = [sys.executable, "-c", "from huwekapo import Heap; print(Heap(8).free_blocks())"]
        environment = {**self.environment, **environment}
        return subprocess.run(command, env=environment, capture_output=True, text=True, check=False)

    def test_named_by_the_variable(self) -> None:
        maps = Path("/proc/self/maps").read_text()
        path = next(word for word in maps.split() if "libhuwekapo.so" in word)
        self.assertEqual(self.start(HUWEKAPO_LIBRARY=path).stdout, "8\n")
        self.assertEqual(self.start(HUWEKAPO_LIBRARY=os.path.dirname(path)).stdout, "8\n")

    def test_missing(self) -> None:
        # No other place is tried where the variable is set.
        done = self.start(HUWEKAPO_LIBRARY="/nowhere/libhuwekapo.so")
        self.assertEqual(done.returncode, 1)
        self.assertIn("LibraryMissing: libhuwekapo.so was not found: looked for /nowhere/libhuwekapo.so.", done.stderr)

    def test_another_version(self) -> None:
        command = "from huwekapo import library; library.VERSION = '99.0.0'; library.load()"
        done = subprocess.run([sys.executable, "-c", command], env=self.environment, capture_output=True, text=True, check=False)
        self.assertRegex(done.stderr, rf"is version {huwekapo.__version__}; this package is for 99\.0\.0\n$")

    def test_another_library(self) -> None:
        maps = Path("/proc/self/maps").read_text()
        path = next(word for word in maps.split() if "/libc.so" in word)
        self.assertIn("is no libhuwekapo of version 0.3.0 or later", self.start(HUWEKAPO_LIBRARY=path).stderr)

    def test_the_library_says_its_version(self) -> None:
        loaded = library.ctypes.CDLL(library.path())
        major, minor, patch = map(int, library.VERSION.split("."))
        self.assertEqual(loaded.huwekapo_version(), 1_000_000 * major + 1000 * minor + patch)
        self.assertEqual(loaded.huwekapo_buffers(), len(library.BUFFERS))
        # The shared library has the minor version in its name.
        self.assertTrue(os.path.realpath(library.path()).endswith(f"libhuwekapo.so.{major}.{minor}"))

    def test_other_libraries_are_asked(self) -> None:
        compiler = shutil.which(os.environ.get("CC", "cc"))
        if not compiler:
            self.skipTest("there is no C compiler")
        number = "size_t huwekapo_version(void) {{ return {}; }} size_t huwekapo_buffers(void) {{ return {}; }}"
        buffers = len(library.BUFFERS)
        major, minor, patch = map(int, library.VERSION.split("."))
        own = 1_000_000 * major + 1000 * minor + patch
        for code, words in [
            # Version 0.2.0 has its version as a text, and can't be asked.
            ('const char huwekapo_version[] = "0.2.0";', "is no libhuwekapo of version 0.3.0 or later; this package is for"),
            (number.format(own - 1000, buffers), f"is version {major}.{minor - 1}.{patch}; this package is for"),
            (number.format(own + 1_000_000, buffers), f"is version {major + 1}.{minor}.{patch}; this package is for"),
            (number.format(own, buffers + 1), f"takes {buffers + 1} buffers; this package lends {buffers}"),
        ]:
            with self.subTest(code=code), tempfile.TemporaryDirectory() as folder:
                source, made = Path(folder) / "other.c", Path(folder) / "libhuwekapo.so"
                source.write_text(f"#include <stddef.h>\n{code}\n")
                subprocess.run([compiler, "-shared", "-fPIC", "-o", made, source], check=True)
                said = self.start(HUWEKAPO_LIBRARY=folder).stderr
                self.assertIn(f"{made} {words}", said)


class Header(unittest.TestCase):
    """What the header says, the package says."""

    def setUp(self) -> None:
        self.text = (HEADERS / "huwekapo.h").read_text()
        # Without comments.
        self.code = re.sub(r"/\*.*?\*/", " ", self.text, flags=re.DOTALL)

    def body(self, kind: str, name: str) -> str:
        found = re.search(rf"{kind} {name} {{(.*?)}};", self.code, flags=re.DOTALL)
        assert found, name
        return found.group(1)

    def enum(self, name: str) -> dict[str, int]:
        return {word: int(number) for word, number in re.findall(r"HUWEKAPO_(\w+) = (\d+)", self.body("enum", name))}

    def fields(self, name: str) -> list[str]:
        return re.findall(r"(\w+);", self.body("struct", name))

    def test_version_and_limits(self) -> None:
        macros = dict(re.findall(r"#define HUWEKAPO_(\w+) (\S+)", self.code))
        self.assertEqual(macros["VERSION"], f'"{huwekapo.__version__}"')
        parts = [macros[f"VERSION_{part}"] for part in ("MAJOR", "MINOR", "PATCH")]
        self.assertEqual(".".join(parts), huwekapo.__version__)
        self.assertEqual(int(macros["BUFFER_COUNT"]), len(library.BUFFERS))
        # No macro is defined twice.
        defined = re.findall(r"#define (\w+)", self.code)
        self.assertEqual(len(defined), len(set(defined)))
        limits = [library.MAX_BLOCKS, library.MAX_WIDTH, library.MAX_ROOTS]
        self.assertEqual([int(macros[f"MAX_{name}"]) for name in ("BLOCKS", "WIDTH", "ROOTS")], limits)

    def test_numbers(self) -> None:
        self.assertEqual(self.enum("huwekapo_number"), {number.name: number.value for number in Number})
        self.assertEqual(self.enum("huwekapo_damage"), {kind.name: kind.value for kind in Damage})

    def test_structs(self) -> None:
        for name, struct in [("reply", library.Reply), ("tally", library.Tally), ("run", library.RunSoFar), ("ran", library.Ran), ("reading", library.Reading)]:
            self.assertEqual(self.fields(f"huwekapo_{name}"), [field[0] for field in struct._fields_], name)

    def test_functions(self) -> None:
        kinds = {
            "size_t": "WORD",
            "huwekapo_ref": "ref",
            "uint64_t": "uint64",
            "struct huwekapo_run": "run",
            **{f"{const}{number} *": "pointer" for const in ("", "const ") for number in ("uint8_t", "uint32_t", "uint64_t")},
        }
        declared = {
            library.REF: "ref", library.WORD: "WORD", library.ctypes.c_uint64: "uint64", library.RunSoFar: "run",
            library.ctypes.c_void_p: "pointer",
        }
        # On x86-64 both are the same type of ctypes.
        if library.WORD is library.ctypes.c_uint64:
            kinds["uint64_t"] = declared[library.WORD] = "WORD"
        found = re.findall(r"struct huwekapo_(\w+) huwekapo_(\w+)\((.*?)\);", self.code, flags=re.DOTALL)
        self.assertEqual({name for _, name, _ in found}, {*library.FUNCTIONS, *library.READERS})
        # Every function begins with the same buffers, which a macro names once.
        macro = re.search(r"#define HUWEKAPO_BUFFERS_\([\w, ]*\)(.*?[^\\])\n", self.code, flags=re.DOTALL)
        assert macro
        lent = [argument.split()[-1].lstrip("*") for argument in macro.group(1).replace("\\\n", " ").split(",")]
        names = [buffer.name for buffer in library.BUFFERS]
        self.assertEqual(lent, ["blocks", "width", *(word for name in names for word in (name, f"{name}_length"))])
        lending = re.findall(r"#define (HUWEKAPO_\w+) (?:\\\n +)?HUWEKAPO_BUFFERS_\(", self.code)
        self.assertEqual(len(lending), 6)
        answers = {library.Reply: "reply", library.Ran: "ran", library.Reading: "reading"}
        for answer, name, arguments in found:
            others = arguments.split(",")
            if name in library.FUNCTIONS:
                self.assertIn(others.pop(0).strip(), lending, name)
            expected, answered = library.FUNCTIONS[name] if name in library.FUNCTIONS else library.READERS[name]
            if others[-1:] and others[-1].strip() == "HUWEKAPO_SECOND_BUFFERS":
                # The second heap of a copy is lent as the first is.
                others.pop()
                self.assertEqual(expected, library.LENT)
                expected = []
            words = [re.fullmatch(r"\s*(.*?)(\w+)\s*", argument).groups() for argument in others]  # type: ignore[union-attr]
            rest = [kinds[kind.strip()] for kind, _ in words]
            self.assertEqual(rest, [declared[kind] for kind in expected], name)
            self.assertEqual(answer, answers[answered], name)


if __name__ == "__main__":
    unittest.main()
