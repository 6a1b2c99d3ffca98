"""The bounds of a heap and the form of a record: the same in every language, and in one place of each."""

from __future__ import annotations

import io
import re
import tokenize
import unittest
from pathlib import Path
from typing import Dict, Iterator, List, Tuple

from huwekapo import library, record, widening

TOP = Path(__file__).resolve().parent.parent.parent

#: Numbers that were bounds before request U12, or are bounds now, and what is as wide as a reference was.
WRITTEN_OUT = re.compile(
    r"(?<![\w.])(?:8_?19[123]|65_?53[567]|40_?960|5_?120|32_?768|131_?072|0x[fF]{4}|1 *<< *16|2 *(?:\*\*|\^) *16)(?!\w)"
    r"|\bu16\b|uint16_t|c_uint16"
)

#: The code that is looked through.
CODE = [
    "include/*.h",
    "examples/*.c",
    "rust/src/*.rs",
    "rust/examples/*.rs",
    "python/huwekapo/*.py",
    "python/backend/*.py",
    "crates/*/src/**/*.rt",
    "crates/*/specs/**/*.antt",
    "crates/*/proofs/**/*.antt",
    # What the model says of the heap and of histories; its vectors, fuzz and benchmarks go through sizes and values on both sides of bounds.
    "model/src/rules/**/*.rs",
    "model/src/history/*.rs",
]

#: The one place of each language, and a value that is none.
PLACES = {
    "include/huwekapo.h": ["#define HUWEKAPO_MAX_BLOCKS 65536"],
    "rust/src/lib.rs": ["pub const MAX_BLOCKS: usize = 65_536;"],
    "python/huwekapo/library.py": ["MAX_BLOCKS = 65536"],
    "crates/types/src/lib.rt": ["pub const MAX_BLOCKS: usize = 65536;"],
    "model/src/rules/heap.rs": ["pub const MAX_BLOCKS: usize = 65_536;"],
    # A value that a cell of 16 bits would have cut to 1.
    "examples/paper.c": ['{"store 65537 in root 0", "store 65537 in cell 0 of 4", 65537},'],
}

#: Files that have such a number which is no bound, and what it is; of the proof of a function, its folder.
NO_BOUNDS = {
    "crates/history_widening/proofs/OldForm.antt": "the weight of a number's third byte",
    "crates/rules/specs/Evidence/HeapCases.antt": "cases on both sides of the bound",
    "crates/rules_calls/specs/Evidence/WrongAnswers.antt": "a wrong figure",
    "crates/section_figures/src/lib.rt": "what stands for a figure that is not known, and in the next four",
    "crates/section_figures/specs/Figures.antt": "",
    "crates/section_extents/specs/Forgotten.antt": "",
    "crates/section_extents/proofs/UnknownFigures.antt": "",
    "crates/section_extents/proofs/forget": "",
    "model/src/history/driver.rs": "the bytes of a pipe's pieces",
    "crates/widen/src/pieces.rt": "the records of a piece",
    "crates/widen/specs/Meaning.antt": "the records of a piece",
}


def code(path: Path) -> str:
    """A file without its comments; of Python, without its long strings too."""
    text = path.read_text()
    if path.suffix in (".c", ".h"):
        text = re.sub(r"/\*.*?\*/", lambda found: "\n" * found.group().count("\n"), text, flags=re.DOTALL)
    if path.suffix == ".py":
        lines = text.splitlines()
        for token in tokenize.generate_tokens(io.StringIO(text).readline):
            if token.type == tokenize.COMMENT or token.type == tokenize.STRING and '"""' in token.string:
                (first, start), (last, end) = token.start, token.end
                for line in range(first, last + 1):
                    before = lines[line - 1][:start] if line == first else ""
                    lines[line - 1] = before + (lines[line - 1][end:] if line == last else "")
        return "\n".join(lines)
    return re.sub(r"--.*" if path.suffix == ".antt" else r"//.*", "", text)


def written_out() -> Iterator[Tuple[str, str]]:
    """Each line that has such a number, behind its file."""
    for pattern in CODE:
        paths = sorted(TOP.glob(pattern))
        assert paths, pattern
        for path in paths:
            for line in code(path).splitlines():
                if WRITTEN_OUT.search(line):
                    of_proof = path.name in ("Answers.antt", "Invariants.antt", "Proof.antt")
                    place = path.parent if of_proof else path
                    yield place.relative_to(TOP).as_posix(), " ".join(line.split())


class Bounds(unittest.TestCase):
    maxDiff = None

    def constants(self, path: str, form: str) -> Dict[str, int]:
        found = re.findall(form, code(TOP / path), flags=re.MULTILINE)
        return {name: int(number.replace("_", "")) for name, number in found}

    def test_one_place(self) -> None:
        found: Dict[str, List[str]] = {}
        for path, line in written_out():
            found.setdefault(path, []).append(line)
        self.assertEqual({path: lines for path, lines in found.items() if path not in NO_BOUNDS}, PLACES)
        # What is named there, and has none any more, is taken out of the list.
        self.assertEqual(sorted(NO_BOUNDS.keys() - found.keys()), [])

    def test_the_same_in_all(self) -> None:
        names = ["MAX_BLOCKS", "MAX_WIDTH", "MAX_ROOTS", "REPORT_BLOCKS", "REPORT_WIDTH", "REPORT_ROOTS"]
        due = {name: getattr(library, name) for name in names}
        in_c = self.constants("include/huwekapo.h", r"^#define HUWEKAPO_(\w+) (\d+)$")
        in_rust = self.constants("rust/src/lib.rs", r"^pub const (\w+): usize = ([\d_]+);$")
        self.assertEqual({name: in_c[name] for name in names}, due)
        self.assertEqual({name: in_rust[name] for name in names}, due)
        self.assertEqual((in_c["MIN_BLOCKS"], in_rust["MAX_SECTION"]), (library.MIN_BLOCKS, library.MAX_SECTION))
        in_code = self.constants("crates/types/src/lib.rt", r"^pub const (\w+): usize = (\d+);$")
        self.assertEqual([in_code[name] for name in names[:3]], [due[name] for name in names[:3]])
        self.assertEqual(in_code["MAX_NUMBER"], library.MAX_NUMBER)
        in_rules = self.constants("crates/rules/specs/Heap.antt", r"^(\w+) = (\d+)$")
        self.assertEqual(library.MIN_BLOCKS * 2 ** in_rules["doublings"], library.MAX_BLOCKS)
        self.assertIn("\nmax_number = 2 ^ 32 - 1\n", code(TOP / "crates/rules/specs/Heap.antt"))
        in_report = self.constants("crates/report_heap/src/lib.rt", r"^pub const (\w+): usize = (\d+);$")
        self.assertEqual([in_report[name] for name in ("BLOCKS", "WIDTH", "ROOTS")], [due[name] for name in names[3:]])

    def test_widths(self) -> None:
        self.assertEqual(library.ctypes.sizeof(library.REF), 4)
        self.assertIn("typedef uint32_t huwekapo_ref;", code(TOP / "include/huwekapo.h"))
        self.assertIn("\npub type Ref = u32;", code(TOP / "rust/src/lib.rs"))
        self.assertIn("\npub type Ref = u32;", code(TOP / "crates/types/src/lib.rt"))

    def test_records(self) -> None:
        header = code(TOP / "include/huwekapo_record.h")
        macros = dict(re.findall(r"^#define HUWEKAPO_RECORD_(\w+) (\d+) *$", header, flags=re.MULTILINE))
        self.assertEqual((int(macros["LENGTH"]), int(macros["CELL"]), int(macros["SIZE"])), (record.RECORD, 4, 8))
        self.assertIn("#define HUWEKAPO_RECORD_MAX_ROOT UINT8_MAX\n#define HUWEKAPO_RECORD_MAX_NUMBER UINT32_MAX\n", header)
        self.assertEqual((record.LARGEST_ROOT, record.LARGEST_NUMBER), (2**8 - 1, 2**32 - 1))
        operations = re.findall(r"HUWEKAPO_RECORD_(\w+) = (\d+)", header)
        self.assertEqual([(name, int(number)) for name, number in operations], [(name, getattr(record, name)) for name, _ in operations])
        self.assertEqual(len(operations), 8)
        self.assertIn(f"pub const LENGTH: usize = {record.RECORD};", code(TOP / "rust/src/record.rs"))
        self.assertEqual(record.Record(1, 2, 3, 0x08070605, 0x0C0B0A09, 4).packed(), bytes(range(1, 13)))
        self.assertEqual(widening.widened(bytes(range(1, 9))), bytes([1, 2, 3, 4, 5, 6, 0, 0, 7, 8, 0, 0]))


if __name__ == "__main__":
    unittest.main()
