#!/usr/bin/env python3
"""Spells the repository's own definitions and lemmas as today's Rattle does: words in snake case, types and modules in camel case.

usage: python3 tools/respell.py [ROOT]

Run once, right after the toolchain's port.py. It gathers the names that files of specs/ and proofs/ declare (but not the answers in the folders of functions), and turns each
camel-case name to snake case and each dash between plain words to `_`, wherever the name stands: in specs/, proofs/, src/ and must-fail/. A name that a file imports from elsewhere
keeps its spelling there. Types (names with a capital first) keep theirs, and a dash beside a capital stays.
"""
import os
import re
import sys
from collections import defaultdict

WORD = r"A-Za-z0-9_'₀-₉"
NAME = re.compile(rf"(?<![{WORD}-])[A-Za-z_][{WORD}]*(?:-[{WORD}]+)*(?![{WORD}-])")
DECLARED = re.compile(rf"^(?P<indent>[ \t]*)(?:(?:abbrev|unfoldable|pub|data|record)\s+)*(?P<names>[a-z][{WORD}-]*(?:\s+[a-z][{WORD}-]*)*)\s*:(?=\s)", re.M)
IMPORT = re.compile(r"^\s*(?:pub )?(?:ghost )?use ([^\s{;]+?)\.?\{([^}]*)\}", re.M | re.S)


# Names in snake case that a definition's new name would meet, with what stands for them in files of specs/ and proofs/.
MOVED = {
    "all_laid": "laid_all",
    "cell_in": "cell_read",
    "count_at": "counted_at",
    "drop_all": "drop_all_lem",
    "is_open": "was_open",
    "map_of": "map_of_lem",
    "none_is": "none_is_lem",
    "read_back": "reads_itself_back",
    "read_number": "read_number_lem",
    "same_memory": "same_memory_lem",
}


def files(root, endings):
    for folder, dirs, names in os.walk(os.path.join(root, "crates")):
        dirs[:] = sorted(d for d in dirs if d != "out")
        for name in sorted(names):
            if name.endswith(endings):
                yield os.path.join(folder, name)


def is_answers(path):
    return os.path.basename(path) in ("Proof.antt", "Answers.antt", "Invariants.antt")


def snake(name):
    """The name as snake case has it, or itself."""
    if not re.match(r"[a-z]", name):
        return name
    parts = name.split("-")
    turned = []
    for part in parts:
        if re.match(r"[a-z]", part):
            while re.search(r"[a-z0-9][A-Z]", part):
                part = re.sub(r"([a-z0-9])([A-Z])", lambda m: m.group(1) + "_" + m.group(2).lower(), part)
            part = re.sub(r"_([A-Z])", lambda m: "_" + m.group(1).lower(), part)
        turned.append(part)
    said = turned[0]
    for before, after in zip(turned, turned[1:]):
        plain = not re.match(r"[A-Z]", before) and not re.match(r"[A-Z]", after)
        said += ("_" if plain else "-") + after
    return said


def declared(root):
    names = defaultdict(set)
    for path in files(root, ".antt"):
        if is_answers(path):
            continue
        with open(path, encoding="utf-8") as f:
            text = f.read()
        text = re.sub(r"^\s*--.*$", "", text, flags=re.M)
        for found in DECLARED.finditer(text):
            # a declaration at the margin, in a section, or a field or a constructor of a type
            if len(found["indent"]) > 8:
                continue
            for name in found["names"].split():
                names[name].add(path)
    return names


def main():
    root = sys.argv[1] if len(sys.argv) > 1 else "."
    names = declared(root)
    turned = {name: snake(name) for name in names if snake(name) != name}
    own = set(names)
    # a lemma that would have the name of a definition here, or of a word of std that its file imports, gets `_lem`
    words = {"bit_and", "cell_read"} | {new for name, new in turned.items() if "-" not in name} | {name for name in own if "-" not in name and name not in turned}
    turned |= {name: new + "_lem" for name, new in turned.items() if "-" in name and new in words}
    moved = {name: new for name, new in MOVED.items() if name in own}
    for path in files(root, (".antt", ".rt", ".edit")):
        with open(path, encoding="utf-8") as f:
            text = f.read()
        foreign = set()
        for module, items in IMPORT.findall(text):
            crate = module.split(".")
            if crate[0] != "Rattle" or not os.path.isdir(os.path.join(root, "crates", crate[1] if len(crate) > 1 else "")):
                foreign |= {item.split(" as ")[0].strip() for item in items.split(",")}
        code = path.endswith(".rt")

        def turn(found):
            name = found.group(0)
            if name in foreign or (code and ("-" in name or name in moved)):
                return name
            return moved.get(name) or turned.get(name, name)

        said = NAME.sub(turn, text)
        if said != text:
            with open(path, "w", encoding="utf-8") as f:
                f.write(said)
    print(f"{len(turned)} names turned")
    fallen = defaultdict(list)
    for name, new in [*turned.items(), *moved.items()]:
        fallen[new].append(name)
    own -= set(moved)
    for new, olds in sorted(fallen.items()):
        if len(olds) > 1 or new in own:
            print(f"look: {', '.join(olds)} -> {new}" + (" (declared already)" if new in own else ""))


main()
