#!/usr/bin/env python3
"""Spells the repository's own definitions and lemmas in its pages and scripts as its crates spell them since the port.

usage: python3 tools/respell_docs.py FILE ..

Run once, from the repository's root, after the toolchain's port.py and tools/respell.py. Both kept the order of declarations, so the table of
names is read off: each file of specs/ and proofs/ as it stood before them beside itself as they left it, in the first and the last commit that the
head of docs/PORT.md names. Names are turned between backticks; in a page (.md) also in indented lines, and those in camel case, which no English
word is, wherever they stand. What is cited of a file of code (`name.rt: ..`) keeps its names, and so do edits and the model's tests.
"""
import re
import subprocess
import sys
from pathlib import Path

WORD = r"A-Za-z0-9_'′₀-₉"
NAME = re.compile(rf"(?<![{WORD}/.-])(?:[A-Z][{WORD}]*\.)?[a-z][{WORD}]*(?:-[{WORD}]+)*(?![{WORD}/-])")
DECLARED = re.compile(
    r"^ {0,8}(?:(?:abbrev|unfoldable|opaque|pub|data|record) +)*"
    r"(?P<names>[^\s(){}:,=.;][^\s(){}:,;]*(?: +[^\s(){}:,=;]+)*?) *(?:\([^)]*\)|\{[^}]*\}| )*:(?=\s)",
    re.M,
)
ANSWERS = ("Proof.antt", "Answers.antt", "Invariants.antt")
KEPT = re.compile(r"[\w/]+\.(?:rt|rs|c|h|py)(?::|$)|\w+/must-fail/")
SPAN = re.compile(r"(model tests? )?`([^`\n]+(?:\n[^`\n]+)?)`")
CAMEL = re.compile(rf"(?<![{WORD}/.`-])[a-z][a-z0-9]*[A-Z][{WORD}]*(?![{WORD}`/-])")


def git(*words):
    return subprocess.run(["git", *words], capture_output=True, text=True, check=True).stdout


def declared(commit, path):
    text = "\n".join(line for line in git("show", f"{commit}:{path}").split("\n") if not line.lstrip().startswith("--"))
    return [name for found in DECLARED.finditer(text) for name in found["names"].split()]


def table():
    commits = re.findall(r"\b[0-9a-f]{40}\b", "\n".join(Path("docs/PORT.md").read_text().split("\n")[:4]))
    before, after = commits[0], commits[-1]
    names = {}
    for path in git("ls-tree", "-r", "--name-only", before, "crates").split():
        if path.endswith(".antt") and path.rpartition("/")[2] not in ANSWERS:
            olds, news = declared(before, path), declared(after, path)
            if len(olds) != len(news):
                sys.exit(f"{path}: {len(olds)} names were declared, and now {len(news)}")
            for old, new in zip(olds, news):
                if names.setdefault(old, new) != new:
                    sys.exit(f"{path}: {old} became both {names[old]} and {new}")
    return {old: new for old, new in names.items() if old != new}


def main():
    names = table()

    def turn(text):
        def one(found):
            of, point, name = found[0].rpartition(".")
            return of + point + names.get(name, name)

        return NAME.sub(one, text)

    def span(found):
        if found[1] or KEPT.match(found[2]):
            return found[0]
        return f"`{turn(found[2])}`"

    for file in sys.argv[1:]:
        path = Path(file)
        text = was = path.read_text()
        text = SPAN.sub(span, text)
        if path.suffix == ".md":
            text = re.sub(r"^(?:    .*\n)+", lambda found: turn(found[0]), text, flags=re.M)
            text = CAMEL.sub(lambda found: names.get(found[0], found[0]), text)
        if text != was:
            path.write_text(text)
    print(f"{len(names)} names were turned in the crates")


main()
