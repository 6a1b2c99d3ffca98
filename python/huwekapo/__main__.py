"""The commands: python3 -m huwekapo report, widths, plot, pauses, page, why, same, compact, sweep, verify, compare, example, assemble, words,
show, convert, widen."""

from __future__ import annotations

import argparse
import os
import sys
from contextlib import contextmanager, nullcontext
from typing import BinaryIO, Callable, Dict, Iterable, Iterator, List, Optional, Sequence, Tuple

from . import __version__
from .examples import PROGRAMS
from .files import can_be_written, shown, written
from .heap import Heap
from .history import History
from .library import MAX_BLOCKS, MAX_ROOTS, MAX_WIDTH, MIN_BLOCKS, REPORT_BLOCKS, REPORT_ROOTS, REPORT_WIDTH, LibraryMissing
from .progress import Bar
from .record import RECORD
from .refused import Number, Refused
from .runs import Run
from .widening import ADVICE

# What only one command needs is imported where it is used: `report` should not wait for it.

#: The exit statuses.
ENDED, FAILED, WRONG_USE, STOPPED, INTERRUPTED = 0, 1, 2, 3, 130

STATUSES = """exit status:
  0  all was run to its end; of verify: all is as the table has it; of same: both are of one shape; of compare: no difference
  3  a run stopped: a record was refused, or the file was cut off (the records before it were run)
  1  something failed: a file that can't be read, a line or a row that is not as it must be; of same: the shapes differ; of compare:
     the tables do
  2  wrong use
  130  interrupted
"""

#: Of each command: what may stand behind its name.
EXAMPLES = {
    "report": ["caches.history", "caches.history --blocks 1024 --width 2 --sections", "- --line <caches.history"],
    "widths": ["caches.history", "caches.history --widths 2-4 --blocks 1024,4096", "caches.history --csv >table.csv"],
    "plot": [
        "caches.history -o caches.svg",
        "caches.history --widths 2,3 --columns 1 --no-title -o caches.pdf",
        "table.csv -o collection.svg",
        "caches.history --pauses --blocks 1024 -o pauses.svg",
    ],
    "pauses": ["caches.history --blocks 1024", "caches.history --blocks 1024 --width 2 --budgets 1,10,100,1000 --csv >pauses.csv"],
    "why": ["leak.history 1 --records 100", "leak.history --largest", "leak.history --garbage --blocks 1024"],
    "same": ["caches.history other.history", "caches.history --blocks 1024,4096"],
    "compact": ["caches.history", "images.history --blocks 1024 --width 2"],
    "sweep": ["histories -o table.csv", "histories -o table.csv --widths 1-4 --blocks 1024,4096 --jobs 2"],
    "verify": ["table.csv histories", "table.csv histories --sample 20 --seed 1"],
    "compare": ["before.csv after.csv", "before.csv after.csv --csv >changes.csv"],
    "example": ["caches -o caches.history", "images --records 5000 --seed 2 -o images.history"],
    "assemble": ["own.txt -o own.history", "- -o - <own.txt >own.history"],
    "convert": ["own.events -o own.history", "own.events -o own.history --stack uses --header 2 --leave-out 50000 --table"],
    "page": ["caches.history -o caches.html", "caches.history --blocks 1024 --widths 2,3 -o caches.html"],
    "show": ["own.history --blocks 64 --width 2", "own.history --at 20 --blocks 64"],
    "words": ["own.history", "own.history >own.txt"],
    "widen": ["old.history -o new.history", "- -o - <old.history | huwekapo report -"],
}


#: The sizes of a heap, in words.
BLOCKS_WORDS = f"a power of two from {MIN_BLOCKS} to {MAX_BLOCKS:,}"


def number(word: str) -> int:
    if not (word.isascii() and word.isdigit()):
        raise argparse.ArgumentTypeError(f"{word}: no number")
    return int(word)


def positive(word: str) -> int:
    """A number from 1 on."""
    if number(word) == 0:
        raise argparse.ArgumentTypeError(f"{word}: a number from 1 on")
    return number(word)


def blocks(word: str) -> int:
    found = number(word)
    if not MIN_BLOCKS <= found <= MAX_BLOCKS or found & (found - 1):
        raise argparse.ArgumentTypeError(f"{word}: {BLOCKS_WORDS}")
    return found


def width(word: str) -> int:
    found = number(word)
    if not 1 <= found <= MAX_WIDTH:
        raise argparse.ArgumentTypeError(f"{word}: 1 to {MAX_WIDTH}")
    return found


def roots(word: str) -> int:
    found = number(word)
    if not 1 <= found <= MAX_ROOTS:
        raise argparse.ArgumentTypeError(f"{word}: 1 to {MAX_ROOTS}")
    return found


def several(one: Callable[[str], int]) -> Callable[[str], List[int]]:
    """Numbers parted by commas, each as `one` has it."""

    def numbers(words: str) -> List[int]:
        return list(dict.fromkeys(one(word) for word in words.split(",")))

    return numbers


def pair(one: Callable[[str], int]) -> Callable[[str], Tuple[int, int]]:
    """Two numbers parted by a comma, or one for both, each as `one` has it."""

    def numbers(words: str) -> Tuple[int, int]:
        first, comma, second = words.partition(",")
        return one(first), one(second if comma else first)

    return numbers


def widths(words: str) -> List[int]:
    """Widths parted by commas, ranges among them: `1,3-4`."""
    found: List[int] = []
    for word in words.split(","):
        first, dash, last = word.partition("-")
        found += range(width(first), width(last if dash else first) + 1)
    if not found:
        raise argparse.ArgumentTypeError(f"{words}: no width")
    return list(dict.fromkeys(found))


def words_of_a_header(word: str) -> int:
    if number(word) > 16:
        raise argparse.ArgumentTypeError(f"{word}: 0 to 16 words")
    return number(word)


def class_names(words: str) -> List[str]:
    found = [word.strip() for word in words.split(",")]
    if not all(found):
        raise argparse.ArgumentTypeError(f"{words!r}: patterns of names, as own.*, parted by commas")
    return found


def pattern(word: str) -> str:
    if not word.strip("/."):
        raise argparse.ArgumentTypeError(f"{word!r}: the pattern of a file's name, as *.history")
    return word


def arguments() -> argparse.ArgumentParser:
    # As it was called: by the command that an installed package has, or as a module.
    prog = "huwekapo" if os.path.basename(sys.argv[0]) == "huwekapo" else "python3 -m huwekapo"
    parser = argparse.ArgumentParser(
        prog=prog,
        description="Runs recorded histories on a proved heap. `COMMAND --help` has what a command takes, with examples.",
        epilog=STATUSES,
        formatter_class=argparse.RawDescriptionHelpFormatter,
    )
    parser.add_argument("--version", action="version", version=f"huwekapo {__version__}")
    commands = parser.add_subparsers(dest="command", required=True, metavar="COMMAND")

    def command(name: str, act: Callable[[argparse.Namespace], int], words: str) -> argparse.ArgumentParser:
        examples = "".join(f"  {prog} {name} {example}\n" for example in EXAMPLES[name])
        made = commands.add_parser(
            name,
            help=words,
            description=words,
            epilog=f"examples:\n{examples}\n{STATUSES}",
            formatter_class=argparse.RawDescriptionHelpFormatter,
        )
        made.set_defaults(act=act)
        return made

    def history(made: argparse.ArgumentParser) -> None:
        made.add_argument("file", metavar="FILE", help="a history; - is standard input")

    def shape(made: argparse.ArgumentParser, many_blocks: bool, many_widths: bool) -> None:
        words = f"blocks of the heap, {BLOCKS_WORDS} ({REPORT_BLOCKS})"
        if many_blocks:
            made.add_argument("--blocks", type=several(blocks), default=[REPORT_BLOCKS], metavar="N,..", help=words)
        else:
            made.add_argument("--blocks", type=blocks, default=REPORT_BLOCKS, metavar="N", help=words)
        if many_widths:
            made.add_argument("--widths", type=widths, default=[1, 2, 3, 4], metavar="W,..", help="count widths (1-4)")
        else:
            words = f"count width, 1 to {MAX_WIDTH} bits ({REPORT_WIDTH})"
            made.add_argument("--width", type=width, default=REPORT_WIDTH, metavar="W", help=words)
        words = f"number of roots, 1 to {MAX_ROOTS} ({REPORT_ROOTS})"
        made.add_argument("--roots", type=roots, default=REPORT_ROOTS, metavar="R", help=words)

    def form(made: argparse.ArgumentParser) -> "argparse._MutuallyExclusiveGroup":
        forms = made.add_mutually_exclusive_group()
        forms.add_argument("--csv", action="store_true", help="comma-separated, with all figures")
        forms.add_argument("--json", action="store_true", help="the same as JSON")
        return forms

    def processes(made: argparse.ArgumentParser) -> None:
        words = "processes on this machine (one for each processor)"
        made.add_argument("--jobs", type=positive, default=os.cpu_count() or 1, metavar="N", help=words)
        made.add_argument("--pattern", type=pattern, default="*.history", help="the names of the histories (*.history)")

    made = command("report", _report, "The figures of a history: the line that the program `report` prints, and the figures named.")
    history(made)
    shape(made, False, False)
    form(made).add_argument("--line", action="store_true", help="the line without the figures named")
    made.add_argument("--sections", action="store_true", help="also a table of the largest free chunk in each 256 blocks at the end")

    made = command("widths", _widths, "A table of a history by count width and size of heap.")
    history(made)
    shape(made, True, True)
    form(made)

    made = command(
        "plot",
        _plot,
        "A picture of the blocks in use over the records of a history, for each count width; or, of a sweep's table, of its figures by width "
        "with their quartiles.",
    )
    made.add_argument("file", metavar="FILE", help="a history, - is standard input; or a table, whose name ends with .csv")
    words = "instead the pauses of collections, at once and in steps, as the command `pauses` measures them; for one width"
    made.add_argument("--pauses", action="store_true", help=words)
    made.add_argument("--budgets", type=several(positive), default=[1, 10, 100], metavar="STEPS,..", help="steps a call, of pauses (1,10,100)")
    words = "the picture to write: its ending says which kind (.svg, .pdf, .png)"
    made.add_argument("-o", "--output", required=True, metavar="FIGURE", help=words)
    shape(made, False, True)
    made.add_argument("--step", type=positive, metavar="RECORDS", help="records from one sample to the next (a 400th of the run)")
    made.add_argument("--columns", type=int, choices=[1, 2], default=2, help="as wide as one column of a journal, or two (2)")
    titles = made.add_mutually_exclusive_group()
    titles.add_argument("--title", help="the title (the file's name)")
    titles.add_argument("--no-title", action="store_true", help="no title")

    made = command(
        "pauses",
        _pauses,
        "How long a program has to wait where its history's run collects: for a full collection, and for one in small steps.",
    )
    history(made)
    shape(made, False, False)
    made.add_argument("--budgets", type=several(positive), default=[1, 10, 100], metavar="STEPS,..", help="steps a call (1,10,100)")
    made.add_argument("--moments", type=positive, default=20, metavar="N", help="the collections that are measured at most (20)")
    made.add_argument("--csv", action="store_true", help="comma-separated, with every moment")

    made = command(
        "page",
        _page,
        "A page to look at in a browser: the map of the heap over the records of a history, for each count width, with what keeps an object. "
        "It is one file, and fetches nothing.",
    )
    history(made)
    made.add_argument("-o", "--output", required=True, metavar="PAGE", help="the page to write, as own.html; - is standard output")
    shape(made, False, True)
    made.add_argument("--title", help="the title (the file's name)")

    made = command("why", _why, "Why an object of a history is kept, as a sentence; of garbage, what holds it.")
    history(made)
    objects = made.add_mutually_exclusive_group(required=True)
    objects.add_argument("block", type=number, nargs="?", metavar="BLOCK", help="the object that starts at this block")
    objects.add_argument("--largest", action="store_true", help="the largest object, of several the one at the lowest block")
    objects.add_argument("--garbage", action="store_true", help="the largest object that no root reaches")
    shape(made, False, False)
    made.add_argument("--records", type=positive, metavar="N", help="after so many records (after all)")

    made = command("same", _same, "Whether two histories, or one on two heaps, end in one shape, and where they first part.")
    history(made)
    made.add_argument("second", metavar="SECOND", nargs="?", help="the other history (the same one)")
    words = "of the heap of each, parted by a comma, or one for both"
    made.add_argument("--blocks", type=pair(blocks), default=(REPORT_BLOCKS, REPORT_BLOCKS), metavar="N,M", help=f"blocks {words}")
    made.add_argument("--width", type=pair(width), default=(REPORT_WIDTH, REPORT_WIDTH), metavar="W,V", help=f"count width {words}")
    made.add_argument("--roots", type=pair(roots), default=(REPORT_ROOTS, REPORT_ROOTS), metavar="R,S", help=f"number of roots {words}")

    made = command("compact", _compact, "What a copy of the heap behind a history would gain: its largest free chunk before and after.")
    history(made)
    shape(made, False, False)
    made.add_argument("--records", type=positive, metavar="N", help="after so many records (after all)")

    made = command("sweep", _sweep, "A table of a whole collection of histories. A sweep that was stopped goes on where it stopped.")
    made.add_argument("folder", metavar="FOLDER", help="the folder of the histories, with those below it")
    made.add_argument("-o", "--output", required=True, metavar="TABLE", help="the comma-separated table to write")
    shape(made, True, True)
    processes(made)
    made.add_argument("--dask", metavar="ADDRESS", help="run on the Dask cluster whose scheduler is at this address instead")
    made.add_argument("--prune", action="store_true", help="take out rows of histories that are not there any more")

    made = command("verify", _verify, "Runs the rows of a sweep's table again, and says what differs.")
    made.add_argument("table", metavar="TABLE", help="the table of a sweep")
    made.add_argument("folder", metavar="FOLDER", help="the folder of its histories")
    made.add_argument("--sample", type=positive, metavar="K", help="run so many rows again, and not all")
    made.add_argument("--seed", type=number, metavar="S", help="which rows these are (another number each time)")
    words = "hold rows of its shape against this program `report` (the one beside the library, or of the clone)"
    made.add_argument("--report", metavar="PROGRAM", help=words)
    processes(made)

    made = command("compare", _compare, "What changed between two tables of one collection of histories, row by row.")
    made.add_argument("first", metavar="TABLE", help="the table of a sweep")
    made.add_argument("second", metavar="OTHER", help="the one that it is compared with")
    made.add_argument("--csv", action="store_true", help="every change, comma-separated")

    made = command("example", _example, "A history as a small Java program might leave it.")
    made.add_argument("name", choices=PROGRAMS, metavar="NAME", help=", ".join(PROGRAMS))
    made.add_argument("--records", type=positive, default=100_000, metavar="N", help="its length (100000)")
    made.add_argument("--seed", type=int, default=1, help="the seed (1)")
    made.add_argument("-o", "--output", required=True, metavar="FILE", help="the file to write; - is standard output")

    made = command("assemble", _assemble, "A history from its text, one record a line, in the words of docs/FILES.md.")
    made.add_argument("text", metavar="TEXT", help="the text; - is standard input")
    made.add_argument("-o", "--output", required=True, metavar="HISTORY", help="the history to write; - is standard output")

    made = command("words", _words, "The text of a history, one record a line, on standard output. `assemble` makes the same history of it.")
    history(made)

    made = command("show", _show, "The map of a heap behind a history, or behind its first records: objects by letters, and free chunks.")
    history(made)
    made.add_argument("--at", type=number, metavar="K", help="behind the first K records (behind all)")
    shape(made, False, False)

    made = command(
        "convert", _convert, "A history from a trace of a real program: a text of events, as docs/FILES.md states it. Says what it did."
    )
    made.add_argument("events", metavar="EVENTS", help="the events; a name that ends with .gz is of a packed file")
    made.add_argument("-o", "--output", required=True, metavar="HISTORY", help="the history to write; - is standard output")
    words = "whether each local variable is a reference, or only what is used later and nothing else holds (slots)"
    made.add_argument("--stack", choices=["slots", "uses"], default="slots", help=words)
    words = "words of 4 bytes in front of an object's fields; an array has one more (1)"
    made.add_argument("--header", type=words_of_a_header, default=1, metavar="WORDS", help=words)
    words = "leave out arrays of numbers of more bytes: tables that a device has in its ROM, say"
    made.add_argument("--leave-out", type=number, metavar="BYTES", help=words)
    words = "only objects whose class has such a name, as own.*; several are parted by commas"
    made.add_argument("--classes", type=class_names, metavar="PATTERN", help=words)
    words = "replay events and records apart, and compare them, before anything is written (where there are at most 100,000 events)"
    made.add_argument("--check", action=argparse.BooleanOptionalAction, help=words)
    made.add_argument("--table", action="store_true", help="also a table by count width, with both rules side by side")
    words = f"blocks of the table's heap, {BLOCKS_WORDS} ({REPORT_BLOCKS})"
    made.add_argument("--blocks", type=blocks, default=REPORT_BLOCKS, metavar="N", help=words)

    made = command(
        "widen",
        _widen,
        "A history of today from an old one, whose records have eight bytes: record by record, whatever they are; the end of a file that is "
        "cut off is copied. The proved program `widen` does the same.",
    )
    made.add_argument("old", metavar="OLD", help="the old history; - is standard input")
    made.add_argument("-o", "--output", required=True, metavar="HISTORY", help="the history to write; - is standard output")
    return parser


@contextmanager
def _history(name: str, again: bool = False) -> Iterator[History]:
    """The history that was named. Standard input that is to be run again is kept in a file for the time."""
    if name != "-":
        yield History(name)
        return
    if sys.stdin is None:
        raise OSError("standard input is closed")
    given = sys.stdin.buffer
    if not again or given.seekable():
        yield History(given)
        return
    import shutil
    import tempfile

    with tempfile.TemporaryFile() as kept:
        shutil.copyfileobj(given, kept)
        kept.seek(0)
        yield History(kept)


def _report(chosen: argparse.Namespace) -> int:
    _needs_output()
    heap = Heap(chosen.blocks, chosen.width, chosen.roots)
    with _history(chosen.file) as history, Bar("records", history.size()) as bar:
        found = history.run(heap, bar.done, may_stop=True)
    _advise(history, found, chosen.blocks, chosen.width, chosen.roots)
    status = STOPPED if found.stopped else ENDED
    if chosen.csv or chosen.json:
        from .measures import Measured
        from .unreached import garbage, kinds
        from .widths import write_csv, write_json

        write = write_csv if chosen.csv else write_json
        measured = Measured(chosen.blocks, chosen.width, chosen.roots, found, garbage(heap), kinds(heap))
        write([measured], sys.stdout)
        return status
    sys.stdout.write(found.line())
    if not chosen.line:
        from .measures import FIGURE_WORDS, GARBAGE_WORDS, KIND_WORDS
        from .unreached import garbage, kinds

        if found.stopped:
            print(f"{found.number}: {found.stop_in_words()}. The records before it:")
        held, by_kind = garbage(heap)._asdict(), kinds(heap)._asdict()
        named = [(FIGURE_WORDS[name], figure) for name, figure in found.figures._asdict().items()]
        named += [(KIND_WORDS[name], part.blocks) for name, part in by_kind.items()]
        named += [(f"{GARBAGE_WORDS[name]}, in blocks", part.blocks) for name, part in held.items()]
        for words, figure in named:
            print(f"  {words:<46}{figure:>15,}")
    if chosen.sections:
        from .sections import text

        sys.stdout.write(text(heap))
    return status


def _widths(chosen: argparse.Namespace) -> int:
    from .measures import summary
    from .widths import text, widths, write_csv, write_json

    _needs_output()
    with _history(chosen.file, again=True) as history:
        total = (history.size() or 0) * len(chosen.blocks) * len(chosen.widths)
        with Bar("records", total) as bar:
            measures = list(widths(history, chosen.blocks, chosen.widths, chosen.roots, bar.done))
        name = history.name
    if chosen.csv:
        write_csv(measures, sys.stdout)
    elif chosen.json:
        write_json(measures, sys.stdout)
    else:
        sys.stdout.write(text(measures))
    if not any(measured.run.stopped for measured in measures):
        return ENDED
    _say(summary((name, measured.run.number) for measured in measures))
    _advise(history, measures[0].run, measures[0].blocks, measures[0].width, chosen.roots)
    return STOPPED


def _plot(chosen: argparse.Namespace) -> int:
    from .plot import MatplotlibMissing, course, kind, pictures, plot

    try:
        kind(chosen.output)
    except ValueError as error:
        return _failed(error, WRONG_USE)
    try:
        pictures()
    except MatplotlibMissing as error:
        return _failed(error)
    can_be_written(chosen.output)
    if chosen.pauses:
        return _plot_pauses(chosen)
    if chosen.file.endswith(".csv"):
        return _plot_table(chosen)
    with _history(chosen.file, again=True) as history:
        size = history.size() or 0
        courses = []
        with Bar("records", size * len(chosen.widths)) as bar:
            for done, width in enumerate(chosen.widths):
                before = done * size
                courses.append(course(history, chosen.blocks, width, chosen.roots, chosen.step, lambda part: bar.done(before + part)))
        title = None if chosen.no_title else chosen.title or os.path.basename(history.name)
        plot(courses, chosen.blocks, title, chosen.output, chosen.columns)
        name = shown(history.name)
    for one in courses:
        if one.run.stopped:
            _say([f"{name}, width {one.width}: {one.run.stop()}: {one.run.stop_in_words()}: the picture ends there"])
    _advise(history, courses[0].run, chosen.blocks, courses[0].width, chosen.roots)
    if all(one.run.records == 0 for one in courses):
        _say([f"{name}: no record was run: the picture is empty, and says so"])
    return STOPPED if any(one.run.stopped for one in courses) else ENDED


def _plot_table(chosen: argparse.Namespace) -> int:
    from .collection import groups, plot, text
    from .sweep import SweepError

    try:
        with Bar("rows", None) as bar:
            found = groups(chosen.file, bar.done_of)
    except SweepError as error:
        return _failed(error)
    title = None if chosen.no_title else chosen.title or os.path.basename(chosen.file)
    plot(found, title, chosen.output, chosen.columns)
    if sys.stdout is not None:
        sys.stdout.write(text(found))
    return ENDED


def _plot_pauses(chosen: argparse.Namespace) -> int:
    from .pauses import pauses, plot, text

    if len(chosen.widths) != 1:
        # Where none is chosen, that of the program `report`.
        chosen.widths = [REPORT_WIDTH] if chosen.widths == [1, 2, 3, 4] else chosen.widths
    if len(chosen.widths) != 1:
        return _failed(ValueError("--pauses: of one width, as --widths 2"), WRONG_USE)
    with _history(chosen.file, again=True) as history, Bar("records", history.size()) as bar:
        found = pauses(history, chosen.blocks, chosen.widths[0], chosen.roots, chosen.budgets, progress=bar.done)
        title = None if chosen.no_title else chosen.title or os.path.basename(history.name)
    if not found.moments:
        return _failed(ValueError(f"{shown(history.name)}: no record was run: there is nothing to draw"))
    plot(found, title, chosen.output, chosen.columns)
    if sys.stdout is not None:
        sys.stdout.write(text(found))
    return _paused(history, found.run, chosen.blocks, chosen.widths[0], chosen.roots)


def _pauses(chosen: argparse.Namespace) -> int:
    from .pauses import pauses, text, write_csv

    _needs_output()
    with _history(chosen.file, again=True) as history, Bar("records", history.size()) as bar:
        found = pauses(history, chosen.blocks, chosen.width, chosen.roots, chosen.budgets, chosen.moments, bar.done)
    if chosen.csv:
        write_csv(found, sys.stdout)
    else:
        sys.stdout.write(_printable(text(found)))
    return _paused(history, found.run, chosen.blocks, chosen.width, chosen.roots)


def _paused(history: History, run: Run, *sizes: int) -> int:
    if not run.stopped:
        return ENDED
    _say([f"{shown(history.name)}: {run.stop()}: {run.stop_in_words()}: these are the pauses before it"])
    _advise(history, run, *sizes)
    return STOPPED


def _page(chosen: argparse.Namespace) -> int:
    from .page import page

    _output_is_there(chosen.output)
    with _history(chosen.file, again=True) as history:
        size = history.size() or 0
        with Bar("records", size * len(chosen.widths)) as bar:
            title = chosen.title or os.path.basename(history.name)
            text, runs = page(history, chosen.blocks, chosen.widths, chosen.roots, title, bar.done)
        name = shown(history.name)
    with _output(chosen.output) as file:
        file.write(text.encode())
    for width, run in zip(chosen.widths, runs):
        if run.stopped:
            _say([f"{name}, width {width}: {run.stop()}: {run.stop_in_words()}: the page ends there"])
    _advise(history, runs[0], chosen.blocks, chosen.widths[0], chosen.roots)
    return STOPPED if any(run.stopped for run in runs) else ENDED


def _why(chosen: argparse.Namespace) -> int:
    from .reasons import holds
    from .unreached import Unreached, data, objects

    _needs_output()
    heap = Heap(chosen.blocks, chosen.width, chosen.roots)
    with _history(chosen.file) as history, Bar("records", history.size()) as bar:
        run = history.run_to(heap, chosen.records, bar.done)
    if run.stopped:
        _say([f"{shown(history.name)}: {run.stop()}: {run.stop_in_words()}: this is the heap before it"])
        _advise(history, run, chosen.blocks, chosen.width, chosen.roots)
    sizes = objects(heap)
    at = chosen.block
    if at is None:
        some = Unreached(heap).objects if chosen.garbage else sizes.keys()
        if not some:
            return _failed(ValueError(f"no object {'of garbage ' if chosen.garbage else ''}is there"))
        at = min(some, key=lambda first: (-sizes[first], first))
    sys.stdout.write(heap.reason(at))
    found = heap.look(at)
    kind = "block" if found.size == 1 else "blocks"
    kind += " of data" if at in data(heap) else ""
    print(f"  {found.size:,} {kind}, count {found.count} of at most {heap.capacity}")
    for words in holds(heap, at):
        print(f"  {words}")
    return STOPPED if run.stopped else ENDED


def _same(chosen: argparse.Namespace) -> int:
    from .shapes import objects_of, parting

    _needs_output()
    if chosen.second == chosen.file == "-":
        return _failed(ValueError("both histories can't be standard input"), WRONG_USE)
    shapes, stopped = [], False
    with _history(chosen.file, again=chosen.second is None) as first:
        with _history(chosen.second) if chosen.second is not None else nullcontext(first) as second:
            for history, *sizes in zip((first, second), chosen.blocks, chosen.width, chosen.roots):
                heap = Heap(*sizes)
                with Bar("records", history.size()) as bar:
                    run = history.run(heap, bar.done, may_stop=True)
                if run.stopped:
                    _say([f"{shown(history.name)}: {run.stop()}: {run.stop_in_words()}: held is the heap before it"])
                    _advise(history, run, *sizes)
                stopped = stopped or run.stopped
                shapes.append(heap.shape())
    where = parting(*shapes)
    if where is None:
        objects = objects_of(shapes[0])
        print(f"one shape: {objects:,} object{'' if objects == 1 else 's'}")
    else:
        print(f"two shapes, which first part at {where}")
    if stopped:
        return STOPPED
    return ENDED if where is None else FAILED


def _compact(chosen: argparse.Namespace) -> int:
    from .compact import compact, lets_go_on

    _needs_output()
    heap = Heap(chosen.blocks, chosen.width, chosen.roots)
    with _history(chosen.file, again=True) as history:
        with Bar("records", history.size()) as bar:
            run = history.run_to(heap, chosen.records, bar.done)
        gain = compact(heap)
        print(f"blocks in use:       {gain.used_before:,}; after a copy {gain.used_after:,}")
        print(f"largest free chunk:  {gain.chunk_before:,} blocks; after a copy {gain.chunk_after:,}")
        if not run.stopped:
            return ENDED
        _say([f"{shown(history.name)}: {run.stop()}: {run.stop_in_words()}: this is the heap before it"])
        _advise(history, run, chosen.blocks, chosen.width, chosen.roots)
        if run.number == Number.NO_CHUNK:
            words = "would have let it go on" if lets_go_on(heap, history, run.records) else "would not have let it go on"
            print(f"{run.stop()}: a copy at that point {words}")
    return STOPPED


def _sweep(chosen: argparse.Namespace) -> int:
    from .measures import summary
    from .sweep import SweepError, standing, sweep

    goes_on = "the same command goes on from there"
    try:
        with Bar("rows", None) as bar:
            swept = sweep(
                chosen.folder,
                chosen.output,
                chosen.widths,
                chosen.blocks,
                chosen.roots,
                chosen.pattern,
                chosen.jobs,
                chosen.dask,
                bar.done_of,
                chosen.prune,
            )
    except SweepError as error:
        if error.__cause__ is not None:
            _say([f"{shown(chosen.output)}: {standing(chosen.output)} rows stand; {goes_on}"])
        return _failed(error)
    except KeyboardInterrupt:
        _say([f"interrupted: {shown(chosen.output)}: {standing(chosen.output)} rows stand; {goes_on}"])
        return INTERRUPTED
    said = [f"{shown(chosen.output)}: {swept.kept + swept.run} rows, {swept.run} of them run now"]
    if swept.anew:
        said.append(f"{swept.anew} rows that stood were of other bytes of their history or of another library, and were run anew")
    if swept.pruned:
        said.append(f"{swept.pruned} rows of histories that are not there any more were taken out")
    said += summary(swept.runs)
    said += [f"{shown(name)}: {ADVICE}" for name in swept.old]
    _say(said + [f"not run: {failure}" for failure in swept.failures])
    if swept.failures:
        return FAILED
    return STOPPED if any(number for _, number in swept.runs) else ENDED


def _verify(chosen: argparse.Namespace) -> int:
    from random import SystemRandom

    from .sweep import SweepError
    from .verify import report_program, verify

    _needs_output()
    seed = SystemRandom().randrange(10**9) if chosen.seed is None else chosen.seed
    report = chosen.report or report_program()
    try:
        if report is not None and not os.access(report, os.X_OK):
            raise SweepError(f"{shown(report)}: no program report")
        with Bar("rows", None) as bar:
            found = verify(
                chosen.table, chosen.folder, chosen.sample, seed, chosen.pattern, chosen.jobs, report, bar.done_of
            )
    except SweepError as error:
        return _failed(error)
    for difference in found.differences:
        print(_printable(difference))
    sampled = f", taken by seed {seed}" if chosen.sample is not None else ""
    print(f"{found.run:,} of {found.rows:,} rows were run again{sampled}", end="")
    print(f", {found.by_report:,} of them also by the program report" if report is not None else "")
    if report is None:
        print("no row was held against the program report, which was not found (`bash build.sh report` builds it)")
    if found.other_library:
        print(f"{found.other_library:,} rows are of another library than this one")
    differences = len(found.differences)
    print(f"{differences:,} difference{'' if differences == 1 else 's'}" if differences else "no difference")
    return FAILED if found.differences else ENDED


def _compare(chosen: argparse.Namespace) -> int:
    from .compare import compare, text
    from .sweep import SweepError

    _needs_output()
    try:
        with Bar("rows", None) as bar:
            found = compare(chosen.first, chosen.second, bar.done_of)
    except SweepError as error:
        return _failed(error)
    if chosen.csv:
        import csv

        writer = csv.writer(sys.stdout, lineterminator="\n")
        writer.writerow(["history", "heap_blocks", "count_width", "roots", "column", "first", "second"])
        for change in found.changes:
            writer.writerow([_printable(str(word)) for word in (*change.task, *change[1:])])
    else:
        sys.stdout.write(_printable(text(found, (chosen.first, chosen.second))))
    return FAILED if found.differ else ENDED


def _example(chosen: argparse.Namespace) -> int:
    from .examples import example

    _output_is_there(chosen.output)
    with Bar("records", RECORD * chosen.records) as bar:
        history = example(chosen.name, chosen.records, chosen.seed, bar.done)
    with _output(chosen.output) as file:
        file.write(history)
    return ENDED


def _assemble(chosen: argparse.Namespace) -> int:
    from .words import TextError, assemble

    _output_is_there(chosen.output)
    size = os.path.getsize(chosen.text) if os.path.isfile(chosen.text) else None
    with _input(chosen.text) as text, _output(chosen.output) as file, Bar("bytes", size) as bar:
        try:
            for record in assemble(_told(text, bar)):
                file.write(record)
        except TextError as error:
            raise _Wrong(f"{_named(chosen.text)}: {error}") from error
    return ENDED


def _words(chosen: argparse.Namespace) -> int:
    from .words import words

    _needs_output()
    with _history(chosen.file) as history, Bar("records", history.size()) as bar:
        for number, line in enumerate(words(history)):
            sys.stdout.write(line)
            # Where the lines themselves are seen, no bar is.
            if number % 1024 == 0 and not sys.stdout.isatty():
                bar.done(RECORD * number)
    return ENDED


def _told(text: Iterable[bytes], bar: Bar) -> Iterator[bytes]:
    """The lines of a text, of which a bar is told."""
    done = 0
    for number, line in enumerate(text):
        done += len(line)
        if number % 1024 == 0:
            bar.done(done)
        yield line


def _convert(chosen: argparse.Namespace) -> int:
    import zlib

    from .conversion import side_by_side, text
    from .convert import RULES, CantBeKept, Converted, convert
    from .events import opened, trace
    from .kept import SMALL, Checked, NotKept, check
    from .words import TextError

    _output_is_there(chosen.output)
    name = shown(chosen.events)
    if os.path.exists(chosen.events) and not os.path.isfile(chosen.events):
        raise _Wrong(f"{name}: is no regular file; events are read twice, to be checked")
    try:
        packed = chosen.events.endswith(".gz")
        with Bar("bytes read", None if packed else os.path.getsize(chosen.events)) as bar, opened(chosen.events) as file:
            found = trace(iter(file), chosen.header, chosen.leave_out, chosen.classes, bar.done)
        if not len(found):
            raise _Wrong(f"{name}: there is no event in it")
        made: Dict[str, Converted] = {}
        for rule in RULES:
            if rule == chosen.stack or chosen.table:
                with Bar(f"events, rule {rule}", len(found)) as bar:
                    made[rule] = convert(found, rule, bar.done)
        checked: Optional[Checked] = None
        if chosen.check or chosen.check is None and len(found) <= SMALL:
            for rule, one in made.items():
                with Bar(f"events compared, rule {rule}", len(found)) as bar, opened(chosen.events) as file:
                    checked = check(file, one, rule, chosen.header, chosen.leave_out, chosen.classes, progress=bar.done)
    except (TextError, CantBeKept) as error:
        raise _Wrong(f"{name}: {error}") from error
    except NotKept as error:
        raise _Wrong(f"{name}: the conversion is wrong, and no history is written: {error}") from error
    except (EOFError, zlib.error) as error:
        raise _Wrong(f"{name}: can't be unpacked: {error}") from error
    with _output(chosen.output) as history:
        history.write(made[chosen.stack].history)
    with Bar("records counted", len(made[chosen.stack].history)) as bar:
        said = text(found, made[chosen.stack], chosen.stack, chosen.leave_out, chosen.classes, checked, bar.done)
    status = ENDED
    if chosen.table:
        from .widths import text as table_text
        from .widths import widths as by_width

        runs = {}
        for rule, one in made.items():
            with Bar(f"records run, rule {rule}", 4 * len(one.history)) as bar:
                runs[rule] = list(by_width(one.history, [chosen.blocks], [1, 2, 3, 4], REPORT_ROOTS, bar.done))
        tables = side_by_side({rule: table_text(measures) for rule, measures in runs.items()})
        said += "\nboth rules by count width\n" + "".join(f"  {line}\n" for line in tables.splitlines())
        if any(measured.run.stopped for measures in runs.values() for measured in measures):
            status = STOPPED
    if chosen.output == "-":
        _say(said.splitlines())
    else:
        sys.stdout.write(_printable(said))
    return status


def _show(chosen: argparse.Namespace) -> int:
    from .show import text

    _needs_output()
    heap = Heap(chosen.blocks, chosen.width, chosen.roots)
    with _history(chosen.file) as history, Bar("records", history.size()) as bar:
        found = history.run_to(heap, chosen.at, bar.done)
        name = _named(chosen.file)
    if chosen.at is not None and found.records < chosen.at and not found.stopped:
        raise _Wrong(f"{name}: has {found.records:,} records, and not {chosen.at:,}")
    print(f"behind {found.records:,} record{'' if found.records == 1 else 's'}" + (f": {found.stop()}" if found.stopped else ""))
    sys.stdout.write(text(heap))
    if found.stopped:
        _say([f"{name}: {found.stop()}: {found.stop_in_words()}"])
        _advise(history, found, chosen.blocks, chosen.width, chosen.roots)
    return STOPPED if found.stopped else ENDED


def _widen(chosen: argparse.Namespace) -> int:
    from .widening import widen

    _output_is_there(chosen.output)
    size = os.path.getsize(chosen.old) if os.path.isfile(chosen.old) else None
    with _input(chosen.old) as old, _streamed(chosen.output) as new, Bar("bytes", size) as bar:
        widen(old, new, bar.done)
    return ENDED


class _Wrong(Exception):
    """What is wrong with a file, in words: nothing is written then."""


def _named(name: str) -> str:
    """A file's name for reading."""
    return "standard input" if name == "-" else shown(name)


@contextmanager
def _input(name: str) -> Iterator[BinaryIO]:
    """The file of that name; - is standard input."""
    if name != "-":
        with open(name, "rb") as file:
            yield file
        return
    if sys.stdin is None:
        raise OSError("standard input is closed")
    yield sys.stdin.buffer


def _output_is_there(name: str) -> None:
    """Raises the OSError that writing would end with, before anything is done."""
    if name == "-":
        _needs_output()
    else:
        can_be_written(name)


@contextmanager
def _output(name: str) -> Iterator[BinaryIO]:
    """A file of that name to write, whole or not at all; - is standard output, which gets all at the end."""
    if name != "-":
        with written(name) as file:
            yield file
        return
    import io

    kept = io.BytesIO()
    yield kept
    sys.stdout.buffer.write(kept.getbuffer())


@contextmanager
def _streamed(name: str) -> Iterator[BinaryIO]:
    """The same, but that standard output gets all as it comes."""
    if name == "-":
        yield sys.stdout.buffer
        return
    with written(name) as file:
        yield file


def _needs_output() -> None:
    """Python has no standard output where it was closed."""
    if sys.stdout is None:
        raise OSError("standard output is closed")


def _printable(words: str) -> str:
    """What standard output can show, whatever its encoding."""
    encoding = sys.stdout.encoding or "ascii"
    return words.encode(encoding, "backslashreplace").decode(encoding)


def _say(lines: Iterable[str]) -> None:
    """To standard error, where there is one: print would take standard output instead."""
    if sys.stderr is not None:
        for line in lines:
            print(line, file=sys.stderr)


def _advise(history: History, run: Run, *sizes: int) -> None:
    """Says of a history whose run on a heap of these blocks, this width and so many roots stopped what may be done."""
    advice = history.advice(run, *sizes)
    if advice:
        _say([f"{shown(history.name)}: {advice}"])


def _failed(error: Exception, status: int = FAILED) -> int:
    words = str(error)
    if isinstance(error, OSError) and error.filename is not None and not isinstance(error, LibraryMissing):
        words = f"{shown(str(error.filename))}: {error.strerror}"
    _say([f"huwekapo: {words}"])
    return status


def _no_more_output() -> None:
    """Python would complain once more at its end of what can't be written."""
    if sys.stdout is not None:
        try:
            os.dup2(os.open(os.devnull, os.O_WRONLY), sys.stdout.fileno())
        except (OSError, ValueError):
            pass


def main(words: Optional[Sequence[str]] = None) -> int:
    chosen = arguments().parse_args(words)
    try:
        status = chosen.act(chosen)
        if sys.stdout is not None:
            sys.stdout.flush()
        return int(status)
    except BrokenPipeError:
        # Nobody reads on.
        _no_more_output()
        return FAILED
    except Refused as refused:
        _say([f"huwekapo: refused {refused}"])
        return WRONG_USE
    except _Wrong as error:
        return _failed(error)
    except OSError as error:
        _no_more_output()
        return _failed(error)
    except MemoryError:
        _say(["huwekapo: there is not memory enough"])
        return FAILED
    except KeyboardInterrupt:
        return INTERRUPTED


if __name__ == "__main__":
    sys.exit(main())
