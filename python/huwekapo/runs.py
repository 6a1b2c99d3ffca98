"""Where a run of records stands."""

from __future__ import annotations

from typing import NamedTuple

from . import library
from .library import Figures
from .refused import stop_in_words


class Run(NamedTuple):
    """A run of records so far, or at its end. A new run is `Run()`."""

    #: 0, or the number that stopped the run
    number: int = 0
    #: the records that were run; so the number, from 0, of the one that stopped it
    records: int = 0
    #: the figures of the records that were run
    figures: Figures = Figures()

    @property
    def stopped(self) -> bool:
        """Whether a record was refused, or the file was cut off."""
        return self.number != 0

    def line(self) -> str:
        """The line that the program `report` prints, with its line end."""
        if self.stopped:
            return f"refused {self.number} at record {self.records}\n"
        return " ".join(map(str, self.figures)) + "\n"

    def stop(self) -> str:
        """Where the run stopped, as tables have it: `refused 5 at record 7`; empty where it didn't."""
        return self.line().rstrip() if self.stopped else ""

    def stop_in_words(self) -> str:
        """Why the run stopped; empty where it didn't."""
        return stop_in_words(self.number) if self.stopped else ""

    def _so_far(self) -> library.RunSoFar:
        """For the library. A number beyond its field would be cut off."""
        if not all(0 <= number < 2**64 for number in (self.number, self.records, *self.figures)):
            raise OverflowError(f"a number of the run is out of range: {self}")
        return library.RunSoFar(self.number, self.records, library.Tally(*self.figures))

    @staticmethod
    def _of(run: library.RunSoFar) -> Run:
        return Run(run.number, run.records, Figures(*(getattr(run.tally, name) for name in Figures._fields)))


class Stopped(Exception):
    """A history that was not run to its end: its figures are of the records before the one that stopped it, and not the history's.

    run: where the run stands.
    name: the history's name.
    advice: what may be done; empty where nothing is known.
    """

    def __init__(self, run: Run, name: str, advice: str = "") -> None:
        super().__init__(run, name, advice)
        self.run = run
        self.name = name
        self.advice = advice

    def __str__(self) -> str:
        words = f"{self.name}: {self.run.stop()}: {self.run.stop_in_words()}"
        return f"{words}: {self.advice}" if self.advice else words
