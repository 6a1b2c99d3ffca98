"""A progress bar on standard error, where that is a terminal."""

from __future__ import annotations

import sys
import time
from types import TracebackType
from typing import Optional, TextIO, Type

_WIDTH = 40

#: Seconds between two drawings, and before the first: what is quick shows none.
_PAUSE = 0.2


class Bar:
    """A bar that is drawn while it is entered. `done` is told how much of the total is done; a total that isn't known is None."""

    def __init__(self, label: str, total: Optional[int], stream: Optional[TextIO] = None) -> None:
        self._label = label
        self._total = total
        self._stream = stream or sys.stderr
        # Python has no standard error where it was closed.
        self._shown = self._stream is not None and self._stream.isatty()
        self._drawn_at = time.monotonic()
        self._drawn = False

    def __enter__(self) -> Bar:
        return self

    def __exit__(
        self, kind: Optional[Type[BaseException]], error: Optional[BaseException], trace: Optional[TracebackType]
    ) -> None:
        if self._drawn:
            self._stream.write("\r\x1b[K")
            self._stream.flush()

    def done(self, amount: int) -> None:
        """Draws the bar, unless it was drawn a moment ago."""
        if not self._shown or time.monotonic() - self._drawn_at < _PAUSE:
            return
        if self._total:
            part = min(amount / self._total, 1.0)
            full = int(part * _WIDTH)
            text = f"{self._label} [{full * '#'}{(_WIDTH - full) * '.'}] {part:4.0%}"
        else:
            text = f"{self._label} {amount:,}"
        self._stream.write(f"\r\x1b[K{text}")
        self._stream.flush()
        self._drawn_at = time.monotonic()
        self._drawn = True

    def done_of(self, amount: int, total: int) -> None:
        """The same, with the total told too."""
        self._total = total
        self.done(amount)
