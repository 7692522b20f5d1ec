"""How far long work is, told on standard error: one line that grows on a terminal, else a line now and then."""

from __future__ import annotations

import sys
import threading
from typing import Optional, TextIO

NAME = "quadq-remesh"
"""The name of the command line."""
FIRST_SECONDS = 1.0
"""Shorter work is not told of."""
LINE_SECONDS = 5.0
"""Between two lines, where nobody looks on."""
DRAW_SECONDS = 0.2
"""Between two looks of the line on a terminal."""
WIDE = 30


class Progress:
    """Tells of steps, each of which is some things to do. A clock of its own shows the last that was told, so a step is
    seen that is told of once and takes long."""

    def __init__(self, stream: Optional[TextIO] = None, is_quiet: bool = False) -> None:
        self.stream = sys.stderr if stream is None else stream
        self.is_terminal = self.stream.isatty()
        self.told = self.shown = ""
        self._ended = threading.Event()
        self._clock = threading.Thread(target=self._show_now_and_then, daemon=True)
        if not is_quiet:
            self._clock.start()

    def tell(self, step: str, done: int, total: int) -> None:
        """Says that so many of all things of this step are done. Of one thing it says the step alone."""
        bar = f" [{'#' * (WIDE * done // max(total, 1)):<{WIDE}}]" if self.is_terminal else ""
        self.told = f"{step}{bar} {done} of {total}" if total > 1 else step

    def show(self) -> None:
        """Shows what was told last, if it was not shown yet."""
        if self.told == self.shown:
            return
        self.shown = self.told
        self.stream.write(f"\r{self.shown}\x1b[K" if self.is_terminal else f"{NAME}: {self.shown}\n")
        self.stream.flush()

    def _show_now_and_then(self) -> None:
        seconds = FIRST_SECONDS
        while not self._ended.wait(seconds):
            try:
                self.show()
            except (OSError, ValueError):
                return
            seconds = DRAW_SECONDS if self.is_terminal else LINE_SECONDS

    def end(self) -> None:
        """Shows no more, and clears the bar."""
        self._ended.set()
        if self._clock.is_alive():
            self._clock.join()
        if self.is_terminal and self.shown:
            self.stream.write("\r\x1b[K")
            self.stream.flush()
