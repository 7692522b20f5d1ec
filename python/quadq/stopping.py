"""Signals that end the work: it is wound up, and the status says which came."""

from __future__ import annotations

import contextlib
import signal
import threading
from types import FrameType
from typing import Iterator, Optional

from .refusal import TIMEOUT
from .running import SIGNAL, go_on, stop_all

ENDS = (signal.SIGINT, signal.SIGTERM, signal.SIGHUP)


class Stopped(BaseException):
    """The work was ended from outside."""

    def __init__(self, status: int) -> None:
        super().__init__(status)
        self.status = status

    @property
    def words(self) -> str:
        """Why, for a person."""
        if self.status == TIMEOUT:
            return "the time is over"
        return f"stopped by {signal.Signals(self.status - SIGNAL).name}"


@contextlib.contextmanager
def stopped_by_signals(seconds: Optional[float] = None) -> Iterator[None]:
    """Within this, a signal that ends the process raises `Stopped` in its place, once, and so does the end of a time.
    Runs of the program are ended. In a thread that is not the main one nothing changes."""
    if threading.current_thread() is not threading.main_thread():
        yield
        return
    before = {it: signal.signal(it, _stop) for it in (*ENDS, signal.SIGALRM)}
    try:
        signal.setitimer(signal.ITIMER_REAL, seconds or 0.0)
        yield
    finally:
        signal.setitimer(signal.ITIMER_REAL, 0.0)
        go_on()
        for it, handler in before.items():
            signal.signal(it, handler)


def _stop(number: int, _frame: Optional[FrameType]) -> None:
    for it in (*ENDS, signal.SIGALRM):
        signal.signal(it, signal.SIG_IGN)
    stop_all(is_final=True)
    raise Stopped(TIMEOUT if number == signal.SIGALRM else SIGNAL + number)
