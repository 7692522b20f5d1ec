"""Runs of the program: each can be stopped, by a deadline or with all others, and none is left behind."""

from __future__ import annotations

import contextlib
import subprocess
import threading
import time
from pathlib import Path
from typing import Optional, Sequence

from .errors import WishError
from .refusal import CANNOT_RUN, TIMEOUT, Refusal

SIGNAL = 128
"""The status of a program that a signal has ended is this and the signal's number, as in a shell."""

LONGEST = 2_000_000.0
"""Seconds: 23 days. The system counts no longer times in one wait."""

_runs: set[_Run] = set()
_is_over = False


def refuse_time(seconds: Optional[float]) -> None:
    """Raises a `WishError` for a time that is none, or too long."""
    if seconds is not None and not 0 < seconds <= LONGEST:
        raise WishError(f"the time is a number of seconds above 0 and up to {LONGEST:.0f}, and is {seconds}")


class Halt:
    """Ends the runs of one remesh from another thread: those that are under way, and each that begins later."""

    def __init__(self) -> None:
        self.is_over = False
        self._runs: set[_Run] = set()

    def now(self) -> None:
        self.is_over = True
        for it in list(self._runs):
            it.stop()

    def add(self, run: _Run) -> None:
        self._runs.add(run)
        if self.is_over:
            run.stop()


def run_program(
    path: Path, words: Sequence[str], text: bytes, until: Optional[float], halt: Optional[Halt] = None
) -> tuple[int, bytes, str]:
    """The status, the output and the words of one run over a text. `until` is when it has to be done, on the clock of
    `time.monotonic`: past that it is ended, and refused. It is ended, too, where the caller is interrupted, and by the
    `halt`."""
    run = _Run([str(path), *words], text, until)
    _runs.add(run)
    if halt is not None:
        halt.add(run)
    try:
        if threading.current_thread() is threading.main_thread():
            _wait_for(run)
        else:
            run.do()
    finally:
        _runs.discard(run)
    return run.result()


def _wait_for(run: _Run) -> None:
    """Has another thread do a run: what interrupts this one never comes between the birth of a process and its being
    known."""
    thread = threading.Thread(target=run.do)
    thread.start()
    try:
        thread.join()
    except BaseException:
        run.stop()
        thread.join()
        raise


class _Run:
    """One run of a program."""

    def __init__(self, words: Sequence[str], text: bytes, until: Optional[float]) -> None:
        self.words, self.text, self.until = words, text, until
        self.process: Optional[subprocess.Popen[bytes]] = None
        self.is_stopped = False
        self.fault: Optional[Exception] = None
        self.out = self.said = b""

    def do(self) -> None:
        try:
            self._do()
        except Exception as error:
            self.fault = error

    def _do(self) -> None:
        try:
            process = subprocess.Popen(
                self.words, stdin=subprocess.PIPE, stdout=subprocess.PIPE, stderr=subprocess.PIPE)
        except OSError as error:
            raise Refusal(CANNOT_RUN, f"the program {self.words[0]} cannot be run: {error.strerror}") from error
        self.process = process
        if self.is_stopped or _is_over:
            process.kill()
        try:
            left = None if self.until is None else max(self.until - time.monotonic(), 0.0)
            self.out, self.said = process.communicate(self.text, left)
        except subprocess.TimeoutExpired as error:
            raise Refusal(TIMEOUT, "the time is over, and the program was ended") from error
        finally:
            process.kill()
            process.wait()
            for stream in (process.stdin, process.stdout, process.stderr):
                if stream is not None:
                    with contextlib.suppress(OSError):
                        stream.close()

    def stop(self) -> None:
        self.is_stopped = True
        if self.process is not None:
            self.process.kill()

    def result(self) -> tuple[int, bytes, str]:
        if self.fault is not None:
            raise self.fault
        assert self.process is not None
        status = self.process.returncode
        if status < 0:
            return SIGNAL - status, self.out, f"the program was ended by signal {-status}"
        return status, self.out, self.said.decode(errors="replace").strip()


def stop_all(is_final: bool = False) -> None:
    """Ends all runs that are under way; after the final end each that begins is ended, until they go on."""
    global _is_over
    _is_over = _is_over or is_final
    for it in list(_runs):
        it.stop()


def go_on() -> None:
    """Runs may begin again."""
    global _is_over
    _is_over = False
