"""The log of a batch: a line for each file as it ends, which is whole or not there."""

from __future__ import annotations

import fcntl
import os
import stat
from pathlib import Path

from .files import held_number, read_whole
from .refusal import WRITE_FAULT, Refusal
from .rows import Row


def read_log(path: Path) -> dict[str, Row]:
    """The last row of each file that a log has. A line that was cut off, as by a loss of power, is none."""
    found = {}
    for line in read_whole(path).split(b"\n") if path.exists() else ():
        try:
            row = Row.of_line(line)
        except ValueError:
            continue
        found[row.source] = row
    return found


class Log:
    """A log that grows line by line. A file has one run at a time that writes it; what is no file, such as a pipe, is
    written through."""

    def __init__(self, path: Path, is_new: bool) -> None:
        self.path, self.size = path, 0
        number = held_number(path)
        try:
            self.file = os.open(path, os.O_WRONLY | os.O_CREAT, 0o666) if number is None else os.dup(number)
            self.is_file = number is None and stat.S_ISREG(os.fstat(self.file).st_mode)
            if self.is_file:
                self._hold()
                self.size = 0 if is_new else self.path.read_bytes().rfind(b"\n") + 1
                # A line that was cut off goes.
                os.ftruncate(self.file, self.size)
                os.lseek(self.file, self.size, os.SEEK_SET)
        except OSError as error:
            raise self._fault(error) from error

    def _hold(self) -> None:
        try:
            fcntl.flock(self.file, fcntl.LOCK_EX | fcntl.LOCK_NB)
        except BlockingIOError as error:
            os.close(self.file)
            raise Refusal(WRITE_FAULT, f"write fault: the log {self.path}: another run is writing it") from error
        except OSError:
            # A disk that knows no locks.
            pass

    def add(self, row: Row) -> None:
        """Writes a line. Raises a `Refusal` where it cannot; then nothing of it is there. What it tells is on the disk
        already, and a line that a loss of power takes is only work that is done again: so nothing waits for the disk.
        """
        line = memoryview(row.line())
        size = self.size + len(line)
        try:
            while line:
                line = line[os.write(self.file, line):]
        except OSError as error:
            if self.is_file:
                os.ftruncate(self.file, self.size)
                os.lseek(self.file, self.size, os.SEEK_SET)
            raise self._fault(error) from error
        self.size = size

    def _fault(self, error: OSError) -> Refusal:
        return Refusal(WRITE_FAULT, f"write fault: the log {self.path}: {error.strerror}")

    def close(self) -> None:
        os.close(self.file)
