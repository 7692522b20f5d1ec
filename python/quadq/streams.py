"""The streams of a command line: what is said there is read, or it is an error; and nothing is said into a mesh."""

from __future__ import annotations

import contextlib
import io
import os
import re
import stat
import sys
from pathlib import Path
from typing import ContextManager, Iterable, Optional

from .files import held_number

OUT = 1
"""The number of standard output."""
STEERING = re.compile("[\x00-\x1f\x7f-\x9f]")


def open_streams() -> None:
    """Opens the streams that are closed, so that no file that is opened later becomes one of them; what is written to
    them by number fails as before. Names in letters that a stream has not are said by their numbers."""
    for number, flags in enumerate((os.O_WRONLY, os.O_RDONLY, os.O_RDONLY)):
        try:
            os.fstat(number)
        except OSError:
            os.open(os.devnull, flags)
    if sys.stdout is None:
        sys.stdout = open(os.devnull, "w")
    if sys.stderr is None:
        sys.stderr = open(os.devnull, "w")
    for stream in (sys.stdout, sys.stderr):
        if isinstance(stream, io.TextIOWrapper) and stream.errors == "strict":
            stream.reconfigure(errors="backslashreplace")


def in_a_line(words: str) -> str:
    """Words as one line: letters that end lines or steer terminals, as names of files may have, stand by their numbers.
    """
    return STEERING.sub(lambda it: it[0].encode("unicode_escape").decode(), words)


def beside(files: Iterable[Optional[Path]]) -> ContextManager[object]:
    """Within this, words for standard output go to standard error where one of these files is standard output."""
    if any(it is not None and is_standard_output(it) for it in files):
        return contextlib.redirect_stdout(sys.stderr)
    return contextlib.nullcontext()


def is_standard_output(path: Path) -> bool:
    """Whether what is written to a path goes to standard output."""
    number = held_number(path)
    try:
        found = os.stat(path) if number is None else os.fstat(number)
        is_held = number is not None or stat.S_ISFIFO(found.st_mode)
        return is_held and os.path.samestat(found, os.fstat(OUT))
    except OSError:
        return False


def close_output() -> None:
    """Has what is still to be said go nowhere: it would fail again at the end."""
    with contextlib.suppress(OSError):
        nowhere = os.open(os.devnull, os.O_WRONLY)
        os.dup2(nowhere, OUT)
        os.close(nowhere)
