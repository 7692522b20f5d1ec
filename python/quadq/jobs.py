"""One file of many: what is to be done with it, and the doing."""

from __future__ import annotations

import hashlib
import os
import stat
import time
from dataclasses import dataclass, replace
from pathlib import Path
from typing import Any, Optional

from .errors import WishError
from .files import checksum_of, make_folder, nothing_stale, remove_stale, write_whole
from .formats import bytes_of, left_out, read_file
from .program import USAGE, Program
from .refusal import MEMORY, READ_FAULT, STRANGE, WRITE_FAULT, Refusal
from .remeshing import Tell, run
from .report import refused_page, result_page
from .results import Result
from .rows import Row, facts_of, settings_in_words, warnings_of
from .settings import Settings


@dataclass(frozen=True)
class Job:
    """A file, where its remesh goes, and how. It can be sent to other processes and machines."""

    source: Path
    target: Path
    settings: Settings
    program: Path
    digest: str
    """The program's checksum."""
    timeout: Optional[float] = None
    """How many seconds it may take."""
    page: Optional[Path] = None
    """Where its report goes, if there is to be one."""
    up: str = "y"
    """The axis that points upward in the report's pictures."""
    files: tuple[tuple[str, str], ...] = ()
    """The files that the settings name, each with its checksum."""

    def settings_in_words(self) -> dict[str, Any]:
        return settings_in_words(self.settings, dict(self.files))

    def row(self, status: Optional[int], words: str, seconds: float = 0.0) -> Row:
        """What is told of it where there is no remesh."""
        return Row(str(self.source), str(self.target), status, words, self.settings_in_words(), self.digest,
                   seconds=seconds)

    def row_without(self, status: int, words: str, seconds: float = 0.0) -> Row:
        """The same, when no file of an earlier run is left."""
        row = self.row(status, words, seconds)
        try:
            remove_stale(self.target, self.source)
            if self.page is not None:
                remove_stale(self.page, self.source)
        except Refusal as said:
            return replace(row, words=f"{row.words} ({said})")
        return row


def one_file(
    source: Path, target: Path, settings: Settings, program: Program, tell: Tell, makes_folder: bool = False
) -> tuple[Result, bytes]:
    """Remeshes one file into another, and says what was written. Where that fails, no file of an earlier run stands
    there any more, unless it is the source."""
    with nothing_stale([target], source):
        tell("reading", 0, 1)
        mesh, text = read_file(source, program, settings.subdivide)
        result = run(mesh, settings, program, text, tell)
        tell("writing", 0, 1)
        data = bytes_of(target, result.mesh, result.text, settings.form)
        result = result.with_words("not-written", left_out(target, result.mesh))
        if makes_folder:
            make_folder(target.parent)
        write_whole(target, data)
    return result, data


def done(job: Job) -> Row:
    """Does a job. All that may go wrong is a row."""
    begun = time.monotonic()
    read = ""
    try:
        _refuse_irregular(job.source)
        read = checksum_of(job.source)
        program = Program(job.program).within(job.timeout)
        result, data = one_file(job.source, job.target, job.settings, program, lambda step, done, total: None, True)
        _refuse_change(job, read)
        if job.page is not None:
            _write_page(job.page, result_page(job.source.name, result, program, job.up))
    except Refusal as said:
        row = _refused(job, said)
    except WishError as error:
        row = job.row_without(USAGE, str(error))
    except MemoryError:
        row = job.row_without(MEMORY, "out of memory")
    # Whatever else comes is a fault of this package, and that of one file.
    except Exception as error:
        row = job.row_without(STRANGE, f"this package failed: {type(error).__name__}: {error}")
    else:
        report = result.report
        row = replace(job.row(0, report.summary()), written=checksum(data), facts=facts_of(report),
                      warnings=warnings_of(report))
    return replace(row, read=read, seconds=time.monotonic() - begun)


def _refused(job: Job, said: Refusal) -> Row:
    """The row of a refusal; its page is written where the file could be read."""
    row = job.row_without(said.status, str(said))
    if job.page is not None and said.status not in (READ_FAULT, WRITE_FAULT):
        try:
            _write_page(job.page, refused_page(job.source, said, job.up))
        except Refusal as other:
            return replace(row, words=f"{row.words} ({other})")
    return row


def _refuse_change(job: Job, read: str) -> None:
    """Refuses a file that was changed while it was read: the row would tell another one."""
    if checksum_of(job.source) != read:
        raise Refusal(READ_FAULT, f"read fault: {job.source} was changed while it was remeshed")


def _write_page(path: Path, page: str) -> None:
    make_folder(path.parent)
    write_whole(path, page.encode(), is_hasty=True)


def _refuse_irregular(path: Path) -> None:
    """A pipe or a device would keep all others waiting."""
    try:
        is_regular = stat.S_ISREG(os.stat(path).st_mode)
    except OSError as error:
        raise Refusal(READ_FAULT, f"read fault: {path}: {error.strerror}") from error
    if not is_regular:
        raise Refusal(READ_FAULT, f"read fault: {path} is no regular file")


def checksum(data: bytes) -> str:
    return hashlib.sha256(data).hexdigest()
