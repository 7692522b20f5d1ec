"""Many files, some at a time, with a line and a table of what came of each, whatever ends the work."""

from __future__ import annotations

import contextlib
import os
import queue
from concurrent.futures import Executor, Future
from dataclasses import dataclass, replace
from pathlib import Path
from typing import Callable, Generator, Iterable, Optional, Sequence, Union

from .errors import WishError
from .files import checksum_of, refuse_closed, remove_stale, write_whole
from .index import Index, page_for
from .inputs import (
    Input, PathLike, folder_named, inputs_of, refuse_clashes, refuse_kept_clashes, refuse_overwriting,
    refuse_page_clashes)
from .jobs import Job, done
from .logs import Log, read_log
from .program import Program
from .refusal import STRANGE, Refusal
from .rows import AGAIN, Row, table_of, unreached
from .running import refuse_time, stop_all
from .settings import Settings
from .stopping import Stopped
from .workers import Workers

FINAL = (*range(1, 12), 16, 17)
"""The statuses that a file gets again, whenever it is tried."""


@dataclass(frozen=True)
class Books:
    """What is written of a batch besides its meshes."""

    log: Optional[Path] = None
    table: Optional[Path] = None
    resume: bool = False
    """Whether what the log has, of the same files, settings and program, is not done again."""
    report: Optional[Path] = None
    """A folder for a page a file, and an index of them."""
    up: str = "y"
    """The axis that points upward in pictures."""


def remesh_files(
    files: Union[PathLike, Iterable[PathLike]],
    out: PathLike,
    settings: Settings,
    *,
    executor: Optional[Executor] = None,
    program: Optional[Program] = None,
    timeout: Optional[float] = None,
    pattern: Optional[str] = None,
    recursive: bool = False,
    books: Books = Books(),
    say: Callable[[Row], None] = lambda row: None,
) -> list[Row]:
    """Remeshes each file into one of the same name in a folder, and tells what came of each, in the order of the files.

    Folders stand for their `.obj` files, or for those of a pattern; `recursive` takes the folders below, too. Files are
    done by `settings.jobs` processes of their own, or by any executor: each needs the package, the program at the same
    path and the same files. `timeout` is how many seconds a file may take. `say` is told each row as it comes. Raises a
    `WishError` for files that would go to the same place, and a `Refusal` where the log or the table cannot be written;
    an interruption goes on to the caller when all is wound up.
    """
    given = [files] if isinstance(files, (str, os.PathLike)) else list(files)
    folder = folder_named(out)
    inputs = inputs_of([folder_named(it) for it in given], pattern, recursive, folder)
    refuse_time(timeout)
    _refuse_clashes(inputs, folder, settings, books)
    runner = Program() if program is None else program
    digest = checksum_of(runner.path)
    named = tuple((str(it), checksum_of(it)) for it in settings.files)
    jobs = [replace(_job_of(it, folder, settings, runner, digest, timeout), files=named) for it in inputs]
    if books.report is not None:
        refuse_page_clashes([it.path for it in inputs], books.report, folder)
        jobs = [replace(it, page=page_for(it.target, folder, books.report), up=books.up) for it in jobs]
    return _Batch(jobs, books, executor, say).rows()


def _refuse_clashes(inputs: Sequence[Input], folder: Path, settings: Settings, books: Books) -> None:
    """Refuses what would be written over something else, or in vain."""
    if os.path.lexists(folder) and not folder.is_dir():
        raise WishError(f"many files are remeshed into a folder, and {folder} is none")
    refuse_clashes(inputs, folder)
    if books.resume and (books.log is None or (books.log.exists() and not books.log.is_file())):
        raise WishError("to go on where an earlier run has stopped, its log is needed, as a file")
    named = [(name, path) for name, path in (("--log", books.log), ("--table", books.table)) if path is not None]
    read, targets = [*(it.path for it in inputs), *settings.files], [it.target(folder) for it in inputs]
    refuse_overwriting([*read, *targets], named)
    refuse_kept_clashes([kept for it in inputs if (kept := _kept_in(settings, it)) is not None],
                        [*read, *targets, *(path for _, path in named)])
    if books.table is not None:
        refuse_closed(books.table)


def _kept_in(settings: Settings, it: Input) -> Optional[Path]:
    return None if settings.folder is None else settings.folder / it.below


def _job_of(
    it: Input, folder: Path, settings: Settings, program: Program, digest: str, timeout: Optional[float]
) -> Job:
    own = replace(settings, folder=_kept_in(settings, it))
    return Job(it.path, it.target(folder), own, program.path, digest, timeout)


class _Batch:
    """The jobs, and the rows of those that have ended."""

    def __init__(
        self, jobs: Sequence[Job], books: Books, executor: Optional[Executor], say: Callable[[Row], None]
    ) -> None:
        self.jobs, self.books, self.executor, self.say = jobs, books, executor, say
        self.found: dict[Path, Row] = {}
        self.index: Optional[Index] = None

    def rows(self) -> list[Row]:
        if self.books.table is not None:
            remove_stale(self.books.table)
        log, is_whole = None, False
        index = self.index = None if self.books.report is None else Index(self.books.report, "A batch of quadq")
        try:
            log = Log(self.books.log, is_new=not self.books.resume) if self.books.log is not None else None
            known = self._take_over()
            waiting = [it for it in self.jobs if it.source not in self.found]
            for job in waiting:
                # What an earlier line tells of it need not be true any more when this run is killed.
                if log is not None and str(job.source) in known:
                    log.add(unreached(job.source, job.target, AGAIN))
            with contextlib.closing(self._ended(waiting)) as ended:
                for job, row in ended:
                    self.found[job.source] = row
                    if log is not None:
                        log.add(row)
                    self._tell(job, row)
            is_whole = True
        finally:
            # Where one of them fails, the others are written all the same.
            with contextlib.ExitStack() as ends:
                if self.books.table is not None:
                    ends.callback(write_whole, self.books.table, table_of(self._all()), is_hasty=not is_whole)
                if index is not None:
                    rows = [(row, it.page) for row, it in zip(self._all(), self.jobs) if it.page]
                    ends.callback(index.close, rows, not is_whole)
                if log is not None:
                    ends.callback(log.close)
        return self._all()

    def _tell(self, job: Job, row: Row) -> None:
        if self.index is not None and job.page is not None:
            self.index.add(row, job.page)
        self.say(row)

    def _all(self) -> list[Row]:
        return [self.found.get(it.source) or unreached(it.source, it.target) for it in self.jobs]

    def _take_over(self) -> dict[str, Row]:
        """The rows of an earlier run, of which those are taken that still hold."""
        if not self.books.resume or self.books.log is None:
            return {}
        known = read_log(self.books.log)
        for job in self.jobs:
            row = known.get(str(job.source))
            if row is not None and _still_holds(row, job):
                self.found[job.source] = row
                self._tell(job, row)
        return known

    def _ended(self, jobs: Sequence[Job]) -> Generator[tuple[Job, Row], None, None]:
        many = (self.jobs[0].settings.jobs if self.jobs else 0) or os.cpu_count() or 1
        if self.executor is not None:
            return _by_executor(self.executor, jobs)
        return Workers(min(many, len(jobs))).rows(
            jobs, lambda job, at_a_time: replace(job, settings=replace(job.settings, jobs=max(1, many // at_a_time))))


def _by_executor(executor: Executor, jobs: Sequence[Job]) -> Generator[tuple[Job, Row], None, None]:
    ended: queue.SimpleQueue[tuple[Job, Future[Row]]] = queue.SimpleQueue()
    futures: list[Future[Row]] = []
    try:
        for job in jobs:
            future = executor.submit(done, replace(job, settings=replace(job.settings, jobs=1)))
            future.add_done_callback(lambda it, job=job: ended.put((job, it)))  # type: ignore[misc]
            futures.append(future)
        for _ in futures:
            job, future = ended.get()
            try:
                row = future.result()
            except Exception as error:
                row = job.row(STRANGE, f"the executor failed: {type(error).__name__}: {error}")
            yield job, row
    except BaseException as error:
        for future in futures:
            future.cancel()
        if isinstance(error, (Stopped, KeyboardInterrupt)):
            stop_all()
        raise


def _still_holds(row: Row, job: Job) -> bool:
    """Whether a row is of the same file, settings and program, and what it says to be there is there."""
    if (row.settings, row.program, row.target) != (job.settings_in_words(), job.digest, str(job.target)):
        return False
    if job.page is not None and not os.path.exists(job.page):
        return False
    try:
        if row.read != checksum_of(job.source):
            return False
        is_there = os.path.exists(job.target)
        if row.is_good:
            are_kept = job.settings.folder is None or (job.settings.folder / "part-1.remeshed.obj").exists()
            return is_there and are_kept and row.written == checksum_of(job.target)
    except Refusal:
        return False
    return row.status in FINAL and not is_there
