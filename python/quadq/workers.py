"""Processes that do jobs: each can be ended at any time, and none outlives the one that began it."""

from __future__ import annotations

import contextlib
import os
import pickle
import selectors
import signal
import subprocess
import sys
import time
from collections import deque
from pathlib import Path
from typing import Callable, Generator, Optional, Sequence

from .jobs import Job
from .refusal import CANNOT_RUN, STRANGE, TIMEOUT, Refusal
from .rows import Row
from .running import SIGNAL
from .worker import HEAD, framed

GRACE = 0.5
"""Seconds beyond the time of a job, after which its worker is ended."""
PATIENCE = 0.4
"""Seconds for which the death of all workers is waited for."""
TO_BEGIN = 30.0
"""Seconds that a worker has to begin."""
BEGIN = "import sys; sys.path.insert(0, {path!r}); from {name}.worker import main; main()"


class Worker:
    """A process, and the job that it does."""

    def __init__(self) -> None:
        here = Path(__file__).resolve().parent
        begin = BEGIN.format(path=str(here.parent), name=here.name)
        self.process = subprocess.Popen([sys.executable, "-c", begin], stdin=subprocess.PIPE, stdout=subprocess.PIPE,
                                        stderr=subprocess.DEVNULL, start_new_session=True)
        assert self.process.stdin is not None and self.process.stdout is not None
        self.inward, self.outward = self.process.stdin, self.process.stdout
        os.set_blocking(self.outward.fileno(), False)
        self.job: Optional[Job] = None
        self.begun = 0.0
        self.said = b""

    def begin(self, job: Job) -> None:
        self.job, self.begun, self.said = job, time.monotonic() + TO_BEGIN, b""
        try:
            self.inward.write(framed(job))
            self.inward.flush()
        except OSError:
            # It has died: its outward end says so.
            pass

    def row(self) -> Optional[Row]:
        """The row of the job, if all of it has come. Where the worker has died, it is that of its end."""
        assert self.job is not None
        some = self.outward.read(1 << 20)
        if some == b"":
            self.end()
            return self._row_of_end()
        self.said += some or b""
        while len(self.said) >= HEAD.size:
            size = HEAD.size + HEAD.unpack(self.said[:HEAD.size])[0]
            if len(self.said) < size:
                return None
            row, self.said = pickle.loads(self.said[HEAD.size:size]), self.said[size:]
            if isinstance(row, Row):
                return row
            self.begun = time.monotonic()
        return None

    def _row_of_end(self) -> Row:
        assert self.job is not None
        status, words = self.process.returncode, "the worker ended before the file was done"
        if status < 0:
            status, words = SIGNAL - status, f"the worker was ended by signal {-status}"
        return self.job.row_without(status or STRANGE, words, max(time.monotonic() - self.begun, 0.0))

    def is_late(self) -> bool:
        job = self.job
        return job is not None and job.timeout is not None and time.monotonic() - self.begun > job.timeout + GRACE

    def row_of_time(self) -> Row:
        """Ends the worker; the row says that the time was over."""
        assert self.job is not None
        self.end()
        return self.job.row_without(TIMEOUT, "the time is over", max(time.monotonic() - self.begun, 0.0))

    def kill(self) -> None:
        """Kills the process with all that it has begun."""
        with contextlib.suppress(ProcessLookupError):
            os.killpg(self.process.pid, signal.SIGKILL)

    def end(self, seconds: Optional[float] = None) -> None:
        """Kills the process, and waits for that so long: one that waits for the disk dies when it is done there."""
        self.kill()
        with contextlib.suppress(subprocess.TimeoutExpired):
            self.process.wait(seconds)
        for stream in (self.inward, self.outward):
            with contextlib.suppress(OSError):
                stream.close()


class Workers:
    """As many processes as there is to do for, at most so many."""

    def __init__(self, most: int) -> None:
        self.most = max(1, most)
        self.selector = selectors.DefaultSelector()
        self.idle: list[Worker] = []
        self.busy: list[Worker] = []

    def rows(self, jobs: Sequence[Job], share: Callable[[Job, int], Job]) -> Generator[tuple[Job, Row], None, None]:
        """Does all jobs, and gives the row of each as it ends. `share` gives a job its part of the processors where so
        many are done at a time."""
        waiting = deque(jobs)
        asked: dict[int, Job] = {}
        try:
            while waiting or self.busy:
                while waiting and len(self.busy) < self.most:
                    worker = self._free_one()
                    if worker is None:
                        break
                    job = waiting.popleft()
                    asked[id(worker)] = job
                    worker.begin(share(job, min(self.most, len(self.busy) + len(waiting) + 1)))
                    self.busy.append(worker)
                for worker, row in self._ended():
                    yield asked.pop(id(worker)), row
        finally:
            self.end()

    def _free_one(self) -> Optional[Worker]:
        """One that has nothing to do, or a new one. Where the system lets no more begin, these are all."""
        if self.idle:
            return self.idle.pop()
        try:
            worker = Worker()
        except OSError as error:
            if not self.busy:
                raise Refusal(CANNOT_RUN, f"no worker can be started: {error.strerror}") from error
            self.most = len(self.busy)
            return None
        self.selector.register(worker.outward, selectors.EVENT_READ, worker)
        return worker

    def _ended(self) -> list[tuple[Worker, Row]]:
        """Waits a little, and gives what has ended."""
        ended: list[tuple[Worker, Row]] = []
        for key, _ in self.selector.select(0.2):
            worker = key.data
            if worker.job is not None and (row := worker.row()) is not None:
                ended.append((worker, row))
        known = {id(worker) for worker, _ in ended}
        for worker in [it for it in self.busy if it.is_late() and id(it) not in known]:
            ended.append((worker, worker.row_of_time()))
        for worker, _ in ended:
            self.busy.remove(worker)
            worker.job = None
            if worker.process.returncode is None:
                self.idle.append(worker)
            else:
                self.selector.unregister(worker.outward)
        return ended

    def end(self) -> None:
        """Ends all processes."""
        workers = [*self.idle, *self.busy]
        for worker in workers:
            worker.kill()
        for worker in workers:
            worker.end(PATIENCE / len(workers))
        self.idle, self.busy = [], []
        self.selector.close()
