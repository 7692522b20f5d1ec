"""A process that does jobs, one after the other, until nobody has any for it.

It reads jobs from standard input. For each it writes to standard output that it begins, and then the row. Where the
other end is closed, whatever has ended it, this process ends at once, with the run of the program that it has begun.
"""

from __future__ import annotations

import os
import pickle
import queue
import signal
import struct
import sys
import threading
from typing import BinaryIO, Optional

from .jobs import Job, done

HEAD = struct.Struct(">Q")
"""Before each piece: how long it is."""


def framed(thing: object) -> bytes:
    """A thing as one piece."""
    data = pickle.dumps(thing)
    return HEAD.pack(len(data)) + data


def main() -> None:
    """The whole life of a worker."""
    out = os.fdopen(os.dup(sys.stdout.fileno()), "wb", buffering=0)
    # What libraries print goes nowhere.
    os.dup2(os.open(os.devnull, os.O_WRONLY), sys.stdout.fileno())
    jobs: queue.Queue[Job] = queue.Queue()
    threading.Thread(target=_listen, args=(sys.stdin.buffer, jobs), daemon=True).start()
    while True:
        job = jobs.get()
        # So it is known that this process has begun.
        out.write(framed(None))
        out.write(framed(done(job)))


def _listen(stream: BinaryIO, jobs: queue.Queue[Job]) -> None:
    while (data := _piece(stream)) is not None:
        jobs.put(pickle.loads(data))
    # This process leads its group, in which the runs of the program are.
    os.killpg(0, signal.SIGKILL)


def _piece(stream: BinaryIO) -> Optional[bytes]:
    head = stream.read(HEAD.size)
    if len(head) < HEAD.size:
        return None
    size = HEAD.unpack(head)[0]
    data = stream.read(size)
    return data if len(data) == size else None
