#!/usr/bin/env python3
"""Ends batches of many files at any moment, in every way, and looks at what is left.

usage: tools/kill_batches.py [--files N] [--times N] [--seed S] [--jobs N] [--disk FOLDER] [--no-stubs]

A batch is of so many files (1,000), of which a fifth are bad. It is killed at a random moment so many times (50) by
each of SIGINT, SIGTERM, SIGHUP and SIGKILL, each time with what is left of the last one, and --resume. Each time

  the process ends in time, by the signal or with 128 and its number, without a traceback, and leaves no process behind;
  each line of the log is true: what was read and written is as it says, and nothing is there where it was refused;
  each file that is there is whole: it has the bytes that a run that was never stopped writes;
  the table, where there is one, has the same.

When all files are done, the last --resume has all that a run that was never stopped has. Then the same over a program
that sometimes hangs, crashes, writes rubbish or wants memory, with a fifth of the kills, and over each of these to its
end; and on a full disk: --disk names a folder on one of a few megabytes, as `mount -t tmpfs -o size=8m none FOLDER`
makes it. The status is 1 where something else is found. QUADQ may name the program.
"""

from __future__ import annotations

import argparse
import csv
import hashlib
import json
import os
import pathlib
import random
import signal
import subprocess
import sys
import tempfile
import time
from typing import Iterator, NamedTuple, Optional, Sequence

ROOT = pathlib.Path(__file__).resolve().parent.parent
EXAMPLES = [ROOT / f"examples/{it}.obj" for it in ("cube", "corner", "torus", "notched_square", "cylinder")]
BAD = ("v 0 0 0\nf 1 1 1 1\n", "v 0 0\n", "", "v 0 0 0\nv 1 0 0\nv 0 1 0\nf 1 2 3\n", "\x00\x01")
SIGNALS = (signal.SIGINT, signal.SIGTERM, signal.SIGHUP, signal.SIGKILL)
STUBS = {
    "hangs": "exec sleep 600", "crashes": "kill -SEGV $$", "is killed": "kill -KILL $$", "writes rubbish":
    "head -c 5000 /dev/urandom", "writes half": 'dist/quadq "$@" | head -c 60', "wants memory":
    "echo 'quadq: out of memory' >&2; exit 14",
}
"""What is done in place of the program, once in twenty runs."""
SECOND = 1.5
"""How long an end by a signal may take, on a machine that does much else."""
PATIENCE = 30.0
"""How long a worker may live that was still beginning when its batch was killed: it ends when it first reads."""
MOST_TOLD = 100
MOMENTS = 4.0
"""The moments lie in so many seconds: as files are taken away, there is always something to do."""


class Batch:
    """A folder of files, and runs over it."""

    def __init__(self, room: pathlib.Path, files: int, jobs: int, rng: random.Random) -> None:
        self.room, self.jobs, self.rng = room, jobs, rng
        self.inward, self.log, self.table = room / "in", room / "log.jsonl", room / "table.csv"
        self.said = room / "said"
        self.inward.mkdir()
        for number in range(files):
            text = rng.choice(EXAMPLES).read_text() if number % 5 else rng.choice(BAD)
            (self.inward / f"{number:04}.obj").write_text(f"# {number}\n{text}" if text else "")

    def begin(self, out: pathlib.Path, *words: str, program: Optional[pathlib.Path] = None) -> subprocess.Popen[bytes]:
        room = {"KILL_BATCHES": str(self.room), "QUADQ": str(program or os.environ.get("QUADQ", ROOT / "dist/quadq"))}
        with open(self.said, "wb") as said:
            return subprocess.Popen(
                [sys.executable, "-m", "quadq", str(self.inward), "--out", str(out), "--scale", "1/2", "--quiet",
                 "--jobs", str(self.jobs), *words],
                cwd=ROOT / "python", env={**os.environ, **room}, stdout=subprocess.DEVNULL, stderr=said)

    def books(self) -> tuple[str, ...]:
        return "--log", str(self.log), "--table", str(self.table), "--resume"

    def forget(self) -> None:
        """Begins anew."""
        self.log.unlink(missing_ok=True)
        self.table.unlink(missing_ok=True)

    def left(self) -> list[int]:
        """The processes that a run has begun and that are there."""
        sign, found = f"KILL_BATCHES={self.room}".encode(), []
        for it in pathlib.Path("/proc").iterdir():
            try:
                if it.name.isdigit() and sign in (it / "environ").read_bytes():
                    found.append(int(it.name))
            except OSError:
                pass
        return found

    def faults(self, out: pathlib.Path, whole: dict[str, bytes]) -> Iterator[str]:
        """What is not true or not whole."""
        until = time.monotonic() + PATIENCE
        while self.left() and time.monotonic() < until:
            time.sleep(0.05)
        if left := self.left():
            yield f"processes are left: {left}"
        said = self.said.read_text(errors="replace")
        # Before the package is loaded, Python itself has a traceback for an interrupt.
        if "Traceback" in said and "quadq/" in said:
            yield f"there is a traceback: {said[-500:]}"
        there = {it.name: it.read_bytes() for it in out.iterdir()} if out.is_dir() else {}
        for name, data in there.items():
            if whole.get(name) != data:
                yield f"{name} is not as a whole run has it"
        told = {}
        for line in self.log.read_bytes().split(b"\n")[:-1] if self.log.exists() else ():
            row = json.loads(line)
            told[row["input"]] = row
            # It is to be done again: nothing is told of it until it is.
            if row["status"] is None:
                del told[row["input"]]
        for source, row in told.items():
            data = pathlib.Path(source).read_bytes()
            name = pathlib.Path(row["output"]).name
            if row["input_sha256"] not in ("", hashlib.sha256(data).hexdigest()):
                yield f"{source} is told to be another text"
            is_there = name in there
            if is_there != (row["status"] == 0):
                yield f"{source} has the status {row['status']}, and its output is {'' if is_there else 'not '}there"
            elif is_there and row["output_sha256"] != hashlib.sha256(there[name]).hexdigest():
                yield f"{source} is told to give another text"
        if self.table.exists():
            for cells in csv.DictReader(self.table.open()):
                if cells["status"] and str(told.get(cells["file"], {}).get("status")) != cells["status"]:
                    yield f"the table has {cells['file']} with {cells['status']}"


def killed(batch: Batch, times: int, whole: dict[str, bytes], seconds: float) -> Iterator[str]:
    """Kills runs at random moments by each signal, and the last one goes to its end."""
    for number in SIGNALS:
        batch.forget()
        out = batch.room / f"out-{number.name}"
        yield from killed_by(batch, number, times, Ran(out, whole, min(seconds, MOMENTS)))
        yield from finished(batch, out, number.name, whole)
        print(f"{number.name}: {times} times", flush=True)


class Ran(NamedTuple):
    """What is killed."""

    out: pathlib.Path
    whole: dict[str, bytes]
    seconds: float
    """The moments lie within these."""
    program: Optional[pathlib.Path] = None
    statuses: tuple[int, ...] = (0, 1)
    """Those of a run that ends before it is killed."""
    words: tuple[str, ...] = ()


def killed_by(batch: Batch, number: signal.Signals, times: int, of: Ran) -> Iterator[str]:
    """Kills runs at random moments by a signal, each with what is left of the last one."""
    for time_of in range(times):
        # So that each has something to do, whatever was done before.
        for it in [*of.out.iterdir()] if of.out.is_dir() else ():
            if batch.rng.random() < 0.3:
                it.unlink()
        ran = batch.begin(of.out, *batch.books(), *of.words, program=of.program)
        time.sleep(batch.rng.uniform(0.0, of.seconds))
        ran.send_signal(number)
        sent = time.monotonic()
        status = ran.wait(60)
        took = time.monotonic() - sent
        told = f"{number.name} {time_of + 1}"
        by_signal = {-number} if number == signal.SIGKILL else {128 + number, -number}
        if status not in (*by_signal, *of.statuses):
            yield f"{told}: the status is {status}"
        if took > SECOND:
            yield f"{told}: the end took {took:.2f} s"
        yield from (f"{told}: {it}" for it in lost_again(batch, of.out, of.whole))


def finished(batch: Batch, out: pathlib.Path, name: str, whole: dict[str, bytes]) -> Iterator[str]:
    """Goes on to the end, where all has to be there."""
    batch.begin(out, *batch.books()).wait()
    yield from (f"{name}, at the end: {it}" for it in batch.faults(out, whole))
    if {it.name for it in out.iterdir()} != set(whole):
        yield f"{name}, at the end: files are missing"


def lost_again(batch: Batch, out: pathlib.Path, whole: dict[str, bytes]) -> Iterator[str]:
    """The faults, but for files that were taken away on purpose and that the run has not come to."""
    for it in batch.faults(out, whole):
        if "not there" not in it:
            yield it


def stub_of(batch: Batch, cases: Sequence[str], seldom: int, words: str) -> pathlib.Path:
    """A program that does one of these things instead, once in so many runs, where the shell says so of its words."""
    stub, real = batch.room / "stub.sh", os.environ.get("QUADQ", str(ROOT / "dist/quadq"))
    done = "\n".join(f"{at}) {it.replace('dist/quadq', real)};;" for at, it in enumerate(cases))
    stub.write_text(f'#!/bin/bash\nif {words} && [ $((RANDOM % {seldom})) = 0 ]; then\n'
                    f'case $((RANDOM % {len(cases)})) in\n{done}\nesac\nelse\nexec {real} "$@"\nfi\n')
    stub.chmod(0o755)
    return stub


def over_stubs(batch: Batch, whole: dict[str, bytes]) -> Iterator[str]:
    """Batches over programs that sometimes do something else."""
    for name, script in STUBS.items():
        batch.forget()
        out = batch.room / f"out-{name.replace(' ', '-')}"
        stub = stub_of(batch, [script], 20, "[ $# -gt 0 ]")
        status = batch.begin(out, *batch.books(), "--timeout", "2", program=stub).wait()
        if status not in (0, 1, 2):
            yield f"a program that {name}: the status is {status}"
        if status != 2:
            yield from (f"a program that {name}: {it}" for it in batch.faults(out, whole))
        yield from finished(batch, out, f"a program that {name}", whole)
        print(f"a program that {name}: status {status}", flush=True)


def killed_over_stub(batch: Batch, times: int, whole: dict[str, bytes]) -> Iterator[str]:
    """Kills runs over a program that sometimes does any of these things."""
    for number in SIGNALS:
        batch.forget()
        out = batch.room / f"out-stub-{number.name}"
        # What a batch asks before its work is answered: else there would be none.
        stub = stub_of(batch, [*STUBS.values()], 40, '[ "$1" = tidy -o "$1" = remesh -o "$1" = check ]')
        yield from killed_by(batch, number, times, Ran(out, whole, MOMENTS, stub, (0, 1), ("--timeout", "2")))
        yield from finished(batch, out, f"{number.name} over stubs", whole)
        print(f"{number.name} over a program that does any of these: {times} times", flush=True)


def on_full_disk(batch: Batch, disk: pathlib.Path, times: int, whole: dict[str, bytes]) -> Iterator[str]:
    """A batch whose meshes, log and table go to a disk that is full before the end, and goes on with more room."""
    out = disk / "out"
    batch.log, batch.table = disk / "log.jsonl", disk / "table.csv"
    ballast = disk / "ballast"
    for part in (0.99, 0.5, 0.0):
        room = os.statvfs(disk)
        ballast.unlink(missing_ok=True)
        ballast.write_bytes(bytes(int(os.statvfs(disk).f_bavail * room.f_frsize * part)))
        status = batch.begin(out, *batch.books()).wait()
        print(f"with {part:.0%} of the room taken: status {status}", flush=True)
        if status not in (1, 13):
            yield f"on a full disk the status is {status}"
        yield from (f"on a full disk: {it}" for it in batch.faults(out, whole))
        if part == 0.99:
            for number in SIGNALS:
                yield from killed_by(batch, number, times, Ran(out, whole, MOMENTS, None, (0, 1, 13)))
                print(f"{number.name} on a full disk: {times} times", flush=True)
    if {it.name for it in out.iterdir()} != set(whole):
        yield "on a full disk, at the end: files are missing"


def main() -> int:
    parser = argparse.ArgumentParser(description=__doc__, formatter_class=argparse.RawDescriptionHelpFormatter)
    parser.add_argument("--files", type=int, default=1_000)
    parser.add_argument("--times", type=int, default=50)
    parser.add_argument("--seed", type=int, default=1)
    parser.add_argument("--jobs", type=int, default=2)
    parser.add_argument("--disk", type=pathlib.Path)
    parser.add_argument("--no-stubs", action="store_true")
    asked = parser.parse_args()
    # A shell ignores it for what it starts behind it, and so would all runs until they have their own handlers.
    signal.signal(signal.SIGINT, signal.default_int_handler)
    with tempfile.TemporaryDirectory() as folder:
        batch = Batch(pathlib.Path(folder), asked.files, asked.jobs, random.Random(asked.seed))
        begun = time.monotonic()
        batch.begin(batch.room / "whole").wait()
        seconds = time.monotonic() - begun
        whole = {it.name: it.read_bytes() for it in (batch.room / "whole").iterdir()}
        print(f"{asked.files} files, {len(whole)} of them good, in {seconds:.1f} s", flush=True)
        found = 0
        tries = [killed(batch, asked.times, whole, seconds)]
        fewer = -(-asked.times // 5)
        tries += [] if asked.no_stubs else [killed_over_stub(batch, fewer, whole), over_stubs(batch, whole)]
        tries += [on_full_disk(batch, asked.disk, fewer, whole)] if asked.disk else []
        for it in (fault for some in tries for fault in some):
            found += 1
            if found <= MOST_TOLD:
                print(f"kill_batches: {it}", file=sys.stderr, flush=True)
    print(f"{found} faults")
    return int(found > 0)


if __name__ == "__main__":
    sys.exit(main())
