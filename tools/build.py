#!/usr/bin/env python3
"""Proves and builds quadq where its sources are not as they were at the last build, and tells on standard error how
far it is.

usage: tools/build.py                    builds where need be; its status is 0 when build/quadq is current, else 70
       tools/build.py --run WORD..       the same, and then runs the program with these words in its own place
       tools/build.py --keep SUM         takes what the gate has built, where the sources still have this checksum

The folder build/ has the program, the list of its sources (tools/sources.sh), their checksum, and the last build's log.
"""

from __future__ import annotations

import fcntl
import os
import pathlib
import re
import select
import shutil
import signal
import subprocess
import sys
import time
from typing import NoReturn

ROOT = pathlib.Path(__file__).resolve().parent.parent
BUILD = ROOT / "build"
PROGRAM = BUILD / "quadq"
LOG = BUILD / "log"
MADE = ROOT / "crates/qm_prog/out/qm_prog"
FAILED = 70
QUIET_SECONDS = 8
KIB_A_JOB = 1_500_000
SHOWN_LINES = 20


class Stopped(Exception):
    """A signal asked this process to end."""


def fill_closed_streams() -> list[int]:
    """Opens /dev/null for each closed standard stream, so that no other file takes its place, and returns which."""
    closed = []
    for stream in (0, 1, 2):
        try:
            os.fstat(stream)
        except OSError:
            closed.append(stream)
            os.open(os.devnull, os.O_RDWR)
    return closed


def say(line: str) -> None:
    try:
        os.write(2, f"quadq: {line}\n".encode())
    except OSError:
        # Nobody listens.
        pass


def told_of_sources(function: str) -> bytes:
    """What a function of tools/sources.sh prints."""
    words = ["sh", "-c", f". tools/sources.sh; {function}"]
    return subprocess.run(words, cwd=ROOT, stdout=subprocess.PIPE).stdout


def listing() -> bytes:
    return told_of_sources("list_sources")


def checksum() -> str:
    return told_of_sources("sum_of_sources").decode().strip()


def bytes_of(path: pathlib.Path) -> bytes | None:
    try:
        return path.read_bytes()
    except OSError:
        return None


def write(path: pathlib.Path, content: bytes) -> None:
    """Replaces the file as a whole, or not at all."""
    new = path.with_name(path.name + ".new")
    try:
        new.write_bytes(content)
        new.replace(path)
    finally:
        new.unlink(missing_ok=True)


def is_current() -> bool:
    """Whether the last build's sources were these. Where only their times differ, the list is written anew."""
    if not os.access(PROGRAM, os.X_OK):
        return False
    # The list is made first: what changes after it differs from it at the next start.
    listed = listing()
    if bytes_of(BUILD / "sources") == listed:
        return True
    if bytes_of(BUILD / "sum") != checksum().encode():
        return False
    try:
        write(BUILD / "sources", listed)
    except OSError:
        # A checkout of somebody else: the next start compares again.
        pass
    return True


def keep(listed: bytes, summed: str) -> None:
    """Takes the program that was made of these sources as the current one."""
    BUILD.mkdir(exist_ok=True)
    new = BUILD / "quadq.new"
    try:
        shutil.copyfile(MADE, new)
        new.chmod(0o755)
        (BUILD / "sources").unlink(missing_ok=True)
        (BUILD / "sum").unlink(missing_ok=True)
        new.replace(PROGRAM)
    finally:
        new.unlink(missing_ok=True)
    write(BUILD / "sum", summed.encode())
    write(BUILD / "sources", listed)


def lock() -> None:
    """Waits until no other build of this checkout is running."""
    held = os.open(__file__, os.O_RDONLY)
    try:
        fcntl.flock(held, fcntl.LOCK_EX | fcntl.LOCK_NB)
    except BlockingIOError:
        started = time.monotonic()
        say("another build of this checkout is running; waiting for it")
        told = started
        while True:
            try:
                fcntl.flock(held, fcntl.LOCK_EX | fcntl.LOCK_NB)
                break
            except BlockingIOError:
                time.sleep(0.2)
            if time.monotonic() - told > QUIET_SECONDS:
                told = time.monotonic()
                say(f"{told - started:.0f} s: still waiting for the other build")
    except OSError:
        # This file system has no locks.
        pass


def uses_of_crates() -> dict[str, list[str]]:
    """The libraries that each crate of this repository uses, by crates.txt."""
    uses = {}
    for line in (ROOT / "crates.txt").read_text().splitlines():
        crate, _, deps = line.partition("#")[0].partition(":")
        if crate.split():
            uses[crate.split()[0]] = deps.split()
    return uses


def crates_below(name: str, uses: dict[str, list[str]]) -> list[str]:
    """The crate and all those of this repository that it stands on, those that it uses first."""
    found = []
    for crate in uses.get(name, []):
        found += [it for it in crates_below(crate, uses) if it not in found]
    return [*found, name] if name in uses else found


class Progress:
    """Tells what the prover is at: each crate when it is done, and at least every few seconds something."""

    def __init__(self, top: str) -> None:
        self.started = self.told = time.monotonic()
        self.uses = uses_of_crates()
        self.crates = crates_below(top, self.uses)
        self.done: set[str] = set()
        self.counted = ""
        self.waits = False

    def tell(self, what: str) -> None:
        self.told = time.monotonic()
        say(f"{self.told - self.started:.0f} s: {what}")

    def read(self, line: str) -> None:
        self.waits = "waiting for" in line
        if self.waits:
            self.tell(line)
        elif line.startswith("so far: ") and "checked" in line:
            self.counted = line.removeprefix("so far: ").partition(" checked")[0]
        elif "::" in line and line.endswith(": proved"):
            # (these lines come when the crate has been gone through)
            self.end(line.split()[1].partition("::")[0])

    def end(self, crate: str) -> None:
        if crate in self.crates and crate not in self.done:
            self.done.update(crates_below(crate, self.uses))
            self.counted = ""
            self.tell(f"{crate} is proved, {len(self.done)} of {len(self.crates)} crates")

    def beat(self) -> None:
        if time.monotonic() - self.told > QUIET_SECONDS:
            at = f"proving {self.at_work()}{f', {self.counted}' if self.counted else ''}"
            self.tell("still waiting" if self.waits else at)

    def at_work(self) -> str:
        """The crate whose library is begun and not whole, as far as its folder tells."""
        for crate in self.crates:
            library = ROOT / "crates" / crate / "out/rlib"
            if library.is_dir() and not (library / "stamp").exists():
                return crate
        return "the next crate"


def jobs() -> int:
    """A job a processor, as many as memory holds."""
    fitting = 8
    for line in (bytes_of(pathlib.Path("/proc/meminfo")) or b"").splitlines():
        if line.startswith(b"MemAvailable:"):
            fitting = int(line.split()[1]) // KIB_A_JOB
    return max(min(len(os.sched_getaffinity(0)), fitting), 1)


def stop(tool: subprocess.Popen[bytes]) -> None:
    """Ends the prover with all that it has started."""
    for asked in (signal.SIGTERM, signal.SIGKILL):
        try:
            os.killpg(tool.pid, asked)
        except ProcessLookupError:
            return
        try:
            tool.wait(5)
        except subprocess.TimeoutExpired:
            continue


def ran_by_rt(crate: str, verb: str, words: list[str], kept: pathlib.Path) -> bool:
    """Runs the prover and the compiler over a crate and those below it, and returns whether that went well."""
    progress = Progress(crate)
    with open(kept, "wb") as log:
        tool = subprocess.Popen(
            ["rt", verb, "--jobs", str(jobs()), *words],
            cwd=ROOT / "crates" / crate,
            stdin=subprocess.DEVNULL,
            stdout=subprocess.PIPE,
            stderr=subprocess.STDOUT,
            start_new_session=True,
        )
        try:
            rest = b""
            while True:
                ready, _, _ = select.select([tool.stdout], [], [], 1)
                if ready:
                    piece = os.read(tool.stdout.fileno(), 65536)
                    if not piece:
                        break
                    log.write(piece)
                    log.flush()
                    *lines, rest = (rest + piece).split(b"\n")
                    for line in lines:
                        progress.read(line.decode(errors="replace"))
                progress.beat()
            return tool.wait() == 0
        finally:
            stop(tool)


def make() -> bool:
    """Makes the program of the sources, and returns whether it was made and answers."""
    # The empty text is the empty mesh, so this run of the program ends well and prints nothing.
    return ran_by_rt("qm_prog", "run", ["--", "tidy"], LOG)


def show_error() -> None:
    """Shows what the prover found wrong, without what it lists besides."""
    listed = ("checked ", "statements ", "logic", "linked ", "so far: ", "by-macro: ", "only=", "empty contracts: ")
    lines = LOG.read_text(errors="replace").splitlines()
    lines = [it for it in lines if not it.startswith(listed) and not it.endswith(": proved") and it.strip()]
    # (errors of the quick pass over all sources may not be the build's)
    passed = max((at for at, it in enumerate(lines) if "the quick pass above" in it), default=-1) + 1
    errors = [at for at, it in enumerate(lines) if at >= passed and re.search(r"\berror\b", it)]
    first = errors[0] if errors else max(len(lines) - SHOWN_LINES, 0)
    for line in lines[first : first + SHOWN_LINES]:
        say(line)
    say(f"the build failed; its whole log is {LOG}")


def why_not_dist() -> str:
    """Why the program of dist/ is not the one of these sources, as far as a glance tells."""
    if told_of_sources('is_in_dist "$(sum_of_sources)" && echo yes'):
        return "the sources are not built here"
    if not (ROOT / "dist/quadq").exists():
        return "there is no dist/quadq of these sources"
    if told_of_sources("is_whole && echo yes"):
        return "the sources are not those of dist/quadq"
    return "dist/quadq is not the file that dist/README.md names"


def build() -> bool:
    """Builds where need be, and returns whether the program is current."""
    if is_current():
        return True
    if not shutil.which("rt"):
        say(f"{why_not_dist()}, and the Rattle kit's command rt, which builds them, is not on the PATH")
        return False
    BUILD.mkdir(exist_ok=True)
    say("proving and building the program; the first time takes an hour or more")
    started = time.monotonic()
    while True:
        listed, summed = listing(), checksum()
        is_made = make()
        if summed == checksum():
            break
        say("a source changed meanwhile; building again")
    if not is_made:
        show_error()
        return False
    keep(listed, summed)
    say(f"built in {time.monotonic() - started:.0f} s")
    return True


def clear() -> None:
    """Removes what an unfinished build has left."""
    LOG.unlink(missing_ok=True)
    try:
        BUILD.rmdir()
    except OSError:
        # There is an earlier build, or nothing.
        pass


def run(words: list[str], closed: list[int]) -> NoReturn:
    """Runs the program in the place of this process, with its streams and signals as they were given."""
    signal.signal(signal.SIGPIPE, signal.SIG_DFL)
    signal.signal(signal.SIGXFSZ, signal.SIG_DFL)
    for stream in closed:
        os.close(stream)
    os.execv(PROGRAM, [str(PROGRAM), *words])


def stopped(number: int, _: object) -> NoReturn:
    raise Stopped(number)


def main(words: list[str]) -> int:
    closed = fill_closed_streams()
    if words[:1] == ["--keep"]:
        listed, summed = listing(), checksum()
        if words[1:] == [summed] and MADE.is_file():
            keep(listed, summed)
        return 0
    signals = (signal.SIGINT, signal.SIGTERM, signal.SIGHUP)
    before = [signal.signal(it, stopped) for it in signals]
    is_locked = False
    try:
        lock()
        is_locked = True
        is_built = build()
    except Stopped as why:
        if is_locked:
            clear()
        for it in signals:
            signal.signal(it, signal.SIG_IGN)
        signal.signal(why.args[0], signal.SIG_DFL)
        os.kill(os.getpid(), why.args[0])
    except OSError as error:
        say(f"the build failed: {error}")
        is_built = False
    if not is_built:
        return FAILED
    if words[:1] == ["--run"]:
        for number, handler in zip(signals, before):
            signal.signal(number, handler)
        run(words[1:], closed)
    return 0


if __name__ == "__main__":
    sys.exit(main(sys.argv[1:]))
