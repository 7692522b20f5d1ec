#!/usr/bin/env python3
"""Proves and builds libquadq.a, the library of include/quadq.h, where its sources are not as they were at its last
build, and tells on standard error how far it is.

usage: tools/build_library.py     its status is 0 when build/libquadq.a is current, else 70

It needs the Rattle kit's command rt, and `ar`. Beside the archive, build/library.sum has the checksum of its sources
and build/library.log the log of its last build.
"""

from __future__ import annotations

import os
import pathlib
import shutil
import subprocess
import sys
import tempfile

import build

ARCHIVE = build.BUILD / "libquadq.a"
SUM = build.BUILD / "library.sum"
LOG = build.BUILD / "library.log"
MADE = build.ROOT / "crates/qm_lib/out/libqm_lib.a"
HEAP = "c/liblibc_c.a"
"""Where the kit has the three functions by which a proved library reaches the allocator of the C library."""


def is_current() -> bool:
    return ARCHIVE.is_file() and build.bytes_of(SUM) == build.checksum().encode()


def heap_of_kit() -> pathlib.Path:
    """The kit's archive with these three. Raises a `FileNotFoundError` where it has none."""
    kit = pathlib.Path(shutil.which("rt") or "").resolve().parent.parent
    return (kit / HEAP).resolve(strict=True)


def pack() -> None:
    """Puts the objects of both archives into one, with no times and no owners, so that it has the same bytes again."""
    with tempfile.TemporaryDirectory() as room:
        for archive in (MADE, heap_of_kit()):
            subprocess.run(["ar", "x", archive], cwd=room, check=True)
        subprocess.run(["ar", "rcsD", "libquadq.a", *sorted(os.listdir(room))], cwd=room, check=True)
        build.write(ARCHIVE, (pathlib.Path(room) / "libquadq.a").read_bytes())


def make() -> bool:
    """Runs the prover and the compiler, and returns whether the archive was made of sources that stayed as they are."""
    summed = build.checksum()
    SUM.unlink(missing_ok=True)
    made = build.ran_by_rt("qm_lib", "lib", [], LOG)
    if not made or summed != build.checksum():
        return False
    pack()
    build.write(SUM, summed.encode())
    return True


def main() -> int:
    if sys.argv[1:]:
        print(__doc__, file=sys.stderr)
        return 2
    build.lock()
    if is_current():
        return 0
    if not shutil.which("rt") or not shutil.which("ar"):
        build.say("build/libquadq.a is not of these sources, and its build needs ar and the Rattle kit's command rt")
        return build.FAILED
    build.BUILD.mkdir(exist_ok=True)
    build.say("proving and building the library; the first time takes an hour or more")
    try:
        is_made = make()
    except (OSError, subprocess.CalledProcessError) as error:
        build.say(f"the build failed: {error}")
        return build.FAILED
    if not is_made:
        build.say("the build failed; its whole log is build/library.log")
    return 0 if is_made else build.FAILED


if __name__ == "__main__":
    sys.exit(main())
