"""The samples: lines of a document that begin with `$`, and what the program prints below them."""

from __future__ import annotations

import os
import pathlib
import re
import subprocess
import tempfile
from typing import Iterator, NamedTuple

from documented.repository import MAN_PAGE, ROOT, Fault, documents, line_at, plain

FENCED = re.compile(r"^```\n(.*?)^```$", re.M | re.S)
UNFILLED = re.compile(r"^\.nf\n(?:\.RS\n)?(.*?)(?:\.RE\n)?\.fi$", re.M | re.S)
OF_QUADQ = re.compile(r"(?:^|[|{;] *)(?:\./)?quadq ")
# The sign between what two commands of a block print.
END_OF_OUTPUT = "\x1e"
LEFT_OUT = ".."


class Sample(NamedTuple):
    """A command with the lines that stand below it."""

    line: int
    command: str
    printed: list[str]


def samples_of(block: str, line: int) -> list[Sample]:
    """The samples of a block that begins at a line. All that stands before the first is left out."""
    found: list[Sample] = []
    for number, text in enumerate(block.splitlines(), line):
        if text.startswith("$ "):
            found.append(Sample(number, text[2:], []))
        elif found:
            found[-1].printed.append(text)
    return found


def blocks_of(file: pathlib.Path) -> Iterator[list[Sample]]:
    """The blocks of a document that run quadq."""
    text = file.read_text()
    if file == MAN_PAGE:
        text = plain(text)
    for block in (UNFILLED if file == MAN_PAGE else FENCED).finditer(text):
        samples = samples_of(block[1], line_at(text, block.start(1)))
        if any(OF_QUADQ.search(it.command) for it in samples):
            yield samples


def outputs(samples: list[Sample], folder: str) -> list[list[str]]:
    """What the commands of a block print, each after the other in one shell."""
    lines = [f"{it.command}\nlast=$?; printf '{END_OF_OUTPUT}'; (exit $last)" for it in samples]
    ran = subprocess.run(
        ["sh"],
        cwd=folder,
        env={**os.environ, "PATH": f"{folder}:{os.environ['PATH']}", "LC_ALL": "C"},
        input="\n".join(lines).encode(),
        stdout=subprocess.PIPE,
        stderr=subprocess.STDOUT,
        timeout=60,
    )
    texts = ran.stdout.decode(errors="replace").split(END_OF_OUTPUT)
    return [it.splitlines() for it in texts[: len(samples)]]


def unlike(wanted: list[str], printed: list[str]) -> int | None:
    """The first line of a sample that is not printed so; a line `..` stands for some lines that are left out."""
    starts = {0}
    for at, line in enumerate(wanted):
        if line == LEFT_OUT:
            starts = set(range(min(starts) + 1, len(printed) + 1))
        else:
            starts = {it + 1 for it in starts if it < len(printed) and printed[it] == line}
        if not starts:
            return at
    return None if len(printed) in starts else len(wanted)


def faults_of(samples: list[Sample], file: pathlib.Path, folder: str) -> Iterator[Fault]:
    for sample, printed in zip(samples, outputs(samples, folder)):
        at = unlike(sample.printed, printed)
        if at is not None:
            what = sample.printed[at] if at < len(sample.printed) else "the end"
            yield Fault(file, sample.line + 1 + at, f"`{sample.command}` does not print this: {what}")


def faults(program: pathlib.Path) -> Iterator[Fault]:
    """Runs all samples. What a sample of a document writes to a file is there for the later ones."""
    for file in [*documents(), MAN_PAGE]:
        with tempfile.TemporaryDirectory() as folder:
            os.symlink(program, f"{folder}/quadq")
            for name in ("examples", "tools"):
                os.symlink(ROOT / name, f"{folder}/{name}")
            for samples in blocks_of(file):
                yield from faults_of(samples, file, folder)
