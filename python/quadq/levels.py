"""Levels of detail: several remeshes of one file, each made from the original."""

from __future__ import annotations

from dataclasses import replace
from fractions import Fraction
from pathlib import Path
from typing import Iterator, Sequence

from .errors import WishError
from .files import nothing_stale, write_whole
from .formats import bytes_of, read_file
from .program import Program
from .remeshing import Tell, run
from .results import Result
from .settings import Settings, as_scale_wish


def shares_of(words: str) -> tuple[Fraction, ...]:
    """The parts of the faces that are named: `1/2,1/4,1/8`. Raises a `WishError` for other words."""
    if not all(it.strip() for it in words.split(",")):
        raise WishError("levels of detail are parts of the faces, such as 1/2,1/4,1/8")
    return tuple(as_scale_wish(it) for it in words.split(","))


def path_of(target: Path, level: int) -> Path:
    """Where a level goes, counted from 1: `out.lod1.obj` for `out.obj`."""
    return target.with_name(f"{target.stem}.lod{level}{target.suffix}")


def level_files(
    source: Path, target: Path, shares: Sequence[Fraction], settings: Settings, program: Program, tell: Tell
) -> Iterator[tuple[Path, Result]]:
    """Remeshes a file into one for each part of its faces, and tells each as it is written. Where that fails, none of
    an earlier run stands at its place and those behind it."""
    paths = [path_of(target, level) for level in range(1, len(shares) + 1)]
    left = list(paths)
    with nothing_stale(left, source):
        tell("reading", 0, 1)
        mesh, text = read_file(source, program, settings.subdivide)
        for path, share in zip(paths, shares):
            result = run(mesh, replace(settings, share=share), program, text, tell)
            tell("writing", 0, 1)
            write_whole(path, bytes_of(path, result.mesh, result.text, settings.form))
            left.remove(path)
            yield path, result
