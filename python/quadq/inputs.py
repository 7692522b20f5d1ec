"""The files of a batch, where each remesh goes, and what would be written over something else."""

from __future__ import annotations

import fnmatch
import os
import stat
from pathlib import Path
from typing import Iterable, Iterator, NamedTuple, Optional, Sequence, Union

from .errors import WishError
from .files import is_through
from .parts import KEPT


PathLike = Union[str, "os.PathLike[str]"]


def folder_named(name: PathLike) -> Path:
    """The path of a name. Raises a `WishError` for an empty one, whose path would be the folder at hand."""
    if not os.fspath(name):
        raise WishError("an empty name is none of a file or a folder")
    return Path(name)


def file_named(name: PathLike) -> Path:
    """The same, also for a name that says by a slash at its end that it is a folder: its path would be that of a file.
    """
    if os.fspath(name).endswith(("/", "/.")):
        raise WishError(f"{os.fspath(name)} names a folder, where a file is needed")
    return folder_named(name)


class Input(NamedTuple):
    """A file, and its path below the folder in which it was found."""

    path: Path
    below: Path

    def target(self, out: Path) -> Path:
        """Where its remesh goes: as it is named, but always as OBJ."""
        name = self.below.name
        stem = name[:-len(self.below.suffix)] if self.below.suffix else name
        return out / self.below.parent / f"{stem}.obj"


def inputs_of(
    paths: Sequence[Path], pattern: Optional[str] = None, is_recursive: bool = False, out: Optional[Path] = None
) -> list[Input]:
    """The files that these paths are, and those of folders among them, each once. Names are taken as they are.

    Of a folder come the regular files whose names a pattern matches, or which end in `.obj`, in the order of their
    names; of the folders below it not `out`, which has what an earlier run wrote.
    """
    found: dict[Path, Input] = {}
    for path in paths:
        if os.path.isdir(path):
            for it in _files_in(path, pattern, is_recursive, out):
                found.setdefault(it, Input(it, it.relative_to(path)))
        else:
            found.setdefault(path, Input(path, Path(path.name)))
    return list(found.values())


def _files_in(folder: Path, pattern: Optional[str], is_recursive: bool, out: Optional[Path]) -> Iterator[Path]:
    apart = None if out is None else os.path.realpath(out)
    for place, folders, names in os.walk(folder, onerror=refuse_folder):
        folders[:] = sorted(it for it in folders if os.path.realpath(os.path.join(place, it)) != apart)
        for name in sorted(names):
            is_asked = fnmatch.fnmatchcase(name, pattern) if pattern else name.lower().endswith(".obj")
            if is_asked and not _is_left_out(Path(place) / name):
                yield Path(place) / name
        if not is_recursive:
            return


def _is_left_out(path: Path) -> bool:
    """Whether a path of a folder is a pipe or a device. What cannot be looked at is not: its row says why."""
    try:
        return not stat.S_ISREG(os.stat(path).st_mode)
    except OSError:
        return False


def refuse_folder(error: OSError) -> None:
    """Raises a `WishError` for a folder that cannot be read."""
    raise WishError(f"the folder {error.filename} cannot be read: {error.strerror}")


def refuse_clashes(inputs: Sequence[Input], out: Path) -> None:
    """Raises a `WishError` where two remeshes would go to one file, or one to a file that is read."""
    targets: dict[str, Path] = {}
    sources = {os.path.realpath(it.path) for it in inputs}
    for it in inputs:
        target = os.path.realpath(it.target(out))
        if target in targets:
            raise WishError(f"{targets[target]} and {it.path} would go to the same file, {it.target(out)}")
        if target in sources:
            raise WishError(f"the folder --out has files that would be read: {it.target(out)}")
        targets[target] = it.path


def refuse_overwriting(read: Iterable[Path], written: Iterable[tuple[str, Path]]) -> None:
    """Raises a `WishError` where something that is written, and named in words, would take the place of what is read,
    or of what is written besides."""
    taken = {os.path.realpath(it): f"{it}, which is read" for it in read}
    for name, path in written:
        if is_through(path):
            continue
        place = os.path.realpath(path)
        if place in taken:
            raise WishError(f"{name} would be written over {taken[place]}")
        taken[place] = f"{name}, {path}"


def refuse_kept_clashes(folders: Iterable[Path], files: Iterable[Path]) -> None:
    """Raises a `WishError` where a file has a name by which the texts of parts are kept in a folder."""
    places = {os.path.realpath(it) for it in folders}
    for it in files:
        above, name = os.path.split(os.path.realpath(it))
        if above in places and KEPT.fullmatch(name):
            raise WishError(f"the texts that --keep writes would take the place of {it}")


def refuse_page_clashes(sources: Sequence[Path], pages: Path, out: Path) -> None:
    """Raises a `WishError` where the folder of the pages is a file, or has files that are read, or is that of the
    remeshes."""
    if pages.exists() and not pages.is_dir():
        raise WishError(f"of many files the reports go into a folder, and {pages} is none")
    place = os.path.realpath(pages)
    if place == os.path.realpath(out):
        raise WishError(f"the folders --out and --report are the same: {pages}")
    inside = next((it for it in sources if os.path.realpath(it).startswith(place + os.sep)), None)
    if inside is not None:
        raise WishError(f"the folder --report has files that would be read: {inside}")
