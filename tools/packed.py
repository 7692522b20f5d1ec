"""What the packages have in common: the files of the Python package, and the time of all files."""

from __future__ import annotations

import os
import pathlib
import subprocess
from typing import Iterator

ROOT = pathlib.Path(__file__).resolve().parent.parent
SCRIPTS = ("obj_text", "mark_features")
EPOCH = 315532800
"""The beginning of 1980, the first time that a zip file can have."""


def version() -> str:
    return (ROOT / "VERSION").read_text().strip()


def epoch() -> int:
    """The time of all files in a package: SOURCE_DATE_EPOCH, or that of the commit, or the first that there is."""
    if "SOURCE_DATE_EPOCH" in os.environ:
        return int(os.environ["SOURCE_DATE_EPOCH"])
    told = subprocess.run(["git", "-C", ROOT, "log", "-1", "--format=%ct"], capture_output=True, text=True)
    return int(told.stdout) if told.returncode == 0 and told.stdout else EPOCH


def package_files() -> Iterator[tuple[str, pathlib.Path]]:
    """The files of the Python package but for the program, as places inside it and paths."""
    for path in sorted((ROOT / "python/quadq").glob("*.py")):
        yield path.name, path
    for path in sorted((ROOT / "python/quadq/page").iterdir()):
        yield f"page/{path.name}", path
    yield "py.typed", ROOT / "python/quadq/py.typed"
    for name in SCRIPTS:
        yield f"{name}.py", ROOT / f"tools/{name}.py"
    for name in ("VERSION", "THIRD_PARTY.md", "CHANGELOG.md"):
        yield name, ROOT / name
