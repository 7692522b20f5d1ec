"""Which version of quadq this is, and which program it runs."""

from __future__ import annotations

import hashlib
from pathlib import Path

_HERE = Path(__file__).resolve().parent


def _version() -> str:
    """As the file VERSION says: that beside this file, as installed, or that of the checkout around it."""
    for folder in (_HERE, _HERE.parents[1]):
        if (folder / "VERSION").is_file():
            return (folder / "VERSION").read_text().strip()
    raise FileNotFoundError("the file VERSION of this package is not there")


VERSION = _version()


def version_lines(program: Path) -> str:
    """The version, and the program with its checksum."""
    return f"quadq-remesh {VERSION}\nprogram {program}\nSHA-256 {hashlib.sha256(program.read_bytes()).hexdigest()}"
