"""Files of the repository, and what is found wrong in them."""

from __future__ import annotations

import pathlib
import re
from typing import NamedTuple

ROOT = pathlib.Path(__file__).resolve().parent.parent.parent
MAN_PAGE = ROOT / "docs/quadq.1"


class Fault(NamedTuple):
    """What is wrong at a line of a file."""

    file: pathlib.Path
    line: int
    what: str

    def __str__(self) -> str:
        return f"{self.file.relative_to(ROOT)}:{self.line}: {self.what}"


def documents() -> list[pathlib.Path]:
    """The documents in Markdown."""
    folders = [ROOT, ROOT / "docs", ROOT / "bench", ROOT / "dist"]
    return [file for folder in folders for file in sorted(folder.glob("*.md"))]


def line_at(text: str, place: int) -> int:
    return text.count("\n", 0, place) + 1


def plain(page: str) -> str:
    """The text of a man page, with its hyphens and quotation marks as they are printed."""
    return re.sub(r"\\f.", "", page.replace("\\-", "-").replace("\\(aq", "'").replace("\\&", ""))
