"""The index of a batch's reports: a page with a row a file, which grows as the files end."""

from __future__ import annotations

import os
import re
from pathlib import Path
from typing import Any, Optional, Sequence
from urllib.parse import quote

from .files import make_folder, write_whole
from .pages import head_of, piece, words
from .refusal import WRITE_FAULT, Refusal
from .rows import Row

NAME = "index.html"
SMALL = re.compile(rb'<meta name="quadq-small" content="([A-Za-z0-9+/= ]*)">')
HEAD = 1 << 18
"""In so many bytes of a page its small pictures stand."""
COLUMNS = (
    ("file", "file"), ("before", ""), ("after", ""), ("refusal or warnings", "refusal, warnings"),
    ("faces before", "faces before"), ("wished", "wished"), ("faces after", "after"), ("inverted faces", "inverted"),
    ("least scaled Jacobian before", "least Jacobian before"), ("least scaled Jacobian after", "after"),
    ("greatest distance", "distance"), ("seconds", "seconds"),
)
"""The columns in words, and what stands in the buttons by which rows are sorted, if they are."""
BODY = """<body><h1>{title}</h1>
<form id="asked" hidden><label>Show <select name="show"><option value="">all</option>
<option value="refused">refused</option><option value="warned">with warnings</option>
<option value="good">without warnings</option></select></label>
<label>with the words <input type="search" name="filter"></label> <output id="count" aria-live="polite"></output></form>
<div class="wide"><table id="files"><caption hidden>A row a file</caption><thead><tr>{heads}</tr></thead>
<tbody>
"""


def page_for(target: Path, out: Path, folder: Path) -> Path:
    """Where the page of a file goes whose remesh goes to a target below `out`."""
    below = target.relative_to(out)
    return folder / below.parent / f"{below.name}.html"


class Index:
    """The page as it grows, row by row. It is a page at any time: a browser ends what is not ended."""

    def __init__(self, folder: Path, title: str) -> None:
        self.folder, self.path = folder, folder / NAME
        self.title = title
        make_folder(folder)
        try:
            self.file = os.open(self.path, os.O_WRONLY | os.O_CREAT | os.O_TRUNC, 0o666)
            self._write(_beginning(title))
        except OSError as error:
            raise self._fault(error) from error

    def add(self, row: Row, page: Path) -> None:
        """Writes the row of a file as it ends. Raises a `Refusal` where it cannot; then nothing of it is there."""
        size = os.fstat(self.file).st_size
        try:
            self._write(self._line(row, page))
        except OSError as error:
            os.ftruncate(self.file, size)
            raise self._fault(error) from error

    def _write(self, text: str) -> None:
        left = memoryview(text.encode("utf-8", "replace"))
        while left:
            left = left[os.write(self.file, left):]

    def close(self, rows: Sequence[tuple[Row, Path]], is_hasty: bool) -> None:
        """Writes the whole anew, at whatever end: refusals first, then the files in their order, and what was not
        reached."""
        os.close(self.file)
        ordered = sorted(rows, key=lambda it: 0 if it[0].status else 2 if it[0].status is None else 1)
        lines = [self._line(row, page) for row, page in ordered]
        text = "".join([_beginning(self.title), *lines, "</tbody></table></div></body></html>\n"])
        write_whole(self.path, text.encode("utf-8", "replace"), is_hasty=is_hasty)

    def _line(self, row: Row, page: Path) -> str:
        pictures = small_pictures(page)
        facts, kind = row.facts, "good" if row.is_good else "refused" if row.status else "unreached"
        kind = "warned" if kind == "good" and row.warnings else kind
        name = words(row.source)
        link = f'<a href="{words(quote(os.fsencode(os.path.relpath(page, self.folder))))}">{name}</a>'
        said = "" if row.is_good else f'<p class="bad">{_status(row)}{words(row.words)}</p>'
        images = [f'<img src="data:image/png;base64,{it}" alt="{side}">'
                  for it, side in zip(pictures, ("before", "after"))]
        warnings = "".join(f"<li>{words(it['words'])}</li>" for it in row.warnings)
        cells = [
            (link if os.path.exists(page) else name, row.source), *((it, None) for it in [*images, "", ""][:2]),
            (said + (f'<ul class="warnings warning">{warnings}</ul>' if warnings else ""), str(len(row.warnings))),
            _number(facts.get("faces_before")), (words(_wish(row.settings)), None), _number(facts.get("faces_after")),
            _number(facts.get("inverted_after")), _number(facts.get("least_before")), _number(facts.get("least_after")),
            _number(facts.get("greatest_distance")),
            _number(round(row.seconds, 2)),
        ]
        return f'<tr data-kind="{kind}">{"".join(_cell(*it) for it in cells)}</tr>\n'

    def _fault(self, error: OSError) -> Refusal:
        return Refusal(WRITE_FAULT, f"write fault: {self.path}: {error.strerror}")


def _beginning(title: str) -> str:
    buttons = [f'<button title="{words(name)}">{words(label)}</button>' if label else name for name, label in COLUMNS]
    heads = "".join(f'<th scope="col">{it}</th>' for it in buttons)
    script = piece("index.js")
    return head_of(title, [script], f"<script>{script}</script>\n") + BODY.format(title=words(title), heads=heads)


def _status(row: Row) -> str:
    return "" if row.status is None else f"status {row.status}: "


def _number(value: Any) -> tuple[str, Optional[str]]:
    return ("" if value is None else f"{value:.3g}" if isinstance(value, float) else words(str(value)),
            "" if value is None else words(str(value)))


def _cell(text: str, value: Optional[str]) -> str:
    return f"<td>{text}</td>" if value is None else f'<td data-value="{words(value)}">{text}</td>'


def _wish(settings: dict[str, Any]) -> str:
    """What was wished, in a word."""
    for name, form in (("faces", "{} faces"), ("scale", "scale {}"), ("edge", "edges of {}"),
                       ("size", "edges as {} says"), ("within", "within {}")):
        if settings.get(name) is not None:
            return form.format(settings[name])
    return ""


def small_pictures(page: Path) -> list[str]:
    """The small pictures of a page, in base64; none where it has none or is not there."""
    try:
        with open(page, "rb") as file:
            found = SMALL.search(file.read(HEAD))
    except OSError:
        return []
    return found[1].decode().split() if found is not None else []
