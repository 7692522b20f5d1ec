"""The frame of a page: it stands alone, loads nothing from elsewhere, and runs no script but that of this package."""

from __future__ import annotations

import base64
import hashlib
from functools import lru_cache
from html import escape
from pathlib import Path
from string import Template
from typing import Any, Optional, Sequence

from .scene import in_script

FOLDER = Path(__file__).resolve().parent / "page"
TURNING = ("turning.js", "models.js", "drawing.js", "viewing.js")
"""The scripts of a page with meshes that can be turned, in their order."""


@lru_cache(maxsize=None)
def piece(name: str) -> str:
    """A file of the folder `page`."""
    return (FOLDER / name).read_text(encoding="utf-8")


def words(text: str) -> str:
    """A text as HTML; letters that are none, as names of files may have them, become question marks."""
    return escape(text.encode("utf-8", "replace").decode())


def head_of(title: str, scripts: Sequence[str], more: str = "") -> str:
    """The beginning of a page up to its body; the scripts are those that it may run."""
    style = piece("page.css")
    allowed = " ".join(_sum_of(it) for it in scripts) or "'none'"
    policy = (f"default-src 'none'; img-src data:; style-src {_sum_of(style)}; script-src {allowed}; "
              "base-uri 'none'; form-action 'none'")
    return (f'<!DOCTYPE html><html lang="en"><head><meta charset="utf-8"><title>{words(title)}</title>\n'
            f'<meta http-equiv="Content-Security-Policy" content="{policy}">\n'
            '<meta name="viewport" content="width=device-width, initial-scale=1">\n'
            f"{more}<style>{style}</style></head>\n")


def _sum_of(text: str) -> str:
    return f"'sha256-{base64.b64encode(hashlib.sha256(text.encode()).digest()).decode()}'"


def page_of(title: str, body: Sequence[str], scene: Optional[dict[str, Any]] = None, more: str = "") -> str:
    """A page. With a scene, what its body has of a viewer shows that."""
    script = "\n".join(piece(it) for it in TURNING) if scene is not None else ""
    parts = [head_of(title, [script] if script else [], more), f"<body><h1>{words(title)}</h1>", *body]
    if scene is not None:
        parts += [f'<script type="application/json" id="scene">{in_script(scene)}</script>',
                  f"<script>{script}</script>"]
    return "\n".join([*parts, "</body></html>", ""])


def viewer(labels: Sequence[str], points: str, unit: str) -> str:
    """The part of a body that can be turned: a label for each mesh, and what the dots on it are."""
    named = "".join(f'<span class="label {side}">{words(it)}</span>' for side, it in zip(("before", "after"), labels))
    both = "Both meshes, turned together: " if len(labels) > 1 else "The mesh: "
    return Template(piece("viewer.html")).substitute(
        words=words(both + "; ".join(labels)), labels=named, points=words(points), unit=words(unit))


def table(head: Sequence[str], rows: Sequence[Sequence[str]], caption: str) -> str:
    """Rows with a head of their own each."""
    lines = [f"<caption hidden>{words(caption)}</caption>"]
    if any(head):
        lines += ["<thead><tr>" + "".join(f'<th scope="col">{words(it)}</th>' for it in head) + "</tr></thead>"]
    lines += [f'<tr><th scope="row">{words(row[0])}</th>' + "".join(f"<td>{words(it)}</td>" for it in row[1:]) + "</tr>"
              for row in rows]
    return "<table>" + "\n".join(lines) + "</table>"


def figure(png: bytes, size: tuple[int, int], caption: str) -> str:
    data = base64.b64encode(png).decode()
    return (f'<figure><img src="data:image/png;base64,{data}" width="{size[0]}" height="{size[1]}" '
            f'alt="{words(caption)}"><figcaption>{words(caption)}</figcaption></figure>')
