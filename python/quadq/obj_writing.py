"""Meshes as the text of Wavefront OBJ."""

from __future__ import annotations

from typing import Iterator

import numpy as np

from .arrays import Array
from .carried import carried
from .mesh import NONE, Mesh

AT_A_TIME = 4096
"""How many lines are written together."""


def write_obj(mesh: Mesh) -> str:
    """The mesh as OBJ text, in the order of its points and faces. What OBJ has no word for is left out."""
    pieces = [_name_line("mtllib", it) for it in mesh.libraries]
    pieces.append(number_lines("v", mesh.points if mesh.extra is None else np.hstack([mesh.points, mesh.extra])))
    if mesh.texture is not None:
        pieces.append(number_lines("vt", mesh.texture.values))
    if mesh.normal is not None:
        pieces.append(number_lines("vn", mesh.normal.values))
    pieces += _face_lines(mesh)
    pieces += _line_lines(mesh)
    return "".join(pieces)


def _name_line(word: str, name: str) -> str:
    return f"{carried('obj_text').name_line(word, name)}\n"


def changed_names(mesh: Mesh) -> list[str]:
    """The names that OBJ cannot have, and that are written as ones that are like them."""
    tool = carried("obj_text")
    names = {*mesh.libraries, *mesh.line_names, *(name for it in mesh.groups.values() for name in it.names)}
    return sorted(it for it in names if tool.name_in(_name_line("g", it).encode("utf-8", "surrogateescape")[:-1]) != it)


def _line_lines(mesh: Mesh) -> Iterator[str]:
    """The lines, and before those of each group its name."""
    now = ""
    for line, name in zip(mesh.lines, mesh.line_names or ("",) * len(mesh.lines)):
        if name != now:
            now = name
            yield _name_line("g", name)
        yield "l " + " ".join(map(str, (line + 1).tolist())) + "\n"


def plain_text(mesh: Mesh) -> bytes:
    """The points and faces alone, as the program reads them."""
    return write_obj(Mesh(mesh.points, mesh.corners, mesh.starts)).encode()


def number_lines(word: str, table: Array) -> str:
    """A line for each row of a table: the shortest decimals that are its numbers, without a point where they are
    whole."""
    if table.dtype.kind == "i":
        return "".join(_lines_of(word + " %d" * table.shape[1], table))
    lines = _lines_of(word + " %r" * table.shape[1], table)
    return "".join(it.replace(".0 ", " ").replace(".0\n", "\n") for it in lines)


def _lines_of(form: str, table: Array) -> Iterator[str]:
    """The rows of a table in such a form, some lines at a time."""
    for first in range(0, len(table), AT_A_TIME):
        some = table[first:first + AT_A_TIME]
        yield f"{form}\n" * len(some) % tuple(some.ravel().tolist())


def _face_lines(mesh: Mesh) -> Iterator[str]:
    """The faces, and before those where a name changes what they belong to."""
    changes = np.zeros(max(mesh.face_count - 1, 0), dtype=bool)
    for it in mesh.groups.values():
        changes |= it.of_face[1:] != it.of_face[:-1]
    firsts = [0, *(np.flatnonzero(changes) + 1).tolist()] if mesh.face_count else []
    now: dict[str, str] = {}
    table, form = _even_faces(mesh)
    words = [] if form else _corner_words(mesh)
    starts = mesh.starts.tolist()
    for first, last in zip(firsts, [*firsts[1:], mesh.face_count]):
        for word, it in mesh.groups.items():
            name = it.names[it.of_face[first]]
            if now.get(word, "") != name:
                now[word] = name
                yield _name_line(word, name)
        if form:
            yield from _lines_of(form, table[first:last])
        else:
            yield from ("f " + " ".join(words[starts[it]:starts[it + 1]]) + "\n" for it in range(first, last))


def _even_faces(mesh: Mesh) -> tuple[Array, str]:
    """The numbers of each face in a row, and the form of its line; an empty form where faces differ in what they have.
    """
    given = [it for it in (mesh.texture, mesh.normal) if it is not None]
    if not mesh.face_count or not mesh.is_quads() or any(np.any(it.rows == NONE) for it in given):
        return np.zeros((0, 0), dtype=np.int64), ""
    corner = " %d" + ("" if mesh.texture is None else "/%d")
    if mesh.normal is not None:
        corner += "//%d" if mesh.texture is None else "/%d"
    table = np.column_stack([mesh.corners, *(it.rows for it in given)]) + 1
    return table.reshape(mesh.face_count, -1), "f" + corner * 4


def _corner_words(mesh: Mesh) -> list[str]:
    points = (mesh.corners + 1).tolist()
    if mesh.texture is None and mesh.normal is None:
        return list(map(str, points))
    blank = [""] * len(points)
    texture = blank if mesh.texture is None else _index_words(mesh.texture.rows)
    normal = blank if mesh.normal is None else _index_words(mesh.normal.rows)
    return [f"{p}/{t}/{n}".rstrip("/") for p, t, n in zip(points, texture, normal)]


def _index_words(rows: Array) -> list[str]:
    return ["" if it == NONE else str(it + 1) for it in rows.tolist()]
