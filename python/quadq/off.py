"""Meshes as OFF, which meshio knows with triangles alone."""

from __future__ import annotations

import re

import numpy as np

from .mesh import Mesh
from .refusal import NOT_QUAD, SYNTAX, Refusal

HEAD = re.compile(rb"(?:ST)?C?N?OFF\b")
"""The first word: what further numbers points have. Places in more than three dimensions are not read."""


def read_off(text: bytes, name: str) -> Mesh:
    """The faces of an OFF text. Raises a `Refusal` that names the line."""
    lines = [(at, it.split(b"#")[0].split()) for at, it in enumerate(text.replace(b"\r", b"\n").split(b"\n"), 1)]
    lines = [(at, words) for at, words in lines if words]
    if not lines or HEAD.fullmatch(lines[0][1][0]) is None:
        raise Refusal(SYNTAX, f"{name} is no OFF text of places in three dimensions")
    head = lines.pop(0)[1][1:]
    counts = head or (lines.pop(0)[1] if lines else [])
    if len(counts) < 2 or not all(it.isdigit() for it in counts[:2]):
        raise Refusal(SYNTAX, f"{name}: the numbers of points and faces are missing")
    points, faces = int(counts[0]), int(counts[1])
    if len(lines) < points + faces:
        raise Refusal(SYNTAX, f"{name} has {len(lines)} lines for {points} points and {faces} faces")
    places = np.array([_place(at, words) for at, words in lines[:points]]).reshape(-1, 3)
    corners = [_corners(at, words, points) for at, words in lines[points:points + faces]]
    if not corners:
        raise Refusal(NOT_QUAD, f"no faces in {name}")
    more = any(len(words) > 3 for _, words in lines[:points]) or any(
        len(words) > 1 + len(it) for (_, words), it in zip(lines[points:], corners))
    starts = np.concatenate([[0], np.cumsum([len(it) for it in corners])])
    return Mesh(places, np.array([it for some in corners for it in some], dtype=np.int64), starts,
                notes=("colours, normals and textures of the OFF text were left out",) if more else ())


def _place(line: int, words: list[bytes]) -> list[float]:
    try:
        return [float(words[at]) for at in range(3)]
    except (ValueError, IndexError) as error:
        raise Refusal(SYNTAX, f"line {line}: three coordinates are wanted") from error


def _corners(line: int, words: list[bytes], points: int) -> list[int]:
    try:
        count = int(words[0])
        corners = [int(it) for it in words[1:1 + count]]
    except ValueError as error:
        raise Refusal(SYNTAX, f"line {line}: a face is wanted") from error
    if len(corners) < count or count < 3 or not all(0 <= it < points for it in corners):
        raise Refusal(SYNTAX, f"line {line}: a face of three or more of {points} points is wanted")
    return corners


def write_off(mesh: Mesh) -> bytes:
    """The points and faces of a mesh as OFF."""
    lines = ["OFF", f"{len(mesh.points)} {mesh.face_count} {len(mesh.edges.ends)}"]
    lines += ["%r %r %r" % tuple(it) for it in mesh.points.tolist()]
    starts, corners = mesh.starts.tolist(), mesh.corners.tolist()
    lines += [" ".join(map(str, [last - first, *corners[first:last]])) for first, last in zip(starts, starts[1:])]
    return "\n".join([*lines, ""]).encode()
