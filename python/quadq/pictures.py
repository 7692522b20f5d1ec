"""What the pictures of a report show: meshes with their patches, feature edges and bad faces, and places at fault."""

from __future__ import annotations

from dataclasses import dataclass, field
from typing import Optional, Sequence

import numpy as np

from .arrays import Array
from .canvas import Canvas
from .mesh import Mesh
from .patches import borders

PALETTE = np.array([
    (188, 215, 238), (249, 217, 180), (201, 230, 195), (243, 196, 201),
    (220, 203, 232), (245, 238, 176), (191, 227, 224), (227, 211, 195),
], dtype=float)
PLAIN = np.array((222.0, 226.0, 230.0))
BAD, POOR = np.array((208.0, 32.0, 32.0)), np.array((240.0, 140.0, 40.0))
DARK, GREY, BLUE, RED = (40, 40, 40), (120, 120, 120), (20, 70, 200), (208, 32, 32)
MARGIN = 14
AT_A_TIME = 1 << 16
"""How many faces are drawn together: it bounds the memory."""
SHORTEST = 5.0
"""In pixels: where edges are shorter on average, they are not drawn."""


@dataclass(frozen=True)
class Look:
    """What is shown of a mesh."""

    colours: Array
    """(faces, 3): the colour of each face, from 0 to 255."""
    thick: Array = field(default_factory=lambda: np.zeros((0, 2), dtype=np.int64))
    """(edges, 2): edges drawn thick, as pairs of points."""
    blue: Array = field(default_factory=lambda: np.zeros((0, 2), dtype=np.int64))
    """(edges, 2): edges drawn blue, over these."""
    dots: Sequence[int] = ()
    """Points with a red dot."""


@dataclass(frozen=True)
class View:
    """From where it is seen: to the right, upward and toward the eye, as rows of length 1."""

    axes: Array

    @staticmethod
    def of(points: Array, up: str = "y") -> View:
        """From above and beside; straight at a flat mesh."""
        size = np.ptp(points, axis=0) if len(points) else np.zeros(3)
        if size.min() <= 1e-3 * size.max():
            return View.along(np.eye(3)[int(size.argmin())])
        return View.along(np.array((1.0, 1.1, 1.9) if up == "y" else (1.0, -1.9, 1.1)), up)

    @staticmethod
    def along(toward: Array, up: str = "y") -> View:
        upward = np.array((0.0, 1.0, 0.0) if up == "y" else (0.0, 0.0, 1.0))
        toward = toward / np.linalg.norm(toward)
        if abs(upward @ toward) > 0.98:
            upward = np.array((0.0, 0.0, -1.0) if up == "y" else (0.0, 1.0, 0.0))
        right = np.cross(upward, toward)
        right /= np.linalg.norm(right)
        return View(np.array([right, np.cross(toward, right), toward]))


def draw(mesh: Mesh, look: Look, view: View, size: tuple[int, int], frame: Optional[Array] = None) -> Canvas:
    """A picture of a mesh, so many pixels wide and high. `frame` has the points (n, 3) that it shows, if not all."""
    canvas = Canvas(*size)
    if not mesh.face_count:
        return canvas
    seen = (mesh.points if frame is None else frame) @ view.axes.T
    low, high = seen.min(axis=0), seen.max(axis=0)
    scale = min((size[at] - 2 * MARGIN) / max(high[at] - low[at], 1e-12) for at in (0, 1))
    turned = (mesh.points @ view.axes.T - (low + high) / 2) * scale * [1, -1, 1] + [size[0] / 2, size[1] / 2, 0]
    _draw_faces(canvas, mesh, look, turned)
    _draw_edges(canvas, mesh, look, turned)
    if len(look.dots):
        canvas.dots(turned[list(look.dots)], RED, 9)
    return canvas


def _draw_faces(canvas: Canvas, mesh: Mesh, look: Look, turned: Array) -> None:
    """Each face as the triangles between its sides and its middle."""
    if mesh.is_quads():
        for some in np.array_split(np.arange(mesh.face_count), -(-mesh.face_count // AT_A_TIME)):
            a, b, c, d = turned[mesh.quads[some].T]
            canvas.quads(turned, mesh.quads[some], look.colours[some] * _light(np.cross(c - a, d - b))[:, None])
        return
    for first in range(0, mesh.face_count, AT_A_TIME):
        some = np.arange(first, min(first + AT_A_TIME, mesh.face_count))
        starts = mesh.starts[some] - mesh.starts[first]
        own = np.repeat(some - first, mesh.sides[some])
        corners = turned[mesh.corners[mesh.starts[first]:mesh.starts[some[-1] + 1]]]
        after = np.arange(1, len(corners) + 1)
        after[np.append(starts[1:], len(corners)) - 1] = starts
        middles = np.add.reduceat(corners, starts) / mesh.sides[some, None]
        triangles = np.stack([corners, corners[after], middles[own]], axis=1)
        normals = np.add.reduceat(
            np.cross(triangles[:, 1] - triangles[:, 0], triangles[:, 2] - triangles[:, 0]), starts)
        canvas.triangles(triangles, (look.colours[some] * _light(normals)[:, None])[own])


def _light(normals: Array) -> Array:
    """(faces,): how bright each face is, from its direction (faces, 3); backs are darker."""
    lengths = np.linalg.norm(normals, axis=1)
    # The picture's second axis points downward, so that fronts have normals away from the eye.
    facing = -np.divide(normals[:, 2], lengths, out=np.zeros(len(normals)), where=lengths > 0)
    return np.where(facing >= 0, 0.72 + 0.28 * facing, 0.55 - 0.15 * facing)


def _draw_edges(canvas: Canvas, mesh: Mesh, look: Look, turned: Array) -> None:
    lift = [0.0, 0.0, 1.5]
    edges = mesh.edges.ends
    lengths = np.linalg.norm((turned[edges[:, 1]] - turned[edges[:, 0]])[:, :2], axis=1)
    if lengths.mean() >= SHORTEST:
        canvas.lines(turned[edges] + lift, GREY, 0.5, 0.6)
    canvas.lines(turned[look.thick] + lift, DARK, 1.6)
    canvas.lines(turned[look.blue] + lift, BLUE, 2.0)


def patch_look(mesh: Mesh, patches: Array, tints: Array, bad: Array, blue: Array) -> Look:
    """Patches (faces,) in the colours `tints` (patches,), their borders thick, and bad faces (faces,) by how bad: their
    scaled Jacobians are below 0 or near it."""
    colours = PALETTE[tints[patches]]
    colours[bad < 0.2] = POOR
    colours[bad < 0] = BAD
    return Look(colours, borders(mesh, patches), blue)


def place_look(mesh: Mesh, faces: Sequence[int], points: Sequence[int]) -> Look:
    """A mesh in grey with faces at fault red and points dotted."""
    colours = np.tile(PLAIN, (mesh.face_count, 1))
    colours[list(faces)] = BAD
    edges = mesh.edges
    return Look(colours, edges.ends[edges.uses == 1], dots=points)


def draw_place(mesh: Mesh, faces: Sequence[int], points: Sequence[int], size: tuple[int, int]) -> Canvas:
    """A picture of the faces around a place, seen straight on."""
    at_fault = np.zeros(mesh.face_count, dtype=bool)
    at_fault[list(faces)] = True
    marked = np.isin(mesh.corners, list(points))
    at_fault[mesh.face_of_corner()[marked]] = True
    place = mesh.points[mesh.corners[np.repeat(at_fault, mesh.sides)]]
    centre = place.mean(axis=0)
    reach = 2.2 * np.linalg.norm(place - centre, axis=1).max()
    spot = np.add.reduceat(mesh.points[mesh.corners], mesh.starts[:-1]) / mesh.sides[:, None]
    shown = np.flatnonzero(at_fault | (np.linalg.norm(spot - centre, axis=1) <= 2 * reach))
    part, used = mesh.faces_of(shown)
    near = part.points[np.linalg.norm(part.points - centre, axis=1) <= reach]
    place_of = {int(old): new for new, old in enumerate(used)}
    look = place_look(part, np.flatnonzero(np.isin(shown, list(faces))).tolist(), [place_of[it] for it in points])
    return draw(part, look, View.along(_facing(mesh, at_fault)), size, near if len(near) else None)


def _facing(mesh: Mesh, faces: Array) -> Array:
    """The direction that some faces (faces,) have on average, tilted, so that depth can be seen."""
    corners = mesh.points[mesh.corners]
    after = corners[mesh.next_corners()]
    first = np.repeat(corners[mesh.starts[:-1]], mesh.sides, axis=0)
    normals = np.add.reduceat(np.cross(corners - first, after - first), mesh.starts[:-1])[faces]
    mean = normals.sum(axis=0)
    if np.linalg.norm(mean) < 1e-9 * np.abs(normals).sum():
        mean = normals[0] if len(normals) and np.linalg.norm(normals[0]) > 0 else np.array((0.0, 0.0, 1.0))
    mean = mean / (np.linalg.norm(mean) or 1.0)
    return np.asarray(mean + 0.35 * np.array((0.6, 0.5, 0.62)))
