"""A curved surface behind a mesh of quads: cubic patches over its faces, from their normals.

The curve over an edge is a cubic whose ends go along the tangent planes there, as long as those of an arc of a circle.
Over an edge that is hard it follows the line of such edges, and normals do not go across it. Inside a face the four
curves are blended as by Coons.
"""

from __future__ import annotations

from dataclasses import dataclass, replace
from typing import Optional

import numpy as np

from .arrays import Array
from .maps import IN_FACE, ON_EDGE, Map
from .mesh import NONE, Layer, Mesh
from .surface import least_in_class

ANGLE = 30.0
"""Degrees: where faces meet at more, the edge is hard, and where a line of such edges turns by more it has a corner."""
SAME = 1e-4
"""Normals of a file that differ by no more are one."""


@dataclass(frozen=True)
class Curved:
    """The curved surface of a mesh of quads."""

    mesh: Mesh
    handles: Array
    """(darts, 2, 3) float64: from the beginning and from the end of each side of a face to the inner control points of
    its curve."""

    def at(self, darts: Array, s: Array, t: Array) -> Array:
        """(n, 3): the places in faces, so far along the side of a dart and so far from it, from 0 to 1."""
        around = (darts - darts % 4)[:, None] + (darts[:, None] % 4 + np.arange(4)) % 4
        south, east, north, west = around.T
        curves = ((1 - t)[:, None] * self.along(south, s) + t[:, None] * self.along(north, 1 - s)
                  + (1 - s)[:, None] * self.along(west, 1 - t) + s[:, None] * self.along(east, t))
        corners = self.mesh.points[self.mesh.corners[around]]
        parts = np.stack([(1 - s) * (1 - t), s * (1 - t), s * t, (1 - s) * t], axis=1)
        return np.asarray(curves - np.einsum("nk,nki->ni", parts, corners))

    def along(self, darts: Array, at: Array) -> Array:
        """(n, 3): the places on the curves over sides of faces, so far along."""
        mesh, u = self.mesh, at[:, None]
        start, end = mesh.points[mesh.corners[darts]], mesh.points[mesh.corners[mesh.next_corners()[darts]]]
        first, last = start + self.handles[darts, 0], end + self.handles[darts, 1]
        parts = (1 - u) ** 3, 3 * (1 - u) ** 2 * u, 3 * (1 - u) * u ** 2, u ** 3
        return np.asarray(sum(part * it for part, it in zip(parts, (start, first, last, end))))

    def places(self, given: Map) -> Array:
        """(new points, 3): where the points of a map lie on the curved surface."""
        mesh = self.mesh
        found = mesh.points[given.points[:, 0]]
        some = np.flatnonzero(given.kinds == ON_EDGE)
        ends, along = given.points[some, :2], given.weights[some, 1]
        edges = mesh.edges.numbers_of(np.sort(ends, axis=1))
        rises = ends[:, 0] < ends[:, 1]
        darts = np.where(mesh.edges.rising[edges] != NONE, mesh.edges.rising[edges], mesh.edges.falling[edges])
        is_back = rises != (mesh.edges.rising[edges] != NONE)
        found[some] = self.along(darts, np.where(is_back, 1 - along, along))
        some = np.flatnonzero(given.kinds == IN_FACE)
        _, east, both, north = given.weights[some].T
        found[some] = self.at(given.darts[some], east + both, both + north)
        return np.asarray(found)


def curved(mesh: Mesh, marks: Array, angle: Optional[float] = None) -> Curved:
    """The curved surface of a mesh of quads, flat across the edges that are marked (marks, 2) or sharper than an angle,
    and where the file's normals differ. Where no angle is given that is 30 degrees, if the file has no normals."""
    is_told = mesh.normal is not None and not _is_flat_shaded(mesh.normal)
    bend = angle if angle is not None else 180.0 if is_told else ANGLE
    hard = hard_edges(mesh, marks, bend)
    normals = corner_normals(mesh, hard)
    ends, of_corner = mesh.edges.ends, mesh.edges.of_corner
    chords = mesh.points[ends[:, 1]] - mesh.points[ends[:, 0]]
    lines, goes_on = _tangents_of_lines(mesh, hard, bend if angle is not None else ANGLE)
    # Along the boundary the normals of the file are those of one face, and do where no line goes on.
    by_line = hard[:, None] & (goes_on | ~((mesh.edges.uses == 1)[:, None] & is_told))
    after = mesh.next_corners()
    handles = np.zeros((len(mesh.corners), 2, 3))
    rises = mesh.corners < mesh.corners[after]
    for end in range(2):
        # The place of this end among those of the edge, and the chord away from it.
        place = np.where(rises, end, 1 - end)
        chord = np.where(place == 0, 1.0, -1.0)[:, None] * chords[of_corner]
        normal = normals if end == 0 else normals[after]
        flat = chord - np.sum(chord * normal, axis=1, keepdims=True) * normal
        tangent = np.where(by_line[of_corner, place][:, None], lines[of_corner, place], flat)
        handles[:, end] = _as_of_a_circle(tangent, chord)
    return Curved(mesh, handles)


def _as_of_a_circle(tangents: Array, chords: Array) -> Array:
    """Handles along tangents (n, 3), as long as those of the arc of a circle over the chords; a third of the chord
    where there is no tangent."""
    length = np.linalg.norm(chords, axis=1)
    size = np.linalg.norm(tangents, axis=1)
    is_one = (size > 0) & (length > 0)
    unit = np.divide(tangents, size[:, None], out=np.zeros_like(tangents), where=is_one[:, None])
    cosine = np.divide(np.sum(unit * chords, axis=1), length, out=np.ones(len(length)), where=is_one)
    long = 2 * length / (3 * (1 + np.maximum(cosine, 0.0)))
    return np.asarray(np.where(is_one[:, None], long[:, None] * unit, chords / 3))


def rounded(new: Mesh, surface: Curved, given: Map, axis: Optional[int] = None) -> Mesh:
    """A new mesh of a part with its points on the curved surface of the whole, by its map into that. What lay in the
    mirror plane across an axis stays there."""
    places = surface.places(given)
    if axis is not None:
        places[new.points[:, axis] == 0.0, axis] = 0.0
    return replace(new, points=places)


def hard_edges(mesh: Mesh, marks: Array, angle: float) -> Array:
    """(edges,) bool: the boundary, marked edges, those whose faces meet at more than an angle, and those at which the
    normals of the file differ, if it has any that are not of flat faces."""
    edges = mesh.edges
    hard = edges.uses != 2
    known = edges.numbers_of(marks)
    hard[known[known != NONE]] = True
    inner = np.flatnonzero(~hard)
    facing = _facing(mesh)
    cosines = np.sum(facing[edges.rising[inner] // 4] * facing[edges.falling[inner] // 4], axis=1)
    hard[inner] = cosines < np.cos(np.radians(angle))
    if mesh.normal is not None and not _is_flat_shaded(mesh.normal):
        after, values = mesh.next_corners(), _values(mesh.normal)
        rising, falling = edges.rising[inner], edges.falling[inner]
        for one, other in ((rising, after[falling]), (after[rising], falling)):
            hard[inner] |= np.linalg.norm(values[one] - values[other], axis=1) > SAME
    return np.asarray(hard)


def _is_flat_shaded(normal: Layer) -> bool:
    """Whether each face has one normal, or some corners have none."""
    rows = normal.rows.reshape(-1, 4)
    return bool(np.any(rows == NONE) or np.all(rows == rows[:, :1]))


def _values(normal: Layer) -> Array:
    return np.asarray(normal.values[normal.rows][:, :3])


def corner_normals(mesh: Mesh, hard: Array) -> Array:
    """(corners, 3): the normals of the file, or the mean of those of the faces around, as far as no edge is hard, each
    by its angle there."""
    if mesh.normal is not None and not _is_flat_shaded(mesh.normal):
        return _units(_values(mesh.normal))
    soft = np.flatnonzero(~hard)
    after, edges = mesh.next_corners(), mesh.edges
    rising, falling = edges.rising[soft], edges.falling[soft]
    fan = least_in_class(len(mesh.corners), np.concatenate([rising, after[rising]]),
                         np.concatenate([after[falling], falling]))
    before = np.empty(len(after), dtype=np.int64)
    before[after] = np.arange(len(after))
    here = mesh.points[mesh.corners]
    one, other = (_units(here[it] - here) for it in (after, before))
    angles = np.arccos(np.clip(np.sum(one * other, axis=1), -1, 1))
    weighed = np.repeat(_facing(mesh), 4, axis=0) * angles[:, None]
    sums = np.stack([np.bincount(fan, weighed[:, axis], minlength=len(fan)) for axis in range(3)], axis=1)
    return _units(sums)[fan]


def _tangents_of_lines(mesh: Mesh, hard: Array, angle: float) -> tuple[Array, Array]:
    """(edges, 2, 3): at both ends of each hard edge the direction into it of the line of hard edges there, or that of
    the edge; and (edges, 2) bool, whether the line goes on there: it neither parts nor turns by more than an angle."""
    ends = mesh.edges.ends
    found = np.zeros((len(ends), 2, 3))
    some = np.flatnonzero(hard)
    darts = np.concatenate([np.column_stack([some, np.zeros_like(some)]), np.column_stack([some, np.ones_like(some)])])
    points = ends[darts[:, 0], darts[:, 1]]
    away = mesh.points[ends[darts[:, 0], 1 - darts[:, 1]]] - mesh.points[points]
    tangents = away.copy()
    order = np.argsort(points, kind="stable")
    first = np.flatnonzero(np.diff(points[order], prepend=-1) != 0)
    pair = first[np.diff(np.append(first, len(order))) == 2]
    one, other = order[pair], order[pair + 1]
    lengths = np.linalg.norm(away, axis=1)
    units = _units(away)
    # The tangent of the circle through the three points.
    along = units[one] * lengths[other][:, None] - units[other] * lengths[one][:, None]
    goes_on = np.sum(units[one] * -units[other], axis=1) >= np.cos(np.radians(angle))
    tangents[one[goes_on]], tangents[other[goes_on]] = along[goes_on], -along[goes_on]
    found[darts[:, 0], darts[:, 1]] = tangents
    on = np.zeros((len(ends), 2), dtype=bool)
    for some in (one[goes_on], other[goes_on]):
        on[darts[some, 0], darts[some, 1]] = True
    return found, on


def _facing(mesh: Mesh) -> Array:
    a, b, c, d = mesh.points[mesh.quads].transpose(1, 0, 2)
    return _units(np.cross(c - a, d - b))


def _units(vectors: Array) -> Array:
    lengths = np.linalg.norm(vectors, axis=1, keepdims=True)
    return np.asarray(np.divide(vectors, lengths, out=np.zeros_like(vectors), where=lengths > 0))
