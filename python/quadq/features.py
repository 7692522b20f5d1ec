"""The feature edges of a mesh, found with numpy.

The script `mark_features.py` holds the rules, and names what each is for. What is found here are the same edges for
the same reasons: `tests/test_features.py` compares the two. An angle that is too near to the wished one for the last
digits of numpy is left to the script.
"""

from __future__ import annotations

from dataclasses import dataclass
from typing import Collection, Optional

import numpy as np

from .arrays import Array
from .carried import carried
from .mesh import NONE, Edges, Layer, Mesh
from .surface import twins_of

KINDS = {
    "materials": "where `usemtl` differs between faces",
    "groups": "where `usemtl`, `g` or `o` differs between faces",
    "seams": "where texture coordinates differ between faces",
    "normals": "where normals differ between faces that are not both flat shaded",
    "lines": "where an `l` line of the file goes",
}
"""What may tell that an edge is a feature, besides an angle."""
REASONS = (
    "by angle", "between groups", "at seams", "by normals", "by lines", "around the region",
    "at corners of the boundary", "at turns of lines", "where groups of edges meet",
)
"""Why an edge is marked, in the order in which edges are marked: the first reason counts. The last is that of
`groups.py`."""
ANGLE, GROUPS, SEAMS, NORMALS, LINES, RIM, CORNERS, TURNS, MEETINGS = range(len(REASONS))
TURN = 30.0
"""Degrees: where lines turn by more they have a corner, if no angle is given."""
NEAR = 1e-9
"""Degrees: the script decides where an angle is so near to the wished one."""
TINY = 1e-290
"""Numbers below have fewer digits."""


@dataclass(frozen=True)
class Marks:
    """Marked edges of a mesh."""

    edges: Array
    """(marks, 2) int64: as pairs of points in rising order, the least first."""
    reasons: Array
    """(marks,) int64: the place of each one's reason in `REASONS`."""

    def in_words(self) -> str:
        """How many edges there are, and why."""
        counts = np.bincount(self.reasons, minlength=len(REASONS)).tolist()
        told = ", ".join(f"{count} {reason}" for count, reason in zip(counts, REASONS) if count)
        return f"{len(self.edges)} edges" + (f": {told}" if told else "")


def find_features(
    mesh: Mesh, angle: Optional[float] = 30.0, *, kinds: Collection[str] = (), corners: bool = True
) -> dict[tuple[int, int], str]:
    """The feature edges of a mesh, each as a pair of points in rising order, with the reason.

    They are the edges whose faces meet at more than an angle in degrees, those of the kinds that are named, of `KINDS`,
    and edges that keep corners of the boundary and of such lines. n log n in the faces.
    """
    marks = mark_features(mesh, angle, kinds=kinds, corners=corners)
    return {(one, other): REASONS[why] for (one, other), why in zip(marks.edges.tolist(), marks.reasons.tolist())}


def mark_features(
    mesh: Mesh, angle: Optional[float] = 30.0, *, kinds: Collection[str] = (), corners: bool = True,
    rim: Optional[Array] = None
) -> Marks:
    """The same edges as tables; with those of a table (edges,) bool besides."""
    marking = _Marking(mesh)
    if angle is not None:
        marking.mark_angles(angle)
    if "materials" in kinds or "groups" in kinds:
        marking.mark_names(("usemtl", "g", "o") if "groups" in kinds else ("usemtl",))
    if "seams" in kinds and mesh.texture is not None:
        marking.mark_seams(mesh.texture)
    if "normals" in kinds and mesh.normal is not None:
        marking.mark_normals(mesh.normal)
    if "lines" in kinds:
        marking.mark_lines()
    if rim is not None:
        marking.mark(np.flatnonzero(rim), np.flatnonzero(rim), RIM)
    if corners:
        turn = TURN if angle is None else angle
        marking.mark_boundary_corners(turn)
        marking.mark_turns(turn)
    found = np.flatnonzero(marking.reason != NONE)
    return Marks(mesh.edges.ends[found], marking.reason[found])


class _Marking:
    """The edges of a mesh that are marked so far. A dart is a side of a face: it has the number of the corner where it
    begins."""

    def __init__(self, mesh: Mesh) -> None:
        self.mesh = mesh
        self.edges: Edges = mesh.edges
        self.after = mesh.next_corners()
        self.before = np.empty(len(self.after), dtype=np.int64)
        self.before[self.after] = np.arange(len(self.after))
        self.face = mesh.face_of_corner()
        self.reason = np.full(len(self.edges.ends), NONE)
        self.rank = np.zeros(len(self.edges.ends), dtype=np.int64)
        """Of each marked edge its place among those of its reason: so the script comes to them."""
        self.is_inner = (self.edges.rising != NONE) & (self.edges.falling != NONE)
        self.inner = np.flatnonzero(self.is_inner)
        self.one, self.other = self.edges.rising[self.inner], self.edges.falling[self.inner]
        """The two darts of each inner edge. The script comes to an edge with the first of them."""

    def mark(self, edges: Array, ranks: Array, reason: int) -> None:
        """Marks those of some edges that are not marked. Of the ranks of an edge that is there twice the first counts.
        """
        fresh = self.reason[edges] == NONE
        self.rank[edges[fresh][::-1]] = ranks[fresh][::-1]
        self.reason[edges[fresh]] = reason

    def mark_inner(self, chosen: Array, reason: int) -> None:
        """Marks the inner edges that are chosen (inner,)."""
        self.mark(self.inner[chosen], self.one[chosen], reason)

    def mark_angles(self, angle: float) -> None:
        facing = _facing(self.mesh)
        self.mark_inner(_differ_by(facing[self.face[self.one]], facing[self.face[self.other]], angle), ANGLE)

    def mark_names(self, words: Collection[str]) -> None:
        differ = np.zeros(len(self.inner), dtype=bool)
        for names in (self.mesh.groups[word] for word in words if word in self.mesh.groups):
            place: dict[str, int] = {}
            of_face = np.array([place.setdefault(it, len(place)) for it in names.names], dtype=np.int64)[names.of_face]
            differ |= of_face[self.face[self.one]] != of_face[self.face[self.other]]
        self.mark_inner(differ, GROUPS)

    def mark_seams(self, texture: Layer) -> None:
        self.mark_inner(self._values_differ(texture), SEAMS)

    def mark_normals(self, normal: Layer) -> None:
        firsts = np.repeat(self.mesh.starts[:-1], self.mesh.sides)
        uneven = name_others(normal, np.arange(len(firsts)), firsts)
        is_flat = np.ones(self.mesh.face_count, dtype=bool)
        is_flat[self.face[uneven]] = False
        both = is_flat[self.face[self.one]] & is_flat[self.face[self.other]]
        self.mark_inner(self._values_differ(normal) & ~both, NORMALS)

    def _values_differ(self, layer: Layer) -> Array:
        """(inner,) bool: whether the faces of each edge name other values at one of its ends."""
        at_start = name_others(layer, self.one, self.after[self.other])
        return at_start | name_others(layer, self.after[self.one], self.other)

    def mark_lines(self) -> None:
        edges = self.edges.numbers_of(edges_in(self.mesh.lines))
        edges = edges[edges != NONE]
        edges = edges[self.is_inner[edges]]
        self.mark(edges, np.arange(len(edges)), LINES)

    def mark_boundary_corners(self, angle: float) -> None:
        before, twins, corners = self.before, twins_of(self.mesh), self.mesh.corners
        darts = np.flatnonzero((twins == NONE) & (np.bincount(corners)[corners] == 2))
        inward = twins[before[darts]]
        darts, inward = darts[inward != NONE], inward[inward != NONE]
        turns = self._turn_by(before[inward], darts, self.after[darts], angle)
        self.mark(self.edges.of_corner[inward[turns]], darts[turns], CORNERS)

    def mark_turns(self, angle: float) -> None:
        before, twins = self.before, twins_of(self.mesh)
        darts = self._line_darts()
        for _ in range(3):
            more = twins[before[darts[:, -1]]]
            darts = np.column_stack([darts, more])[more != NONE]
        ends = self.mesh.corners[self.after[darts]]
        comes_round = self.mesh.corners[before[darts[:, 3]]] == ends[:, 0]
        darts = darts[comes_round & np.all(ends[:, 1:] != ends[:, :1], axis=1)]
        edges = self.edges.of_corner[darts]
        marked = self.reason != NONE
        is_open = ~(marked[edges[:, 1]] | marked[edges[:, 3]])
        darts, edges = darts[is_open], edges[is_open]
        turns = self._turn_by(self.after[darts[:, 0]], darts[:, 0], self.after[darts[:, 2]], angle)
        # What is marked here counts at the vertices behind.
        for beside, across, back in edges[turns, 1:].tolist():
            if marked[across] and not marked[beside] and not marked[back]:
                marked[beside] = True
        self.reason[marked & (self.reason == NONE)] = TURNS

    def _line_darts(self) -> Array:
        """(n, 1): for each vertex with four faces at which there are marked edges, in order, the dart from it along
        the one that was marked last."""
        marked = np.flatnonzero(self.reason != NONE)
        marked = marked[np.lexsort((self.rank[marked], self.reason[marked]))]
        last = np.full(len(self.mesh.points), NONE)
        last[self.edges.ends[marked].ravel()] = np.repeat(marked, 2)
        faces = np.bincount(self.mesh.corners, minlength=len(last))
        vertices = np.flatnonzero((last != NONE) & (faces == 4))
        edges = last[vertices]
        rises = self.edges.ends[edges, 0] == vertices
        return np.where(rises, self.edges.rising[edges], self.edges.falling[edges])[:, None]

    def _turn_by(self, first: Array, middle: Array, last: Array, angle: float) -> Array:
        """(n,) bool: whether the way over the points of three corners turns by more than an angle."""
        a, b, c = (self.mesh.points[self.mesh.corners[it]] for it in (first, middle, last))
        return _differ_by(b - a, c - b, angle)


def _facing(mesh: Mesh) -> Array:
    """(faces, 3): the cross product of the diagonals of each face, as far as its first four corners go."""
    at = mesh.starts[:-1, None] + np.arange(4) % np.maximum(mesh.sides, 1)[:, None]
    a, b, c, d = mesh.points[mesh.corners[at]].transpose(1, 0, 2)
    with np.errstate(all="ignore"):
        return np.stack(_cross(c - a, d - b), axis=1)


def _cross(one: Array, other: Array) -> tuple[Array, Array, Array]:
    (ax, ay, az), (bx, by, bz) = one.T, other.T
    return ay * bz - az * by, az * bx - ax * bz, ax * by - ay * bx


def _differ_by(one: Array, other: Array, angle: float) -> Array:
    """(n,) bool: whether directions (n, 3) differ by more than an angle in degrees."""
    with np.errstate(all="ignore"):
        x, y, z = _cross(one, other)
        across = np.hypot(np.hypot(x, y), z)
        along = one[:, 0] * other[:, 0] + one[:, 1] * other[:, 1] + one[:, 2] * other[:, 2] + 0.0
        angles = np.degrees(np.arctan2(across, along))
        is_sure = (np.abs(angles - angle) > NEAR) & (across > TINY)
    # An angle of 0, 90 or 180 degrees is exact.
    is_sure |= (across == 0) | (along == 0)
    differ = angles > angle
    angle_between = carried("mark_features").angle_between
    for at in np.flatnonzero(~is_sure).tolist():
        differ[at] = angle_between(one[at].tolist(), other[at].tolist()) > angle
    return np.asarray(differ)


def name_others(layer: Layer, some: Array, others: Array) -> Array:
    """(n,) bool: whether these corners name other values than those."""
    rows, beside = layer.rows[some], layer.rows[others]
    differ = rows != beside
    both = np.flatnonzero(differ & (rows != NONE) & (beside != NONE))
    differ[both] = np.any(layer.values[rows[both]] != layer.values[beside[both]], axis=1)
    return np.asarray(differ)


def edges_in(lines: tuple[Array, ...]) -> Array:
    """(edges, 2) int64: the edges of `l` lines, as pairs of points in rising order."""
    pairs = [np.column_stack([line[:-1], line[1:]]) for line in lines]
    return np.sort(np.concatenate([np.zeros((0, 2), dtype=np.int64), *pairs]), axis=1)
