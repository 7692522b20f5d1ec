"""How far one quad mesh is from the surface of another."""

from __future__ import annotations

from dataclasses import dataclass

import numpy as np

from .arrays import Array
from .mesh import Mesh

WAYS = 8
"""How many boxes lie in a box of the tree."""
SAMPLES = 5_000
"""How many points are measured at most; of more, each so manieth."""
ROUND = 1_000
"""How many points are looked up at a time: it bounds the memory."""
SLACK = 1 + 1e-12
"""The middle of a face may lie outside of its box by the last digits."""
SPREAD = ((32, 0x1F00000000FFFF), (16, 0x1F0000FF0000FF), (8, 0x100F00F00F00F00F), (4, 0x10C30C30C30C30C3),
          (2, 0x1249249249249249))
"""How far bits are moved, and which of them then count, to spread a number over each third bit."""


@dataclass(frozen=True)
class Distance:
    """From points of one mesh to the surface of another, in the unit of the mesh."""

    mean: float
    greatest: float
    points: int
    """How many points were measured."""


def distance_between(one: Mesh, other: Mesh) -> Distance:
    """From points, middles of edges and middles of faces of the one to the nearest place on the other; the greatest
    distance is also that from the boundary of the one to the boundary of the other, where both have one. Points that no
    face has are left out."""
    if not one.face_count or not other.face_count:
        return Distance(0.0, 0.0, 0)
    used, ends = one.used, one.edges.ends
    counts = np.cumsum([len(used), len(ends), one.face_count])
    chosen = np.arange(0, counts[2], max(1, -(-int(counts[2]) // SAMPLES)))
    points, edges, faces = (chosen[(chosen >= low) & (chosen < high)] - low for low, high in zip((0, *counts), counts))
    probes = np.concatenate(
        [one.points[used[points]], one.points[ends[edges]].mean(axis=1), _middles(one.points[one.quads[faces]])])
    found = Surface(other).distances(probes)
    return Distance(float(found.mean()), max(float(found.max()), _between_rims(one, other)), len(probes))


def _between_rims(one: Mesh, other: Mesh) -> float:
    """The greatest distance from the boundary of the one to that of the other, from points and middles of edges."""
    own, others = (it.edges.ends[it.edges.uses == 1] for it in (one, other))
    if not len(own) or not len(others):
        return 0.0
    own = own[::max(1, -(-2 * len(own) // SAMPLES))]
    probes = np.concatenate([one.points[own[:, 0]], one.points[own].mean(axis=1)])
    rim = Mesh(other.points, others[:, [0, 1, 1, 0]].reshape(-1), np.arange(0, 4 * len(others) + 1, 4))
    return float(Surface(rim).distances(probes).max())


class Surface:
    """The surface of a quad mesh: of each face the four triangles between its sides and its middle. A tree of boxes
    over the faces, in the order of a space-filling curve, finds the nearest; it is laid out level by level, each box as
    its least and its greatest place and a place of the surface within."""

    def __init__(self, mesh: Mesh) -> None:
        order = np.argsort(_curve(_middles(mesh.points[mesh.quads])), kind="stable")
        self.order = order
        corners = mesh.points[mesh.quads[order]]
        self.corners = corners
        a, b, c, d = corners.transpose(1, 0, 2)
        low = np.minimum(np.minimum(a, b), np.minimum(c, d))
        high = np.maximum(np.maximum(a, b), np.maximum(c, d))
        self.levels = [(low, high, _middles(corners))]
        while len(self.levels[-1][0]) > 1:
            low, high, within = self.levels[-1]
            starts = np.arange(0, len(low), WAYS)
            self.levels.append((np.minimum.reduceat(low, starts), np.maximum.reduceat(high, starts), within[starts]))

    def distances(self, probes: Array) -> Array:
        """(probes,) float64: from each of (probes, 3) points to the nearest place of the surface."""
        return np.asarray(np.linalg.norm(self.nearest(probes) - probes, axis=1))

    def nearest(self, probes: Array) -> Array:
        """(probes, 3) float64: the place of the surface that is nearest to each of (probes, 3) points."""
        return self.nearest_faces(probes)[0]

    def nearest_faces(self, probes: Array) -> tuple[Array, Array]:
        """The same places, and (probes,) int64 the face in which each lies."""
        rounds = [self._nearest(probes[at:at + ROUND]) for at in range(0, len(probes), ROUND)]
        return (np.concatenate([np.zeros((0, 3)), *(places for places, _ in rounds)]),
                np.concatenate([np.zeros(0, dtype=np.int64), *(faces for _, faces in rounds)]))

    def _nearest(self, probes: Array) -> tuple[Array, Array]:
        who, box = np.arange(len(probes)), np.zeros(len(probes), dtype=np.int64)
        bound = np.full(len(probes), np.inf)
        for at, (low, high, within) in reversed(list(enumerate(self.levels))):
            if at < len(self.levels) - 1:
                who, box = np.repeat(who, WAYS), (box[:, None] * WAYS + np.arange(WAYS)).ravel()
                inside = box < len(low)
                who, box = who[inside], box[inside]
            at_probe = probes[who]
            nearest = np.linalg.norm(np.maximum(0, np.maximum(low[box] - at_probe, at_probe - high[box])), axis=1)
            # Each probe has some boxes, and all of its boxes stand together.
            reach = np.linalg.norm(at_probe - within[box], axis=1)
            bound = np.minimum(bound, np.minimum.reduceat(reach, np.searchsorted(who, np.arange(len(probes)))))
            kept = nearest <= bound[who] * SLACK
            who, box = who[kept], box[kept]
        places = _on_quads(probes[who], self.corners[box])
        order = np.lexsort((np.linalg.norm(places - probes[who], axis=1), who))
        first = order[np.searchsorted(who[order], np.arange(len(probes)))]
        return places[first], self.order[box[first]]


def _middles(corners: Array) -> Array:
    """(n, 3): the middles of quads (n, 4, 3)."""
    return np.asarray((corners[:, 0] + corners[:, 1] + corners[:, 2] + corners[:, 3]) / 4)


def _curve(places: Array) -> Array:
    """(places,) int64: where each lies along Morton's curve through the box of all."""
    span = np.ptp(places, axis=0).max()
    code = np.zeros(len(places), dtype=np.int64)
    for axis in range(3):
        cells = ((places[:, axis] - places[:, axis].min()) * ((1 << 20) / (span or 1.0))).astype(np.int64)
        for shift, mask in SPREAD:
            cells = (cells | cells << shift) & mask
        code |= cells << axis
    return code


def _on_quads(probes: Array, corners: Array) -> Array:
    """(n, 3): the place of each quad (n, 4, 3) that is nearest to the probe (n, 3) beside it."""
    middle = corners.mean(axis=1)
    sides = [(corners[:, at], corners[:, (at + 1) % 4]) for at in range(4)]
    ways = [_on_planes(probes, *side, middle) for side in sides]
    ways += [_on_segments(probes, *side) for side in sides]
    ways += [_on_segments(probes, start, middle) for start, _ in sides]
    return _nearest_of(probes, np.stack(ways))


def _nearest_of(probes: Array, ways: Array) -> Array:
    """(n, 3): of places (ways, n, 3) the nearest to each probe."""
    squares = np.sum((ways - probes) ** 2, axis=2)
    return np.asarray(ways[np.argmin(squares, axis=0), np.arange(len(probes))])


def _on_planes(probes: Array, a: Array, b: Array, c: Array) -> Array:
    """(n, 3): the foot of each probe on the plane of the triangle beside it, or infinity where that lies outside."""
    normal = np.cross(b - a, c - a)
    square = _dot(normal, normal)
    inside = square > 0
    for start, end in ((a, b), (b, c), (c, a)):
        inside &= _dot(np.cross(end - start, probes - start), normal) >= 0
    height = _dot(probes - a, normal) / np.where(square > 0, square, 1.0)
    return np.where(inside[:, None], probes - height[:, None] * normal, np.inf)


def _on_segments(probes: Array, start: Array, end: Array) -> Array:
    along = end - start
    square = _dot(along, along)
    part = np.clip(_dot(probes - start, along) / np.where(square > 0, square, 1.0), 0, 1)
    return np.asarray(start + part[:, None] * along)


def _dot(one: Array, other: Array) -> Array:
    return np.asarray(np.einsum("ni,ni->n", one, other))
