"""What the part of a page that can be turned has of meshes: arrays in base64, as the script `page/models.js` reads.
"""

from __future__ import annotations

import base64
import json
import math
from dataclasses import dataclass, field
from typing import Any, Optional, Sequence

import numpy as np

from .arrays import Array
from .distance import Surface
from .mesh import NONE, Mesh
from .pictures import PALETTE, View
from .quality import scaled_jacobians
from .scaling import mean_edge

MOST_FACES = 200_000
"""In all. Of larger meshes a page has still pictures alone."""
PROBES = 12_000
"""At about so many places of a mesh its distance to the other is measured."""
STEPS = 65_535
FINE = 48
"""Where edges are shorter on average than so many steps of 16 bits, places have 32."""
PLAIN, BORDER, STAYS, HIDDEN = range(4)
"""What a side of a piece is: an edge, a border of patches, an edge that stays, or no edge at all."""
FEWER, MORE, AT_FAULT = range(3)
"""What a dot is: an irregular point with fewer or with more faces than a regular one, or a point at fault."""


@dataclass(frozen=True)
class Shown:
    """A mesh, and what a page shows of it."""

    label: str
    mesh: Mesh
    numbers: Optional[Array] = None
    """(faces,) int64: the number in its file of each face, from 0, where that is not its own."""
    patches: Optional[Array] = None
    """(faces,) int64: the patch of each face."""
    tints: Optional[Array] = None
    """(patches,) int64: the colour of each, as a place in the palette."""
    borders: Array = field(default_factory=lambda: np.zeros((0, 2), dtype=np.int64))
    stay: Array = field(default_factory=lambda: np.zeros((0, 2), dtype=np.int64))
    """(edges, 2): edges as pairs of points in rising order."""
    distances: Optional[Array] = None
    """(faces,) float64: how far each face is from the other mesh."""
    homes: Optional[Array] = None
    """(faces,) int64: the face of the other mesh in which the middle of each lies."""
    at_fault: Sequence[int] = ()
    dots: Sequence[int] = ()
    """Faces and points at fault."""


def scene_of(meshes: Sequence[Shown], up: str) -> Optional[dict[str, Any]]:
    """What the script reads, or None where the meshes have no faces, too many, or places that are no numbers."""
    count = sum(it.mesh.face_count for it in meshes)
    points = np.concatenate([it.mesh.points[it.mesh.used] for it in meshes])
    if not 0 < count <= MOST_FACES or not len(points) or not np.isfinite(points).all():
        return None
    low, size = points.min(axis=0), np.ptp(points, axis=0)
    side = float(size.max()) or 1.0
    is_fine = all(mean_edge(it.mesh) >= FINE * side / STEPS for it in meshes)
    toward = View.of(meshes[-1].mesh.points, up).axes[2]
    greatest = max([0.0, *(float(it.distances.max(initial=0.0)) for it in meshes if it.distances is not None)])
    return {
        "palette": PALETTE.astype(int).tolist(),
        "greatest": greatest,
        "view": {"up": up, "centre": (size / side / 2).tolist(), **_angles(toward, up),
                 "radius": float(np.linalg.norm(size / side)) / 2 or 1.0},
        "meshes": [_told(it, low, side, is_fine) for it in meshes],
    }


def _angles(toward: Array, up: str) -> dict[str, float]:
    """From where the eye looks, in degrees around the axis that points upward and above the plane across it."""
    x, y, z = (float(it) for it in (toward if up == "y" else toward[[0, 2, 1]] * [1, 1, -1]))
    return {"az": math.degrees(math.atan2(x, z)) if abs(x) + abs(z) > 1e-9 else 0.0,
            "el": math.degrees(math.asin(max(-1.0, min(1.0, y))))}


def _told(it: Shown, low: Array, side: float, is_fine: bool) -> dict[str, Any]:
    mesh, pieces = it.mesh, _pieces(it)
    places = (pieces.points - low) / side
    told: dict[str, Any] = {
        "label": it.label, "faces": mesh.face_count, "bits": 16 if is_fine else 32,
        "points": packed(np.rint(np.clip(places, 0, 1) * STEPS), "<u2") if is_fine else packed(places, "<f4"),
        "corners": packed(pieces.corners, "<u4"), "kinds": packed(pieces.kinds, "u1"),
        "dots": packed(_dots(it), "<u4"), "at_fault": [int(face) for face in it.at_fault],
    }
    wide: list[tuple[str, Optional[Array], str]] = [
        ("face_of", pieces.face_of, "<u4"), ("numbers", it.numbers, "<u4"), ("patches", it.patches, "<u4"),
        ("distances", it.distances, "<f4"), ("homes", it.homes, "<u4"),
        ("jacobians", scaled_jacobians(mesh) if mesh.is_quads() else None, "<f4"),
        ("tints", None if it.tints is None or it.patches is None else it.tints[it.patches], "u1"),
    ]
    told.update({name: packed(values, kind) for name, values, kind in wide if values is not None})
    return told


def packed(values: Array, kind: str) -> str:
    """Numbers in base64, in the kind that numpy names so."""
    return base64.b64encode(np.ascontiguousarray(values, dtype=kind).tobytes()).decode()


@dataclass(frozen=True)
class _Pieces:
    """Faces as pieces of four corners, as they are drawn."""

    points: Array
    corners: Array
    """(pieces, 4) int64."""
    kinds: Array
    """(pieces, 4): what each side is."""
    face_of: Optional[Array]
    """(pieces,) int64: where a face may have several."""


def _pieces(it: Shown) -> _Pieces:
    mesh, edges = it.mesh, it.mesh.edges
    kind_of_edge = np.zeros(len(edges.ends), dtype=np.uint8)
    for pairs, kind in ((it.borders, BORDER), (it.stay, STAYS)):
        at = edges.numbers_of(pairs)
        kind_of_edge[at[at != NONE]] = kind
    kinds = kind_of_edge[edges.of_corner]
    if mesh.is_quads():
        return _Pieces(mesh.points, mesh.quads, kinds.reshape(-1, 4), None)
    return _cut_up(mesh, kinds)


def _cut_up(mesh: Mesh, kinds: Array) -> _Pieces:
    """Polygons as pieces around their first corners. Where a last piece would have three corners, its fourth is the
    middle of its last side."""
    counts = np.maximum((mesh.sides - 1) // 2, 0)
    face_of = np.repeat(np.arange(mesh.face_count), counts)
    number = np.arange(len(face_of)) - np.repeat(np.cumsum(counts) - counts, counts)
    first, sides = mesh.starts[face_of], mesh.sides[face_of]
    one, two, three = (2 * number + it for it in (1, 2, 3))
    is_last = number == counts[face_of] - 1
    is_odd = three >= sides
    corners = np.column_stack([mesh.corners[first], mesh.corners[first + one], mesh.corners[first + two],
                               mesh.corners[first + np.where(is_odd, 0, three)]])
    odd = corners[is_odd]
    corners[is_odd, 3] = len(mesh.points) + np.arange(len(odd))
    points = np.concatenate([mesh.points, (mesh.points[odd[:, 2]] + mesh.points[odd[:, 0]]) / 2])
    last = kinds[first + sides - 1]
    drawn = np.column_stack([
        np.where(number == 0, kinds[first], HIDDEN), kinds[first + one], kinds[first + two],
        np.where(is_last, last, HIDDEN)])
    return _Pieces(points, corners, drawn, face_of)


def _dots(it: Shown) -> Array:
    """(dots, 2): points with a dot, and what it is."""
    mesh = it.mesh
    if len(it.dots) or len(it.at_fault) or not mesh.is_quads():
        return np.array([(point, AT_FAULT) for point in it.dots], dtype=np.int64).reshape(-1, 2)
    found, is_fewer = irregular_points(mesh)
    return np.column_stack([found, np.where(is_fewer, FEWER, MORE)])


def irregular_points(mesh: Mesh) -> tuple[Array, Array]:
    """The points of a mesh of quads with another number of faces than a regular point has, and whether each has fewer.
    """
    faces = np.bincount(mesh.corners, minlength=len(mesh.points))
    regular = np.full(len(faces), 4)
    regular[mesh.edges.ends[mesh.edges.uses == 1]] = 2
    found = np.flatnonzero((faces > 0) & (faces != regular))
    return found, faces[found] < regular[found]


def distances_of_faces(one: Mesh, other: Mesh) -> Array:
    """(faces,) float64: how far each face of the one is from the surface of the other, and a face at the boundary from
    the other's boundary, where it has one. Of small meshes it is the greatest over corners, middles of sides and
    middles of faces; of larger ones that of the middle; of still larger ones each so manieth face is measured, and
    those behind it have its distance."""
    surface, quads = Surface(other), one.quads
    found = np.zeros(one.face_count)
    middles = one.points[quads].mean(axis=1)
    if len(one.points) + len(one.edges.ends) + one.face_count <= PROBES:
        at_points = np.zeros(len(one.points))
        at_points[one.used] = surface.distances(one.points[one.used])
        at_edges = surface.distances(one.points[one.edges.ends].mean(axis=1))
        sides = at_edges[one.edges.of_corner].reshape(-1, 4)
        found = np.maximum(surface.distances(middles), np.maximum(at_points[quads], sides).max(axis=1, initial=0.0))
    else:
        step = step_of(one)
        found = np.repeat(surface.distances(middles[::step]), step)[:one.face_count]
    return np.maximum(found, _from_rim(one, other))


def step_of(mesh: Mesh) -> int:
    """Each so manieth face is measured."""
    return max(1, -(-mesh.face_count // PROBES))


def _from_rim(one: Mesh, other: Mesh) -> Array:
    """(faces,): how far the sides of each face that are on the boundary are from the other's boundary."""
    found = np.zeros(one.face_count)
    own, others = (np.flatnonzero(it.edges.uses == 1) for it in (one, other))
    if not len(own) or not len(others):
        return found
    ends = other.edges.ends[others]
    rim = Mesh(other.points, ends[:, [0, 1, 1, 0]].reshape(-1), np.arange(0, 4 * len(ends) + 1, 4))
    places = one.points[one.edges.ends[own]]
    step = max(1, -(-2 * len(own) // PROBES))
    probes = np.concatenate([places[:, 0], places.mean(axis=1)])
    far = np.repeat(Surface(rim).distances(probes[::step]), step)[:len(probes)].reshape(2, -1).max(axis=0)
    darts = np.maximum(one.edges.rising[own], one.edges.falling[own])
    np.maximum.at(found, darts // 4, far)
    return found


def in_script(told: Any) -> str:
    """JSON that may stand in a page: nothing in it ends a script or begins a comment."""
    text = json.dumps(told, allow_nan=False, separators=(",", ":"))
    for letter in "<>&":
        text = text.replace(letter, f"\\u{ord(letter):04x}")
    return text
