"""How a mesh hangs together: its connected parts, its boundary and its irregular vertices."""

from __future__ import annotations

import numpy as np

from .arrays import Array
from .mesh import NONE, Mesh


def least_in_class(count: int, one: Array, other: Array) -> Array:
    """(count,): for each of so many things the least that pairs `one[i]`, `other[i]` connect it with."""
    least = np.arange(count)
    while len(one):
        low, high = np.minimum(least[one], least[other]), np.maximum(least[one], least[other])
        apart = low != high
        one, other, low, high = one[apart], other[apart], low[apart], high[apart]
        np.minimum.at(least, high, low)
        while True:
            jumped = least[least]
            if np.array_equal(jumped, least):
                break
            least = jumped
    return least


def part_of_face(mesh: Mesh) -> Array:
    """(faces,) int64: the connected part of each face, parts counted from 0 in the order of their first faces. Faces
    that share a point are in one part."""
    first = mesh.corners[mesh.starts[:-1]] if mesh.face_count else np.zeros(0, dtype=np.int64)
    least = least_in_class(len(mesh.points), np.repeat(first, mesh.sides), mesh.corners)
    return number_in_order(least[first])


def number_in_order(names: Array) -> Array:
    """The same classes, counted from 0 in the order in which they come first."""
    _, first, of_name = np.unique(names, return_index=True, return_inverse=True)
    rank = np.empty(len(first), dtype=np.int64)
    rank[np.argsort(first)] = np.arange(len(first))
    return rank[of_name]


def twins_of(mesh: Mesh) -> Array:
    """(darts,) int64: for each side of a face the same one of the face beside it, or NONE."""
    rises = mesh.corners < mesh.corners[mesh.next_corners()]
    of_corner = mesh.edges.of_corner
    return np.where(rises, mesh.edges.falling[of_corner], mesh.edges.rising[of_corner])


def darts_between(mesh: Mesh, heads: Array, tails: Array) -> Array:
    """The sides of faces that go from these points to those, or NONE."""
    at = mesh.edges.numbers_of(np.sort(np.column_stack([heads, tails]), axis=1))
    darts = np.full(len(at), NONE)
    known = at != NONE
    rises = heads[known] < tails[known]
    darts[known] = np.where(rises, mesh.edges.rising[at[known]], mesh.edges.falling[at[known]])
    return darts


def sides_beside(darts: Array, way: int) -> Array:
    """(darts,) int64: of quads, the side so many sides after each around its face."""
    return np.asarray(darts - darts % 4 + (darts + way) % 4)


def irregular_counts(mesh: Mesh) -> tuple[int, int]:
    """How many points inside the mesh have another number of faces than four, and how many on the boundary another
    than two."""
    faces = np.bincount(mesh.corners, minlength=len(mesh.points))
    on_boundary = np.zeros(len(mesh.points), dtype=bool)
    on_boundary[mesh.edges.ends[mesh.edges.uses == 1]] = True
    inside = (faces > 0) & ~on_boundary
    return int(np.sum(inside & (faces != 4))), int(np.sum(on_boundary & (faces != 2)))
