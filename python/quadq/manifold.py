"""Which parts of a mesh are no manifold, found with numpy. What is wrong there the program says."""

from __future__ import annotations

import numpy as np

from .arrays import Array
from .mesh import Mesh
from .surface import least_in_class, twins_of


def parts_at_fault(mesh: Mesh, parts: Array, is_left_out: Array) -> list[Array]:
    """The faces of each part (faces,) in which the program would find a fault, but for parts that have faces which are
    left out (faces,)."""
    count = int(parts.max(initial=-1)) + 1
    is_wrong = np.bincount(parts, weights=_strange_faces(mesh), minlength=count) > 0
    is_wrong &= np.bincount(parts, weights=is_left_out, minlength=count) == 0
    order = np.argsort(parts, kind="stable")
    ends = np.cumsum(np.bincount(parts, minlength=count))
    faces = np.split(order, ends[:-1]) if count else []
    return [faces[it] for it in np.flatnonzero(is_wrong).tolist()]


def _strange_faces(mesh: Mesh) -> Array:
    """(faces,) bool: which have a point twice, a side that another has in the same direction, or a point of two fans.
    """
    after, faces = mesh.next_corners(), mesh.face_of_corner()
    keys = mesh.corners * max(len(mesh.points), 1) + mesh.corners[after]
    found = np.zeros(mesh.face_count, dtype=bool)
    found[faces[_repeated(keys)]] = True
    found[faces[_repeated(faces * max(len(mesh.points), 1) + mesh.corners)]] = True
    # The fans at a point: its corners, as far as they hang together over sides of faces.
    twins = twins_of(mesh)
    inner = np.flatnonzero(twins >= 0)
    fans = least_in_class(len(mesh.corners), inner, after[twins[inner]])
    firsts = np.flatnonzero(fans == np.arange(len(fans)))
    many = np.bincount(mesh.corners[firsts], minlength=len(mesh.points)) > 1
    found[faces[many[mesh.corners]]] = True
    return found


def _repeated(keys: Array) -> Array:
    """The places of keys that are there more than once."""
    _, of, counts = np.unique(keys, return_inverse=True, return_counts=True)
    return np.flatnonzero(counts[of.reshape(-1)] > 1)
