"""Half a mesh, and a half with its mirror image."""

from __future__ import annotations

from dataclasses import replace
from typing import Optional

import numpy as np

from .arrays import Array
from .mesh import NONE, Layer, Mesh, Names
from .refusal import Refusal

AXES = "xyz"
NEAR = 1e-6
"""A part of the mesh's size: points so near the plane lie in it."""


def half(mesh: Mesh, axis: int) -> tuple[Mesh, Array, Array]:
    """The faces where the coordinate `axis` is above 0, with their numbers and those of their points in the whole mesh.
    Points near the plane are laid into it. Raises a `Refusal` where faces cross the plane or lie in it."""
    points = mesh.points.copy()
    points[:, axis] = _at_plane(mesh, axis)
    if not mesh.face_count:
        return mesh, np.zeros(0, dtype=np.int64), np.arange(len(points))
    wrong = crossing(mesh, axis)
    if len(wrong):
        line = f"face {wrong[0] + 1} crosses the mirror plane {AXES[axis]} = 0, as {len(wrong)} faces do"
        raise Refusal(7, line, wrong.tolist())
    chosen = np.flatnonzero(np.maximum.reduceat(points[mesh.corners, axis], mesh.starts[:-1]) > 0)
    one, used = replace(mesh, points=points).faces_of(chosen)
    return one, chosen, used


def _at_plane(mesh: Mesh, axis: int) -> Array:
    """(points,): the coordinate of each point, 0 where it is near the plane."""
    at = mesh.points[:, axis]
    return np.where(np.abs(at) <= NEAR * np.abs(at).max(initial=0.0), 0.0, at)


def crossing(mesh: Mesh, axis: int) -> Array:
    """The faces that cross the plane, or lie in it."""
    if not mesh.face_count:
        return np.zeros(0, dtype=np.int64)
    at_corners = _at_plane(mesh, axis)[mesh.corners]
    low, high = np.minimum.reduceat(at_corners, mesh.starts[:-1]), np.maximum.reduceat(at_corners, mesh.starts[:-1])
    return np.flatnonzero(((low < 0) & (high > 0)) | ((low == 0) & (high == 0)))


def sewn(mesh: Mesh, axis: int) -> Array:
    """(points,) bool: those on boundary edges that lie in the plane, which are their own image."""
    in_plane = mesh.points[:, axis] == 0
    rim = mesh.edges.ends[mesh.edges.uses == 1]
    found = np.zeros(len(mesh.points), dtype=bool)
    found[rim[np.all(in_plane[rim], axis=1)]] = True
    return found


def with_image(mesh: Mesh, axis: int) -> Mesh:
    """A mesh of quads and its mirror image behind it, sewn along the boundary edges that lie in the plane. The image
    carries what the mesh does, with its normals turned round."""
    is_sewn = sewn(mesh, axis)
    image = np.where(is_sewn, np.arange(len(mesh.points)), len(mesh.points) + np.cumsum(~is_sewn) - 1)
    points = mesh.points[~is_sewn].copy()
    points[:, axis] *= -1
    whole = Mesh.of_quads(
        np.concatenate([mesh.points, points]), np.concatenate([mesh.quads, image[mesh.quads[:, ::-1]]]))
    return replace(
        whole,
        texture=None if mesh.texture is None else _with_image(mesh.texture),
        normal=None if mesh.normal is None else _with_image(mesh.normal, axis),
        groups={word: Names(it.names, np.tile(it.of_face, 2)) for word, it in mesh.groups.items()},
        extra=None if mesh.extra is None else np.concatenate([mesh.extra, mesh.extra[~is_sewn]]),
        lines=mesh.lines + tuple(image[line] for line in mesh.lines if not np.all(is_sewn[line])),
        libraries=mesh.libraries,
        layers={name: _with_image(it) for name, it in mesh.layers.items()},
    )


def _with_image(layer: Layer, axis: Optional[int] = None) -> Layer:
    """A layer of quads and that of their image, whose corners come the other way round; with an axis, the image's
    values are mirrored too."""
    rows = layer.rows.reshape(-1, 4)[:, ::-1].ravel()
    if axis is None:
        return Layer(layer.values, np.concatenate([layer.rows, rows]))
    mirrored = layer.values.copy()
    mirrored[:, axis] *= -1
    rows = np.where(rows == NONE, NONE, rows + len(mirrored))
    return Layer(np.concatenate([layer.values, mirrored]), np.concatenate([layer.rows, rows]))


def both_names(one: Names, other: Names) -> Names:
    """The names of the faces of one mesh and behind them those of another."""
    place: dict[str, int] = {}
    tables = [np.array([place.setdefault(it, len(place)) for it in names.names], dtype=np.int64)[names.of_face]
              for names in (one, other)]
    return Names(tuple(place), np.concatenate(tables))
