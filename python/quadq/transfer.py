"""Fields of a mesh on its remesh: values at points by the exact spots of the map, values of faces by what lies under
each new face."""

from __future__ import annotations

from typing import Optional, Union

import numpy as np
from numpy.typing import ArrayLike

from .arrays import Array
from .errors import MeshError, WishError
from .mesh import Mesh
from .results import Result
from .subdivision import at_divided
from .under import Made

POINTS, FACES = "points", "faces"
SAMPLE, MEAN, CONSERVE = "sample", "mean", "conserve"
WAYS = {POINTS: (SAMPLE,), FACES: (SAMPLE, MEAN, CONSERVE)}
"""How values are carried over, by where they are; the last way is the one that is taken if nothing is said."""


def transfer(
    result: Result, values: Union[str, ArrayLike], at: str = POINTS, how: Optional[str] = None
) -> Array:
    """Values of the old mesh on the new one, (new points, ..) or (new faces, ..); `values` has a row for each old point
    or face, or is the name of a field of the old mesh.

    At points they are those at the exact spots of the map: linear along edges, bilinear in faces. On faces `sample`
    takes the value of the old face under the middle of each new one, `mean` the mean over the old faces under it, and
    `conserve` that mean weighed by area: a constant stays one, and the sum of values times `areas_under` is that of
    the old values times `areas`. Whole numbers are sampled if nothing is said, and other values of faces conserved.
    Raises a `WishError` for a way that there is not, and a `MeshError` for values of another shape.
    """
    if at not in WAYS:
        raise WishError(f"values are at {POINTS} or at {FACES}, and not at {at}")
    table = _table(result.old, values, at)
    if how is not None and how not in WAYS[at]:
        raise WishError(f"values at {at} are carried over by {' or '.join(WAYS[at])}, and not by {how}")
    return brought(result.made, table, at, way_of(table, at) if how is None else how)


def way_of(table: Array, at: str) -> str:
    """How values are carried over if nothing is said."""
    return WAYS[at][-1] if table.dtype.kind == "f" else SAMPLE


def brought(made: Made, table: Array, at: str, how: str) -> Array:
    """Values of the old mesh on the new one."""
    if at == POINTS:
        return made.under.map.at_points(table if made.owners is None else at_divided(made.old, table))
    return _on_faces(made, table if made.owners is None else table[made.owners], how)


def _table(old: Mesh, values: Union[str, ArrayLike], at: str) -> Array:
    fields = old.point_fields if at == POINTS else old.face_fields
    if isinstance(values, str):
        if values not in fields:
            raise MeshError(f"the old mesh has no field {values} at {at}: {', '.join(fields) or 'it has none'}")
        return fields[values]
    table = np.asarray(values)
    count = len(old.points) if at == POINTS else old.face_count
    if table.ndim < 1 or len(table) != count:
        raise MeshError(f"values at {at} have the shape ({count}, ..), and not {table.shape}")
    if table.dtype.kind not in "fiub":
        raise MeshError(f"values are real numbers, and not of the kind {table.dtype}")
    return table


def _on_faces(made: Made, values: Array, how: str) -> Array:
    """Values of the old quads (quads, ..) on the new faces."""
    under = made.under
    if how == SAMPLE:
        return np.asarray(values[under.map.homes])
    over = under.overlaps
    weights = over.parts if how == MEAN else over.parts * _areas_of_quads(made)[over.old]
    sums = _sums(over.new, weights, len(under.map.homes))
    # Under a face there may be nothing but faces without an area.
    weights = np.where(sums[over.new] > 0, weights, over.parts)
    weights = weights / _sums(over.new, weights, len(sums))[over.new]
    table = values.astype(np.float64, copy=False).reshape(len(values), -1)
    found = np.column_stack([_sums(over.new, weights * column[over.old], len(sums)) for column in table.T])
    return np.asarray(found.reshape(len(sums), *values.shape[1:]))


def _sums(of: Array, values: Array, count: int) -> Array:
    return np.bincount(of, weights=values, minlength=count)


def areas(mesh: Mesh) -> Array:
    """(faces,) float64: the area of each face, that of its outline as it is seen from where that is largest."""
    if not mesh.face_count:
        return np.zeros(0)
    first = mesh.points[mesh.corners[np.repeat(mesh.starts[:-1], mesh.sides)]]
    here, after = mesh.points[mesh.corners] - first, mesh.points[mesh.corners[mesh.next_corners()]] - first
    whole = np.add.reduceat(np.cross(here, after), mesh.starts[:-1])
    return np.asarray(np.linalg.norm(whole, axis=1) / 2)


def areas_under(result: Result) -> Array:
    """(new faces,) float64: how much of the old surface lies under each new face. Where the surface is kept, in all it
    is the area of the old mesh."""
    over = result.made.under.overlaps
    return _sums(over.new, over.parts * _areas_of_quads(result.made)[over.old], result.mesh.face_count)


def edges_under(result: Result) -> tuple[Array, Array, Array]:
    """The old edges under each new edge that lies along some, as all of the boundary and of kept lines do: a row for
    each pair of them, with the points of the new edge (n, 2) in the direction of a face, those of the old one (n, 2) in
    the same direction, and from where to where on that the new edge lies, in parts of it (n, 2). Of a mesh that was
    divided the old edges are those of its quads."""
    over, old = result.made.under.overlaps, result.ready
    ends = [np.column_stack([it.corners[darts], it.corners[it.next_corners()[darts]]])
            for it, darts in ((result.mesh, over.darts), (old, over.under))]
    return ends[0], ends[1], over.spans


def _areas_of_quads(made: Made) -> Array:
    """(quads,): the areas of the old quads; the pieces of a face that was divided have its area together."""
    found = areas(made.ready)
    if made.owners is None:
        return found
    sums = _sums(made.owners, found, made.old.face_count)
    return np.asarray(found * np.divide(areas(made.old), sums, out=np.ones(len(sums)), where=sums > 0)[made.owners])
