"""How well shaped the faces of a quad mesh are."""

from __future__ import annotations

from dataclasses import dataclass
from typing import Optional

import numpy as np

from .arrays import Array
from .mesh import Mesh

AT_A_TIME = 1 << 15
"""How many faces are measured together: so they stay near the processor."""


@dataclass(frozen=True)
class Quality:
    """The shape of a mesh's faces."""

    least: float
    """The least scaled Jacobian, from -1 to 1; 1 for a mesh without faces."""
    mean: float
    inverted: int
    """Faces with a scaled Jacobian below 0: folded, or with a corner that points inward."""
    first_inverted: Optional[int] = None
    """The number of the first of them, from 0."""


def scaled_jacobians(mesh: Mesh) -> Array:
    """(faces,) float64: the least over each face's corners of the sine between its two sides there, as it is seen along
    the face's normal. 1 for a rectangle, 0 for a triangle, below 0 for a folded face.

    This is the metric of quadrilaterals of that name in the Verdict library (Stimpson et al., 2007).
    """
    quads = mesh.quads
    rounds = [jacobians_of(mesh.points[quads[at:at + AT_A_TIME]]) for at in range(0, len(quads), AT_A_TIME)]
    return np.concatenate([np.zeros(0), *rounds])


def jacobians_of(corners: Array) -> Array:
    """The same of quads (faces, 4, 3)."""
    at = np.ascontiguousarray(corners.transpose(1, 2, 0))
    normal = _unit(_cross(at[2] - at[0], at[3] - at[1]))
    sides = [_unit(at[(side + 1) % 4] - at[side]) for side in range(4)]
    sines = [np.sum(_cross(sides[side - 1], sides[side]) * normal, axis=0) for side in range(4)]
    return np.asarray(np.min(sines, axis=0, initial=1.0))


def _cross(one: Array, other: Array) -> Array:
    """(3, n): the cross products of vectors (3, n)."""
    (ax, ay, az), (bx, by, bz) = one, other
    return np.stack([ay * bz - az * by, az * bx - ax * bz, ax * by - ay * bx])


def _unit(vectors: Array) -> Array:
    """Each vector (3, n) at length 1, and 0 where it has none."""
    lengths = np.sqrt(np.sum(vectors * vectors, axis=0))
    return np.asarray(np.divide(vectors, lengths, out=np.zeros_like(vectors), where=lengths > 0))


def quality_of(mesh: Mesh) -> Quality:
    values = scaled_jacobians(mesh)
    if not len(values):
        return Quality(1.0, 1.0, 0)
    inverted = np.flatnonzero(values < 0)
    first = int(inverted[0]) if len(inverted) else None
    return Quality(float(values.min()), float(values.mean()), len(inverted), first)
