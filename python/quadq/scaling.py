"""Meshes of small or great units, which are scaled by a power of two before the program rounds to millionths, and back.
"""

from __future__ import annotations

import math

import numpy as np

from .mesh import Mesh

SIZE = 1024.0
"""About how large a mesh is made."""
SHORT = 2.0 ** -11
"""Where edges are shorter on average, half a millionth shows."""
FACES = 10_000
"""Of how many faces the first two sides are measured for that."""
FAR = 999_999_999.0
"""A mesh that is larger is beyond what the program takes."""


def factor_of(mesh: Mesh, always: bool = False) -> float:
    """The power of two by which a mesh is made larger for the program: 1 where its unit will do, unless it is `always`
    brought to one size."""
    size = float(np.abs(mesh.points[mesh.used]).max(initial=0.0))
    if not 0 < size < math.inf:
        return 1.0
    factor = 2.0 ** round(math.log2(SIZE / size))
    if always or size >= FAR or (is_short(mesh) and factor > 1):
        return factor
    return 1.0


def is_short(mesh: Mesh) -> bool:
    """Whether its edges are so short on average that half a millionth shows."""
    firsts = mesh.starts[:-1][mesh.sides > 2][::max(1, -(-mesh.face_count // FACES))]
    places = [mesh.points[mesh.corners[firsts + at]] for at in range(3)]
    lengths = np.concatenate([np.linalg.norm(places[at] - places[at + 1], axis=1) for at in range(2)])
    return len(lengths) > 0 and float(lengths.mean()) < SHORT


def mean_edge(mesh: Mesh) -> float:
    """The mean length of the edges, or 0 where there are none."""
    one, other = mesh.edges.ends.T
    lengths = np.linalg.norm(mesh.points[one] - mesh.points[other], axis=1)
    return float(lengths.mean()) if len(lengths) else 0.0
