"""What is wished of single places of a mesh: how dense faces are, how long edges are, and which faces alone change."""

from __future__ import annotations

from dataclasses import dataclass, replace
from typing import Optional

import numpy as np

from .arrays import Array
from .mesh import NONE, Mesh
from .subdivision import at_divided

LEAST_DENSITY = 1e-3
SAME = 1e-3
"""Wishes that differ by no more are the same on both sides of a mirror."""


@dataclass(frozen=True)
class Local:
    """The wishes for single points and faces of a mesh."""

    density: Optional[Array] = None
    """(points,) float64: how many times denser faces are to be there."""
    size: Optional[Array] = None
    """(points,) float64: how long edges are to be there, in the unit of the mesh."""
    region: Optional[Array] = None
    """(faces,) bool: the faces that alone are to be remeshed. Edges of others wish to stay as they are."""

    @property
    def is_nowhere(self) -> bool:
        """Whether nothing is wished of single places."""
        return self.density is None and self.size is None and self.region is None

    def times(self, factor: float) -> Local:
        """The same for a mesh that is so many times as large."""
        return self if self.size is None else replace(self, size=self.size * factor)

    def divided(self, mesh: Mesh) -> Local:
        """The same for a mesh whose faces are divided into quads."""
        density, size = (None if it is None else at_divided(mesh, it) for it in (self.density, self.size))
        return Local(density, size, None if self.region is None else self.region[mesh.face_of_corner()])

    def of(self, points: Array, faces: Array) -> Local:
        """The same for a part that has these points and faces of the mesh."""
        density, size = (None if it is None else it[points] for it in (self.density, self.size))
        return Local(density, size, None if self.region is None else self.region[faces])

    def weights(self, count: int) -> Array:
        """(points,) float64: the density, 1 where none is wished."""
        return np.ones(count) if self.density is None else np.maximum(self.density, LEAST_DENSITY)

    def measures(self, mesh: Mesh) -> Array:
        """(edges,) float64: how many of the wished lengths each edge of a mesh of quads is long."""
        ends = mesh.points[mesh.edges.ends]
        lengths = np.linalg.norm(ends[:, 1] - ends[:, 0], axis=1)
        return np.asarray(lengths if self.size is None else lengths * (1 / self.size)[mesh.edges.ends].mean(axis=1))

    def is_inside(self, mesh: Mesh) -> Array:
        """(edges,) bool: which edges of a mesh of quads have all of their faces among those that change."""
        inside = np.ones(len(mesh.edges.ends), dtype=bool)
        if self.region is not None:
            inside[mesh.edges.of_corner[~self.region[mesh.face_of_corner()]]] = False
        return inside

    def is_symmetric(self, points: Array, faces: Array) -> bool:
        """Whether the same is wished at the images of points (points,) and faces (faces,)."""
        used = points != NONE
        return all(it is None or np.allclose(it[used], it[points[used]], rtol=SAME, atol=SAME)
                   for it in (self.density, self.size)) and (
            self.region is None or np.array_equal(self.region, self.region[faces]))

    def rim(self, mesh: Mesh) -> Array:
        """(edges,) bool: the edges between faces that change and others."""
        if self.region is None:
            return np.zeros(len(mesh.edges.ends), dtype=bool)
        touched = np.zeros(len(mesh.edges.ends), dtype=bool)
        touched[mesh.edges.of_corner[self.region[mesh.face_of_corner()]]] = True
        return np.asarray(touched & ~self.is_inside(mesh))


NOWHERE = Local()
"""Where nothing is wished of single places."""
