"""The sides of the faces of a mesh of quads, and where they lead."""

from __future__ import annotations

import numpy as np

from .mesh import NONE, Mesh
from .surface import twins_of


class Darts:
    """A dart is a side of a face: it has the number of the corner where it begins. All tables are (darts,) int64."""

    def __init__(self, mesh: Mesh) -> None:
        self.mesh = mesh
        self.of_edge = mesh.edges.of_corner
        """The edge of each."""
        darts = np.arange(len(mesh.corners))
        self.next = darts - darts % 4 + (darts + 1) % 4
        """The next side of the face."""
        self.start = mesh.corners
        self.end = self.start[self.next]
        """The points where each begins and ends."""
        self.twin = twins_of(mesh)
        """The same edge the other way, in the next face; NONE at the boundary."""
        across = self.twin[self.next]
        self.straight = np.where(across == NONE, NONE, self.next[across])
        """The dart that goes straight on past the end; NONE past the boundary."""
