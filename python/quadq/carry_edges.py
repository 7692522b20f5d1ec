"""Which edges of an old mesh the edges of a new one follow, as its map tells exactly."""

from __future__ import annotations

from dataclasses import dataclass

import numpy as np

from .arrays import Array
from .carry_boxes import Boxes
from .maps import EAST, NORTH, ONE, SOUTH, WEST, along
from .mesh import NONE, Mesh


@dataclass(frozen=True)
class Followed:
    """New edges along old ones. Both have the numbers of `Mesh.edges`."""

    of_new: Array
    """(new edges,) int64: the old edge that lies where the middle of each new one does, or NONE."""
    old: Array
    new: Array
    """(pairs,) int64: each old edge with each new one that lies along it, wholly or in part."""

    def kept(self, marked: Array) -> Array:
        """(old edges,) bool: which of the marked old edges (old edges,) have a new edge along them that has their mark.
        """
        of_new = marked[self.of_new] & (self.of_new != NONE)
        found = np.zeros(len(marked), dtype=bool)
        found[self.old[of_new[self.new]]] = True
        return np.asarray(found & marked)

    def renumbered(self, edges: Array) -> Followed:
        """The same with other numbers for the old edges (old edges,), some of which are NONE."""
        of_new = np.where(self.of_new == NONE, NONE, edges[self.of_new])
        old = edges[self.old]
        return Followed(of_new, old[old != NONE], self.new[old != NONE])


def followed(boxes: Boxes, old: Mesh, new: Mesh) -> Followed:
    """The old edges along which new ones lie. A side of a new face lies along old edges where both of its ends are on
    the same line of old edges, as seen from the face's home."""
    starts = boxes.map.places
    ends = np.roll(starts, -1, axis=1)
    of_new = np.full(len(new.edges.ends), NONE)
    pairs = [np.zeros((0, 2), dtype=np.int64)]
    for axis in (0, 1):
        line = starts[:, :, 1 - axis]
        lies = (line == ends[:, :, 1 - axis]) & (line % ONE == 0) & (starts[:, :, axis] != ends[:, :, axis])
        side = np.flatnonzero(lies.ravel())
        low = np.minimum(starts[:, :, axis], ends[:, :, axis]).ravel()[side]
        high = np.maximum(starts[:, :, axis], ends[:, :, axis]).ravel()[side]
        row = line.ravel()[side] // ONE
        middle = ((low + high) // 2 - 1) // ONE
        edges = new.edges.of_corner[side]
        of_new[edges] = _edges_at(boxes, old, side // 4, np.maximum(middle, low // ONE), row, axis)
        counts = -(-high // ONE) - low // ONE
        who = np.repeat(np.arange(len(side)), counts)
        step = np.arange(len(who)) - np.repeat(np.cumsum(counts) - counts, counts)
        at = _edges_at(boxes, old, side[who] // 4, low[who] // ONE + step, row[who], axis)
        pairs.append(np.column_stack([at, edges[who]]))
    return Followed(of_new, *np.concatenate(pairs).T)


def _edges_at(boxes: Boxes, old: Mesh, faces: Array, across: Array, row: Array, axis: int) -> Array:
    """The old edges on a line between two rows (or columns, for the other axis) of boxes, below or above the place in
    this column."""
    inside = row - 1 >= boxes.low[faces, 1 - axis]
    at = row - inside
    places = boxes.at(faces, across, at) if axis == 0 else boxes.at(faces, at, across)
    ways = np.where(inside, *((NORTH, SOUTH) if axis == 0 else (EAST, WEST)))
    return old.edges.of_corner[along(boxes.darts[places], ways)]
