"""The boxes of new faces: of each the old faces from its home as far as its corners lie, all in one table."""

from __future__ import annotations

from functools import cached_property
from typing import Optional

import numpy as np

from .arrays import Array
from .maps import EAST, NORTH, ONE, SOUTH, WEST, Map, along, beyond


class Boxes:
    """The boxes of a map. A place in one is a column and a row, counted from the home: to the east and to the north of
    it they are above 0. The places of a box stand together, column by column."""

    def __init__(self, given: Map, twins: Array) -> None:
        """`twins` has for each dart of the old mesh the one back along its edge. Raises a `MeshError` where the map
        leads over the boundary."""
        corners = given.places
        self.map, self.twins = given, twins
        self.low = np.minimum(corners.min(axis=1) // ONE, 0)
        """(faces, 2): the least column and row of each box."""
        self.high = np.maximum(-(-corners.max(axis=1) // ONE), 1)
        """(faces, 2): the first column and row beyond it."""
        self.wide = self.high - self.low
        self.sizes = self.wide.prod(axis=1)
        self.firsts = np.cumsum(self.sizes) - self.sizes
        self.face = np.repeat(np.arange(len(self.sizes)), self.sizes)
        """(places,): the new face of each place."""
        inside = np.arange(len(self.face)) - self.firsts[self.face]
        rows = self.wide[self.face, 1]
        self.places = np.column_stack([inside // rows, inside % rows]) + self.low[self.face]
        """(places, 2): its column and row."""
        self.steps = np.abs(self.places).sum(axis=1)
        """(places,): how many steps from the home."""
        self.darts = np.full(len(self.face), -1)
        """(places,): the south dart of the old face there."""
        self._walk()

    def at(self, faces: Array, columns: Array, rows: Array) -> Array:
        """The numbers of places in the boxes of faces."""
        return np.asarray(
            self.firsts[faces] + (columns - self.low[faces, 0]) * self.wide[faces, 1] + rows - self.low[faces, 1])

    def _walk(self) -> None:
        every, zero = np.arange(len(self.sizes)), np.zeros(len(self.sizes), dtype=np.int64)
        self.darts[self.at(every, zero, zero)] = self.map.souths
        for way, step, ends in ((EAST, 1, self.high[:, 0] - 1), (WEST, -1, -self.low[:, 0])):
            for count in range(1, int(ends.max(initial=0)) + 1):
                some = np.flatnonzero(ends >= count)
                at = self.at(some, zero[some] + step * count, zero[some])
                self.darts[at] = beyond(self.darts[at - step * self.wide[some, 1]], way, self.twins)
        base = np.flatnonzero(self.places[:, 1] == 0)
        for way, step, ends in ((NORTH, 1, self.high[:, 1] - 1), (SOUTH, -1, -self.low[:, 1])):
            ends = ends[self.face[base]]
            for count in range(1, int(ends.max(initial=0)) + 1):
                at = base[ends >= count] + step * count
                self.darts[at] = beyond(self.darts[at - step], way, self.twins)

    def reached(self, seams: Array) -> Array:
        """(places,) bool: to which places steps away from the home lead over no seam; `seams` (darts,) bool."""
        found = self.steps == 0
        columns, rows = self.places.T
        order = np.argsort(self.steps, kind="stable")
        ends = np.searchsorted(self.steps[order], np.arange(1, int(self.steps.max(initial=0)) + 2))
        for first, last in zip(ends, ends[1:]):
            some = order[first:last]
            for along_axis, back, ways in ((columns, self.wide[self.face[some], 1], (EAST, WEST)),
                                           (rows, 1, (NORTH, SOUTH))):
                turn = np.sign(along_axis[some])
                before = some - turn * back
                way = np.where(turn > 0, *ways)
                found[some] |= (turn != 0) & found[before] & ~seams[along(self.darts[before], way)]
        return np.asarray(found)

    @cached_property
    def corner_places(self) -> Array:
        """(4 * faces,): the place of its face's box in which each corner lies, the nearest to the home of several."""
        at = self.map.places.reshape(-1, 2)
        columns, rows = np.where(at < 0, at // ONE, np.maximum(at - 1, 0) // ONE).T
        return self.at(np.repeat(np.arange(len(self.sizes)), 4), columns, rows)

    def between(self, corners: Optional[Array] = None, places: Optional[Array] = None) -> tuple[Array, Array]:
        """(4, n) each: the darts of the old face at a place between which each of some corners lies, or of all in the
        places where they are; and how much these count."""
        if corners is None or places is None:
            return self._between_all
        return self._between(corners, places)

    @cached_property
    def _between_all(self) -> tuple[Array, Array]:
        return self._between(np.arange(4 * len(self.sizes)), self.corner_places)

    def _between(self, corners: Array, places: Array) -> tuple[Array, Array]:
        at = self.map.places.reshape(-1, 2)[corners] - self.places[places] * ONE
        east, north = (at / float(ONE)).T
        darts = np.stack([along(self.darts[places], way) for way in range(4)])
        return darts, np.stack([(1 - east) * (1 - north), east * (1 - north), east * north, (1 - east) * north])
