"""Blocks that meet whole side to whole side, as meshers of blocks want them."""

from __future__ import annotations

from typing import Iterator

import numpy as np

from .arrays import Array
from .blocks import EAST, NORTH, SOUTH, WEST, Block, Blocks, Link, along
from .errors import WishError
from .graphs import SIDES
from .thickness import normals_of, points_as_one

BENT = 0.2
"""The sine of an angle between sides, as it is seen along the normal: with less at a corner a block is cut."""


def conforming(given: Blocks) -> Blocks:
    """The same blocks cut until each side has one neighbour, or one wall. A cut goes straight through all blocks that
    it meets, so there may be many."""
    return _Cutting(given, []).result()


def told_by_corners(given: Blocks) -> Blocks:
    """Conforming blocks that are cut until each has four corners, between which it does not bend too far, and no two
    sides have the same two corners. Raises a `WishError` where a side that has to be cut has one edge."""
    now = conforming(given)
    while True:
        more = list(_like_others(now)) or list(_bent(now))
        if not more:
            return now
        now = _Cutting(now, more).result()


def _bent(given: Blocks) -> Iterator[tuple[int, int, int]]:
    """The longer sides of blocks that bend so far that their corners tell no block, and their middles."""
    names = points_as_one(given)
    normals = normals_of(given, names)
    for at, (block, name) in enumerate(zip(given, names)):
        places = block.points[[0, 0, -1, -1], [0, -1, -1, 0]]
        ahead, back = np.roll(places, -1, axis=0) - places, np.roll(places, 1, axis=0) - places
        upward = (np.cross(ahead, back) * normals[name[[0, 0, -1, -1], [0, -1, -1, 0]]]).sum(axis=1)
        long = np.linalg.norm(ahead, axis=1) * np.linalg.norm(back, axis=1)
        side = SOUTH if block.wide >= block.high else EAST
        if np.any(upward <= BENT * long) and block.length(side) > 1:
            yield at, side, block.length(side) // 2


def _like_others(given: Blocks) -> Iterator[tuple[int, int, int]]:
    """The sides whose two corners are one, or those of another side, and their middles."""
    known: dict[tuple[int, int], tuple[int, ...]] = {}
    for at, numbers in enumerate(points_as_one(given)):
        corners = [int(it) for it in (numbers[0, 0], numbers[0, -1], numbers[-1, -1], numbers[-1, 0])]
        diagonals = [corners[way] == corners[way + 2] for way in range(2)]
        for side in range(len(SIDES)):
            line = tuple(along(numbers, side).tolist())
            line = min(line, line[::-1])
            ends = min(line[0], line[-1]), max(line[0], line[-1])
            if ends[0] != ends[1] and known.setdefault(ends, line) == line and not (any(diagonals) and side == SOUTH):
                continue
            if len(line) < 3:
                raise WishError("blocks meet in a way that this file cannot tell: divide edges, with `by` 2 or more")
            yield at, side, (len(line) - 1) // 2
            break


def column_of(block: Block, side: int, at: int) -> int:
    """The column or row in which a point of a side lies."""
    return at if side in (SOUTH, EAST) else block.length(side) - at


class _Cutting:
    """The columns and rows of points along which blocks are cut."""

    def __init__(self, given: Blocks, more: list[tuple[int, int, int]]) -> None:
        """Cuts at the ends of links, and besides at more points of sides: a block, the side and the point each."""
        self.given = given
        self.cuts = [({0, it.wide}, {0, it.high}) for it in given]
        waiting = more + [(at, link.side, point) for at, it in enumerate(given) for link in it.links
                          for point in (link.first, link.first + link.count)]
        while waiting:
            at, side, point = waiting.pop()
            waiting += self._cut(at, side % 2, column_of(given[at], side, point))
        self.columns = [[np.array(sorted(some)) for some in it] for it in self.cuts]
        counts = [(len(columns) - 1) * (len(rows) - 1) for columns, rows in self.columns]
        self.firsts = np.concatenate([[0], np.cumsum(counts)]).tolist()

    def _cut(self, at: int, axis: int, place: int) -> Iterator[tuple[int, int, int]]:
        """Cuts a block, and tells where that goes on in others."""
        if place in self.cuts[at][axis]:
            return
        self.cuts[at][axis].add(place)
        block = self.given[at]
        for link in block.links:
            point = column_of(block, link.side, place)
            if link.side % 2 == axis and not link.is_wall and link.first < point < link.first + link.count:
                yield link.block, link.across, link.opposite(point)

    def result(self) -> Blocks:
        made = [piece for at in range(len(self.given)) for piece in self._pieces(at)]
        return Blocks(tuple(made), self.given.by)

    def _pieces(self, at: int) -> Iterator[Block]:
        """The pieces of a block, row by row."""
        block, (columns, rows) = self.given[at], self.columns[at]
        wide = len(columns) - 1
        for row in range(len(rows) - 1):
            for column in range(wide):
                points = block.points[rows[row]:rows[row + 1] + 1, columns[column]:columns[column + 1] + 1]
                here = self.firsts[at] + row * wide + column
                inside = {SOUTH: row > 0, EAST: column < wide - 1, NORTH: row < len(rows) - 2, WEST: column > 0}
                steps = {SOUTH: -wide, EAST: 1, NORTH: wide, WEST: -1}
                links = []
                for side in range(len(SIDES)):
                    count = points.shape[1 - side % 2] - 1
                    links.append(Link(side, 0, count, here + steps[side], (side + 2) % 4, 0) if inside[side]
                                 else self._outer(at, side, (columns, rows)[side % 2], (column, row)[side % 2]))
                yield Block(points, tuple(links))

    def _outer(self, at: int, side: int, cuts: Array, piece: int) -> Link:
        """What lies at a piece of a side of a block."""
        block = self.given[at]
        ends = sorted(column_of(block, side, int(it)) for it in cuts[piece:piece + 2])
        link = next(it for it in block.links if it.side == side and it.first <= ends[0] < it.first + it.count)
        count = ends[1] - ends[0]
        if link.is_wall:
            return Link(side, 0, count, link.block, name=link.name)
        return Link(side, 0, count, self._piece_at(link.block, link.across, link.opposite(ends[1])), link.across, 0)

    def _piece_at(self, at: int, side: int, first: int) -> int:
        """The piece of a block at whose side this point of the whole side is the first."""
        block, (columns, rows) = self.given[at], self.columns[at]
        wide, high = len(columns) - 1, len(rows) - 1
        cuts = (columns, rows)[side % 2]
        place = int(np.searchsorted(cuts, column_of(block, side, first)))
        # On the north and west sides points count against columns and rows.
        place -= side in (NORTH, WEST)
        column, row = {SOUTH: (place, 0), EAST: (wide - 1, place), NORTH: (place, high - 1), WEST: (0, place)}[side]
        return int(self.firsts[at]) + row * wide + column
