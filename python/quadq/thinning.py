"""Which old points along each arc stay where it gets fewer edges: those with which new edges are near to its rows."""

from __future__ import annotations

from dataclasses import dataclass

import numpy as np

from .arrays import Array
from .layout import Layout
from .mesh import NONE

REACH, MORE = 4, 2
"""A new edge goes over at most so many times as many old edges as are there for each, and so many more."""
LONGEST = 40
"""Where a new edge could go over more, points are not chosen: all pairs of them would be looked at."""
EVENNESS = 0.01
"""A part of how much longer or shorter than the mean a new edge is: it counts as a distance from the rows."""


@dataclass(frozen=True)
class Bands:
    """The rows beside all arcs, edge by edge: arc by arc, then row by row, in the direction of the arc."""

    place: Array
    """(n,) int64: the place of each edge on its arc, counted over all arcs, one behind the other."""
    left: Array
    """(n,) int64: how many edges of its row come from there on."""
    starts: Array
    """(n, 3) float64: where each begins."""
    ends: Array
    """(n, 3) float64: where each ends."""

    def farthest(self, count: int, reach: int) -> Array:
        """(count, reach + 1) float64: how far rows go at most from a chord that leads from a place over so many edges;
        infinite where there are no more of these."""
        found = np.full((count, reach + 1), np.inf)
        for many in range(1, reach + 1):
            some = np.flatnonzero(self.left >= many)
            chords = self.ends[some + many - 1] - self.starts[some]
            squares = np.maximum(np.sum(chords ** 2, axis=1), np.finfo(float).tiny)
            far = np.zeros(len(some))
            for past in range(1, many):
                way = self.starts[some + past] - self.starts[some]
                along = np.clip(np.sum(way * chords, axis=1) / squares, 0, 1)
                far = np.maximum(far, np.linalg.norm(way - along[:, None] * chords, axis=1))
            worst = np.zeros(count)
            np.maximum.at(worst, self.place[some], far)
            found[np.unique(self.place[some]), many] = worst[np.unique(self.place[some])]
        return found


def bands_of(layout: Layout) -> Bands:
    """The rows beside the arcs of a layout, over the patches on both sides of each."""
    darts, count = layout.darts, len(layout.arc_of_edge)
    place_of_edge, begin = (np.full(count, NONE) for _ in range(2))
    place_of_edge[layout.edges_along] = np.arange(len(layout.edges_along))
    begin[layout.edges_along] = layout.cut.steps[:, 0]
    rows = []
    for number, step in enumerate(layout.strips()):
        first, now = step.T
        edge = darts.of_edge[first]
        is_along = darts.start[first] == begin[edge]
        # Where a strip ends, its dart is told from the side that it was come from, and goes back.
        is_back = (layout.arc_of_edge[darts.of_edge[now]] != NONE) & (now != first)
        is_forth = is_along != is_back
        starts, ends = np.where(is_forth, darts.start[now], darts.end[now]), np.where(
            is_forth, darts.end[now], darts.start[now])
        row = np.full(len(edge), 2 * number) + is_along
        rows.append(np.column_stack([place_of_edge[edge], row, starts, ends]))
    table = np.concatenate(rows)
    table = table[np.lexsort((table[:, 0], table[:, 1], layout.arc_along[table[:, 0]]))]
    left = np.cumsum(layout.old)[layout.arc_along[table[:, 0]]] - table[:, 0]
    return Bands(table[:, 0], left, layout.mesh.points[table[:, 2]], layout.mesh.points[table[:, 3]])


def kept_points(layout: Layout, bands: Bands, lengths: Array) -> Array:
    """(edges of arcs,) float64: shares with which new points are old ones, on each arc that gets fewer edges (arcs,)
    than it had: those with the least sum of squares of how far the rows beside it go from new edges. On others, and
    where new edges would go over very many, all shares are alike. Linear in the faces, and in the square of how many
    old edges a new one may go over."""
    old, shares = layout.old, np.ones(len(layout.edges_along))
    reaches = np.minimum(old, REACH * -(-old // np.maximum(lengths, 1)) + MORE)
    shorter = np.flatnonzero((lengths > 1) & (lengths < old) & (reaches <= LONGEST))
    if not len(shorter):
        return shares
    far = bands.farthest(len(shares), int(reaches[shorter].max()))
    sizes = np.bincount(bands.place, np.linalg.norm(bands.ends - bands.starts, axis=1)) / np.bincount(bands.place)
    begins = np.cumsum(old) - old
    for arc in shorter.tolist():
        span = slice(begins[arc], begins[arc] + old[arc])
        many = np.diff(_least(far[span, :reaches[arc] + 1], sizes[span], int(lengths[arc])))
        shares[span] = np.repeat(1 / many, many)
    return shares


def _least(far: Array, sizes: Array, count: int) -> Array:
    """(count + 1,): the places from 0 to the end with the least sum of squares for so many new edges."""
    long, reach = len(sizes), far.shape[1] - 1
    along = np.concatenate([[0.0], np.cumsum(sizes)])
    mean = along[-1] / count
    best = np.full(long + 1, np.inf)
    best[0] = 0.0
    before = np.zeros((count + 1, long + 1), dtype=np.int64)
    costs = []
    for many in range(1, reach + 1):
        spans = along[many:] - along[:-many]
        costs.append(far[:long + 1 - many, many] ** 2 + (EVENNESS * (spans - mean)) ** 2)
    for new in range(1, count + 1):
        now = np.full(long + 1, np.inf)
        for many, cost in enumerate(costs, 1):
            there = best[:-many] + cost
            is_less = there < now[many:]
            now[many:][is_less] = there[is_less]
            before[new, many:][is_less] = np.flatnonzero(is_less)
        best = now
    kept = [long]
    for new in range(count, 0, -1):
        kept.append(int(before[new, kept[-1]]))
    return np.array(kept[::-1])
