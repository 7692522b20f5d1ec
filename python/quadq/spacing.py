"""Where along its way an arc is to have its new edges: its wish, divided among its edges by what lies beside each."""

from __future__ import annotations

from dataclasses import dataclass

import numpy as np

from .arrays import Array
from .bending import high_of, sags
from .layout import Layout

MOST = 1_000_000
"""The greatest wish for an edge."""


@dataclass(frozen=True)
class Columns:
    """What lies beside each edge of the arcs of a layout: the edges parallel to it, over the patches on both of its
    sides. (edges of arcs,) float64 each, one arc after the other."""

    sag: Array
    """How far the middle of a bow is from its chord: nine of ten of these edges have no more."""
    length: Array
    """The root mean square of their lengths."""
    weight: Array
    """The mean of a value of edges."""


def columns_of(layout: Layout, kept: Array, values: Array) -> Columns:
    """What lies beside each edge of the arcs, with a value of edges (edges,). Bows do not go over edges that are kept
    (edges,) bool. n log n in the faces."""
    points, edges = layout.mesh.points, layout.edges_along
    squares = np.sum(np.diff(points[layout.mesh.edges.ends], axis=1)[:, 0] ** 2, axis=1)
    first, beside = (layout.darts.of_edge[np.concatenate(it)] for it in zip(*(step.T for step in layout.strips())))
    count = len(squares)
    many = np.bincount(first, minlength=count)[edges]
    length, weight = (np.bincount(first, it[beside], minlength=count)[edges] / many for it in (squares, values))
    return Columns(high_of(first, sags(layout.darts, kept)[beside], count)[edges], np.sqrt(length), weight)


def to_mean(layout: Layout, values: Array) -> Array:
    """(edges of arcs,) float64: values (edges of arcs,) from 0 by one factor an arc, with which their mean on each arc
    is 1; all 1 on an arc where all are 0."""
    means = np.bincount(layout.arc_along, values, minlength=len(layout.old)) / layout.old
    return np.divide(values, means[layout.arc_along], out=np.ones(len(values)), where=means[layout.arc_along] > 0)


def divided(layout: Layout, totals: Array, shares: Array) -> Array:
    """(edges of arcs,) int64: whole numbers that add up to the total of each arc (arcs,), by shares (edges of arcs,).
    None is more than `MOST`: where one would be, the shares of its arc are drawn together."""
    arcs, old = layout.arc_along, layout.old
    even = (totals / old)[arcs]
    wished = even * to_mean(layout, shares)
    begins = np.cumsum(old) - old
    high = np.maximum.reduceat(wished, begins)[arcs]
    # As far toward equal parts as the greatest asks for, a whole number below the most there may be.
    drawn = np.clip((high - (MOST - 1)) / np.maximum(high - even, 1.0), 0, 1)
    wished += drawn * (even - wished)
    ends = np.cumsum(wished)
    ends = np.rint(ends - (ends - wished)[begins][arcs])
    ends[begins + old - 1] = totals
    found = np.diff(ends, prepend=0.0)
    found[begins] = ends[begins]
    return np.asarray(np.minimum(found.astype(np.int64), MOST))
