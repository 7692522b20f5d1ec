"""Wished lengths of arcs: from the shape of a part, and as lines of the text that the program reads."""

from __future__ import annotations

from dataclasses import dataclass
from functools import cached_property
from typing import Callable, Optional

import numpy as np

from .arrays import Array
from .bending import Rows, row_means, rows_of
from .layout import Layout
from .local import NOWHERE, Local
from .mesh import NONE
from .parts import Part, with_wishes
from .spacing import Columns, columns_of, divided, to_mean
from .thinning import Bands, bands_of, kept_points

UNIT = 1000
"""A wish for one new edge."""


@dataclass(frozen=True)
class Shares:
    """What counts in the wish of an arc: how its rows bend, how long they are, and how many edges it had."""

    bent: float
    even: float
    old: float


BENT = Shares(0.65, 0.05, 0.30)
FLAT = Shares(0.20, 0.20, 0.60)
"""Where the most of a mesh is flat: so faces there keep their shape."""
EVEN = Shares(0.0, 1.0, 0.0)
AS_BEFORE = Shares(0.0, 0.0, 1.0)


@dataclass(frozen=True)
class Shape:
    """A part with its layout, and what each of its arcs would have."""

    part: Part
    layout: Layout
    local: Local = NOWHERE
    """What is wished of its single points and faces."""

    @cached_property
    def _kept(self) -> Array:
        """(edges,) bool: which edges are to stay."""
        edges = self.part.mesh.edges
        kept = np.zeros(len(edges.ends), dtype=bool)
        kept[edges.numbers_of(self.part.marks)] = True
        return kept

    @cached_property
    def rows(self) -> Rows:
        return rows_of(self.layout, self._kept, self.local.weights(len(self.part.mesh.points)))

    @cached_property
    def _ways(self) -> tuple[Array, Array, Array]:
        """What arcs would have by how they bend, how long they are and what they had, as many faces in all."""
        old = self.layout.old.astype(float)
        chord = old * np.sqrt(self.rows.sag)
        return self.layout.to_old_count(chord), self.layout.to_old_count(self.rows.length), old

    def lengths(self, shares: Shares) -> Array:
        """(arcs,) float64: the lengths that are wished where about as many faces are wished as there are, but for what
        is to be denser."""
        squares = zip((shares.bent, shares.even, shares.old), self._ways)
        summed = sum((share * it ** 2 for share, it in squares), np.zeros(len(self.layout.old)))
        return np.asarray(np.sqrt(summed) * (1.0 if self.local.density is None else self.rows.weight))

    def sizes(self) -> Array:
        """(arcs,) float64: how many of the lengths that are wished at points they are long."""
        return row_means(self.layout, self.local.measures(self.part.mesh))

    @cached_property
    def inside(self) -> Array:
        """(arcs,) float64: which part of each changes."""
        arcs, count = self.layout.arc_of_edge, len(self.layout.old)
        on = arcs != NONE
        inside = np.bincount(arcs[on], self.local.is_inside(self.part.mesh)[on], count)
        return np.asarray(inside / np.bincount(arcs[on], minlength=count))

    def changed(self, lengths: Array) -> Array:
        """(arcs,) float64: these lengths for what of arcs changes; the rest is as long as it was."""
        if self.local.region is None:
            return lengths
        return self.inside * lengths + (1 - self.inside) * self.layout.old

    def measures(self) -> Array:
        """(arcs,) float64: how long they are in the unit of the mesh, times how much denser they are to be."""
        return self.rows.length if self.local.density is None else self.rows.length * self.rows.weight

    @property
    def is_flat(self) -> bool:
        """Whether the most of its arcs see nothing that bends."""
        sag, length = self.rows.sag, self.rows.length / self.layout.old
        return float(np.mean(sag <= 1e-3 * length)) > 0.5

    @cached_property
    def columns(self) -> Columns:
        return columns_of(self.layout, self._kept, self.local.weights(len(self.part.mesh.points))[
            self.part.mesh.edges.ends].mean(axis=1))

    @cached_property
    def bands(self) -> Bands:
        return bands_of(self.layout)

    def wished(self, lengths: Array, along: Optional[Array] = None) -> Part:
        """The part with lines that wish these lengths (arcs,), in equal parts or in shares (edges of arcs,) of the
        edges along each. Edges outside a region wish to stay as they are, as far as that leaves something."""
        layout, edges = self.layout, self.layout.edges_along
        totals = np.rint(UNIT * lengths).astype(np.int64)
        shares = np.ones(len(edges)) if along is None else along
        if along is not None and self.local.region is not None:
            shares = self._of_inside(totals / UNIT, shares)
        wishes = np.full(len(layout.arc_of_edge), NONE)
        wishes[edges] = divided(layout, totals, shares)
        return with_wishes(self.part, wishes)

    def _of_inside(self, lengths: Array, shares: Array) -> Array:
        """(edges of arcs,) float64: shares with which edges outside a region have the length 1 where that leaves some
        for those inside."""
        arcs, count = self.layout.arc_along, len(lengths)
        is_inside = self.local.is_inside(self.part.mesh)[self.layout.edges_along]
        many, summed = (np.bincount(arcs, it, minlength=count) for it in (~is_inside, shares * is_inside))
        rest = lengths - many
        by_inside = np.where(is_inside, shares * (rest / np.maximum(summed, 1e-9))[arcs], 1.0)
        return np.asarray(np.where(((rest > 0) & (summed > 0))[arcs], by_inside, 1.0))


Along = Callable[[Shape, Array], Array]
"""The shares (edges of arcs,) that edges have of the wishes of their arcs, for lengths (arcs,)."""


def by_bends(shape: Shape, lengths: Array) -> Array:
    """More where the rows beside an arc bend, or are to be denser."""
    shares, sides = FLAT if shape.is_flat else BENT, shape.columns
    bent, even = (to_mean(shape.layout, it) for it in (np.sqrt(sides.sag), sides.length))
    return np.asarray(np.sqrt(shares.bent * bent ** 2 + shares.even * even ** 2 + shares.old) * sides.weight)


def by_density(shape: Shape, lengths: Array) -> Array:
    """More where the rows beside an arc are to be denser."""
    return shape.columns.weight


def by_length(shape: Shape, lengths: Array) -> Array:
    """As much as edges are long, in the unit of the mesh or in what is wished there, or are to be denser."""
    mesh = shape.part.mesh
    dense = shape.local.weights(len(mesh.points))[mesh.edges.ends].mean(axis=1)
    return np.asarray((shape.local.measures(mesh) * dense)[shape.layout.edges_along])


def by_old_points(shape: Shape, lengths: Array) -> Array:
    """As if new points are old ones, where there are no more: those that leave new edges near the rows."""
    return kept_points(shape.layout, shape.bands, np.rint(lengths).astype(np.int64))
