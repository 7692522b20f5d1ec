"""The patches of a cut with the arcs along their sides, and the strips of faces that lead away from each arc."""

from __future__ import annotations

from dataclasses import dataclass
from functools import cached_property
from typing import Iterator

import numpy as np

from .arrays import Array
from .darts import Darts
from .graphs import SIDES, Cut, cut_of
from .mesh import NONE, Mesh
from .parts import Part
from .program import Program
from .surface import least_in_class

LEAST = 0.1
"""A part of what an arc has: it gets no less."""
STEEP, HALVINGS = 64.0, 48
"""The greatest power of 2 by which lengths are multiplied, and how often it is halved."""


@dataclass(frozen=True)
class Layout:
    """A cut of a mesh of quads. Arrays of lengths have a number for each arc."""

    mesh: Mesh
    cut: Cut

    @property
    def old(self) -> Array:
        """(arcs,) int64: how many edges each arc has."""
        return self.cut.lengths

    @cached_property
    def darts(self) -> Darts:
        return Darts(self.mesh)

    @cached_property
    def arc_of_edge(self) -> Array:
        """(edges,) int64: the arc of each edge, or NONE."""
        return self.cut.arc_of_edge(self.mesh)

    @cached_property
    def edges_along(self) -> Array:
        """(edges of arcs,) int64: the edges along the arcs, one arc after the other."""
        return self.cut.edges_along(self.mesh)

    @cached_property
    def arc_along(self) -> Array:
        """(edges of arcs,) int64: the arc of each of these."""
        return np.repeat(np.arange(len(self.old)), self.old)

    @cached_property
    def side_of_use(self) -> Array:
        """(uses,) int64: the side of each use of an arc by the cut: four times a patch, and the place of the side."""
        return np.repeat(np.arange(self.cut.uses_of_sides.size), self.cut.uses_of_sides.ravel())

    def widths(self, lengths: Array) -> Array:
        """(patches, 2): how wide and how high each patch is; of unequal sides the mean. Of lengths (arcs, n) there are
        (patches, 2, n)."""
        long = self.cut.side_lengths(lengths)
        return np.asarray((long[:, :2] + long[:, 2:]) / 2)

    def faces(self, lengths: Array) -> float:
        """How many faces the patches have where arcs have these lengths."""
        return float(self.widths(lengths).prod(axis=1).sum())

    def to_old_count(self, lengths: Array) -> Array:
        """(arcs,) float64: lengths with which each connected part would have as many faces as it has: these by one
        factor a part, but each at least a tenth of what it was. Where all are 0, those that it has."""
        part_of_arc, part_of_patch = self._parts
        wished = self._counts(self.old)
        low, high = (np.full(len(wished), it) for it in (-STEEP, STEEP))
        for _ in range(HALVINGS):
            middle = (low + high) / 2
            is_less = self._counts(self._times(lengths, middle)) < wished
            low, high = np.where(is_less, middle, low), np.where(is_less, high, middle)
        found = self._times(lengths, high)
        none = self._counts(found) < LEAST * wished
        return np.asarray(np.where(none[part_of_arc], self.old, found))

    def _counts(self, lengths: Array) -> Array:
        """(parts,): how many faces each connected part has."""
        return np.bincount(self._parts[1], weights=self.widths(lengths).prod(axis=1))

    def _times(self, lengths: Array, powers: Array) -> Array:
        """(arcs,): the lengths by 2 to such a power (parts,), but at least a part of what they were."""
        return np.maximum(lengths * 2.0 ** powers[self._parts[0]], LEAST * self.old)

    @cached_property
    def _parts(self) -> tuple[Array, Array]:
        """(arcs,) and (patches,) int64: the connected part of each, from 0. Patches hang together by their arcs."""
        arcs = len(self.old)
        patch = arcs + self.side_of_use // len(SIDES)
        least = least_in_class(arcs + len(self.cut.sizes), self.cut.uses, patch)
        names = np.unique(least, return_inverse=True)[1]
        return names[:arcs], names[arcs:]

    def strips(self) -> Iterator[Array]:
        """From each dart of the cut away over its patch, an edge a step: (n, 2) the darts where strips began and the
        parallel darts that they have come to, by the arcs of the former. The first step is the arcs themselves."""
        darts, arc_of_dart = self.darts, self.arc_of_edge[self.darts.of_edge]
        is_cut = arc_of_dart != NONE
        first = np.flatnonzero(is_cut)
        first = first[np.argsort(arc_of_dart[first], kind="stable")]
        now = first
        while len(now):
            yield np.column_stack([first, now])
            across = darts.next[darts.next[now]]
            is_last = is_cut[across]
            if np.any(is_last):
                yield np.column_stack([first[is_last], across[is_last]])
            first, now = first[~is_last], darts.twin[across[~is_last]]


def layout_of(part: Part, program: Program, is_merged: bool = False) -> Layout:
    """The layout of a part beside its marks, with its patches merged where they have a whole side in common."""
    kept, patches = "lines" if len(part.marks) else "none", "merged" if is_merged else "traced"
    return Layout(part.mesh, cut_of(program, part.text, kept, patches))
