"""Remeshes that are tried: how many faces they have, and how near they are to what was."""

from __future__ import annotations

import math
from dataclasses import dataclass, replace
from functools import cached_property
from typing import Iterator, Optional, Sequence

import numpy as np

from .arrays import Array
from .distance import distance_between
from .floors import Certified, Floors, certified_lengths
from .mesh import Mesh, join
from .parts import Part, Workshop
from .plain import written_mesh
from .program import AUTO, Wish
from .quality import quality_of
from .wishing import UNIT, Along, Shape

NEAR = 0.01
"""A part of the wished number: so near is near enough."""


@dataclass(frozen=True)
class Tried:
    """What the program wrote for all parts with one wish."""

    parts: list[Part]
    texts: list[bytes]
    wish: Wish
    shapes: tuple[Shape, ...] = ()
    """Where lengths were wished arc by arc: the shapes of the parts."""
    wished: tuple[Array, ...] = ()
    """What was wished for the arcs of each at first."""

    @cached_property
    def faces(self) -> int:
        """How many faces they have together."""
        return sum(it.count(b"\nf ") for it in self.texts)

    @cached_property
    def certified(self) -> list[Certified]:
        """For each text the lengths of its arcs and their floors."""
        return [certified_lengths(it) for it in self.texts]

    @property
    def lengths(self) -> list[Array]:
        return [it.lengths for it in self.certified]

    @property
    def floors(self) -> Floors:
        return Floors.of(self.certified, self.wish.floor == AUTO)

    @property
    def fits_shapes(self) -> bool:
        """Whether each shape has its text: none was divided by the program."""
        return len(self.texts) == len(self.shapes) > 0 and all(
            len(it) == len(shape.layout.old) for it, shape in zip(self.lengths, self.shapes))

    def strayed(self) -> Optional[float]:
        """By how many edges all arcs together differ from what was wished at first."""
        if not self.fits_shapes:
            return None
        return float(sum(np.abs(it - np.rint(UNIT * wished) / UNIT).sum()
                         for it, wished in zip(self.lengths, self.wished)))

    def beyond(self) -> Optional[tuple[int, int]]:
        """How many arcs outside a region have another number of edges, and how many there are; None without a region.
        """
        if not self.fits_shapes or all(it.local.region is None for it in self.shapes):
            return None
        pairs = [(it != shape.layout.old)[shape.inside == 0] for it, shape in zip(self.lengths, self.shapes)]
        return sum(int(it.sum()) for it in pairs), sum(map(len, pairs))

    def mesh(self) -> Mesh:
        return join([written_mesh(it) for it in self.texts])


class Worth:
    """What counts of a remesh of a mesh, where so many faces are wished. Distances are measured when they are asked
    for: of those that miss the number as little, with as few inverted faces."""

    def __init__(self, tried: Tried, old: Mesh, wished: float) -> None:
        self.tried, self.old = tried, old
        off = abs(tried.faces - wished) / wished
        self.missed = math.ceil(math.log2(off / NEAR)) if off > NEAR else 0
        """How far its number of faces is off: 0 up to a hundredth, 1 up to two, 2 up to four, and so on."""
        self.inverted = quality_of(tried.mesh()).inverted

    @cached_property
    def distances(self) -> tuple[float, float]:
        """The greatest and the mean one, over both ways."""
        new = self.tried.mesh()
        ways = distance_between(new, self.old), distance_between(self.old, new)
        return max(it.greatest for it in ways), sum(it.mean for it in ways) / 2


class Trials:
    """Runs the program over all parts with wishes that are made from their shapes."""

    def __init__(self, shop: Workshop, shapes: Sequence[Shape], wish: Wish, is_capped: bool = False,
                 along: Optional[Along] = None, others: Sequence[Along] = ()) -> None:
        """Where it is capped, no arc wishes more edges than it had: new points lie on the old surface, and more of them
        bring nothing nearer. `along` says where along arcs new points are wished; None for equal parts of old edges.
        `others` are tried beside it, for lengths that were found."""
        self.shop, self.shapes, self.is_capped = shop, tuple(shapes), is_capped
        self.along, self.others = along, tuple(others)
        self.wish = replace(wish, is_spaced=along is not None)

    def times(self, lengths: Sequence[Array], factor: float) -> list[Array]:
        """Lengths for the arcs of each part, so many times as great where they change."""
        longer = [factor * it for it in lengths]
        if self.is_capped:
            longer = [np.minimum(it, shape.layout.old) for it, shape in zip(longer, self.shapes)]
        return [shape.changed(it) for it, shape in zip(longer, self.shapes)]

    def at(self, lengths: Sequence[Array], first: Optional[Sequence[Array]] = None) -> Tried:
        """With these lengths wished for the arcs of each part, in place of those that were wished at first."""
        asked = [shape.wished(it, self.along and self.along(shape, it)) for shape, it in zip(self.shapes, lengths)]
        parts, texts = self.shop.remesh(asked, self.wish)
        return Tried(parts, texts, self.wish, self.shapes, tuple(lengths if first is None else first))

    def spaced(self, tried: Tried) -> Iterator[Tried]:
        """A remesh with the same lengths and its points where others wish them."""
        lengths = [it.astype(float) for it in tried.lengths] if self.others and tried.fits_shapes else []
        for along in self.others if lengths else ():
            other = Trials(self.shop, self.shapes, self.wish, along=along).at(lengths, tried.wished)
            if all(np.array_equal(*it) for it in zip(other.lengths, tried.lengths)):
                yield other
