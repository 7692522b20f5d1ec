"""The remesh that does best what is wished: one scale for all, or lengths by shape, tried one beside the other."""

from __future__ import annotations

from dataclasses import dataclass, replace
from fractions import Fraction
from itertools import count
from typing import Callable, Optional, Sequence

from .arrays import Array
from .layout import layout_of
from .local import NOWHERE, Local
from .mesh import Mesh, join
from .multiplying import Multiplying, met
from .nearing import coarsest_within
from .notices import at_the_floor
from .parts import Part, Workshop
from .program import FIT, Wish
from .quality import quality_of
from .refusal import Refusal
from .settings import Settings
from .targets import MOST_FACES, MOST_TRIES, TOO_FINE, Counted, Reached, nearest_scale
from .trying import Trials, Tried, Worth
from .wishing import (
    AS_BEFORE, BENT, EVEN, FLAT, Along, Shape, Shares, by_bends, by_density, by_length, by_old_points)

BY_SHAPE = Reached(None, 0, 0, "", "by shape")
MERGED = replace(BY_SHAPE, way="by shape, with merged patches")
Begin = Callable[[str, int], None]
"""Is told the step that begins, and how many things there are to do."""
FARTHER, LATER = 1.5, 2
"""Where merged patches are so much farther from the old mesh, a number is taken to be off by so many steps more."""
MANY = 50_000
"""Of more faces, where still more are wished, one scale is taken: new points lie on the old surface, so that what is
tried by shape brings little, and takes long."""
CLOSE = 50_000
"""Of more faces points are not tried at old points alone: to look which of them are best takes long."""
SLOW = 300_000
"""Of more faces merged patches are not tried where they were not wished: each try takes seconds."""


@dataclass(frozen=True)
class Chosen:
    """What the program wrote for each part, and how that came."""

    parts: list[Part]
    texts: list[bytes]
    wish: Wish
    reached: Reached


class Chooser:
    """Finds what does best what settings wish of parts."""

    def __init__(self, parts: list[Part], settings: Settings, shop: Workshop, begin: Begin,
                 local: Local = NOWHERE, halves: int = 1) -> None:
        self.parts, self.settings, self.shop, self.begin = parts, settings, shop, begin
        self.local, self.halves = local, halves
        self.tries = count(1)
        self.shapes: dict[bool, list[Shape]] = {}
        """By whether patches are merged."""
        self.old = join([it.mesh for it in parts])

    def chosen(self) -> Chosen:
        settings = self.settings
        if settings.within is not None:
            return self._within(settings.within)
        if settings.faces is not None:
            self._refuse_more_than(self.halves * sum(it.count for it in self.parts) * MOST_FACES, settings.faces)
            is_fine = self.old.face_count > MANY and self.halves * self.old.face_count < settings.faces
            is_by_scale = settings.mode == "scale" or (is_fine and settings.mode == "shape")
            if (is_by_scale and self.local.is_nowhere) or not self.shop.program.has_fit():
                return self._by_scale(settings.faces)
            return self._by_shape(settings.faces)
        reached = Reached(settings.scale, 0, 0, "")
        if self.local.is_nowhere and (settings.mode != "even" or settings.edge is not None):
            return self._written(self._as_is(), reached)
        shapes, lengths = self._absolute()
        self.begin("remeshing", len(self.parts))
        tried = self._trials(shapes).at(lengths)
        return _chosen(tried, reached)

    def _as_is(self) -> Wish:
        """What settings wish of all arcs alike. Edges of one length are that along each arc, where the program can."""
        wish = self._alike(self.settings.scale)
        if wish.edge is None or not self.shop.program.has_spacing():
            return wish
        return replace(wish, command=FIT, is_merged=self.settings.coarse, is_spaced=True)

    def _alike(self, scale: Optional[Fraction]) -> Wish:
        """What settings wish of all arcs alike; where floors may rise, in the way in which the fewest do."""
        return self.shop.program.best(self.settings.wish(scale))

    @property
    def _is_told(self) -> bool:
        """Whether the user says where faces are: then points stand there, and no other places are tried."""
        return self.settings.mode == "even" or self.settings.edge is not None or not self.local.is_nowhere

    def _trials(self, shapes: list[Shape], is_merged: bool = False, is_capped: bool = False) -> Trials:
        """Trials with points where they are wished, if that is told, or else tried in both ways."""
        wish, along = self._wish(is_merged), _along(self.settings, self.local)
        if not self.shop.program.has_spacing():
            return Trials(self.shop, shapes, wish, is_capped)
        if self._is_told:
            return Trials(self.shop, shapes, wish, is_capped, along)
        others = (along, by_old_points) if self.old.face_count <= CLOSE else (along,)
        return Trials(self.shop, shapes, wish, is_capped, None, others)

    def _refuse_more_than(self, most: int, wished: int) -> None:
        if wished > most:
            raise Refusal(TOO_FINE, f"too fine: {wished} faces, where such a mesh can have {most}")

    def _written(self, wish: Wish, reached: Reached) -> Chosen:
        self.begin("remeshing", len(self.parts))
        parts, texts = self.shop.remesh(self.parts, wish)
        return Chosen(parts, texts, wish, reached)

    def _wish(self, is_merged: bool) -> Wish:
        """The wish for lengths by lines."""
        settings = self.settings
        return Wish(floor=settings.floor, weight=settings.weight, command=FIT, keeps=settings.is_creased,
                    is_merged=settings.coarse or is_merged, has_lines=True)

    def _shapes(self, is_merged: bool = False) -> list[Shape]:
        """The parts with their layouts, which are made once."""
        is_merged = is_merged or self.settings.coarse
        if is_merged not in self.shapes:
            self.begin("measuring the shape", len(self.parts))
            self.shapes[is_merged] = self.shop.each(self.parts, lambda it: Shape(
                it, layout_of(it, self.shop.program, is_merged), self.local.of(it.points, it.faces)))
        return self.shapes[is_merged]

    def _absolute(self) -> tuple[list[Shape], list[Array]]:
        """Wished lengths where a scale, a length of edges or one at each point says how long they are."""
        settings, shapes = self.settings, self._shapes()
        if settings.size is not None:
            found = [it.sizes() for it in shapes]
        elif settings.edge is not None:
            found = [it.measures() / float(settings.edge) for it in shapes]
        else:
            share = EVEN if settings.mode == "even" else AS_BEFORE
            found = [float(settings.scale or 1) * it.lengths(share) for it in shapes]
        return shapes, [shape.changed(it) for shape, it in zip(shapes, found)]

    def _begin_try(self) -> None:
        self.begin(f"bisecting, try {next(self.tries)}", len(self.parts))

    def _by_scale(self, wished: int) -> Chosen:
        """The one scale for all parts that comes nearest to a number of faces."""
        tries = count(1)

        def count_at(scale: Fraction) -> Counted:
            self.begin(f"bisecting, try {next(tries)} of at most {MOST_TRIES}", len(self.parts))
            tried = Tried(*self.shop.remesh(self.parts, self._alike(scale)), self._alike(scale))
            return Counted(self.halves * tried.faces, tried.floors)

        reached = nearest_scale(wished, self.halves * self.old.face_count, count_at)
        return self._written(self._alike(reached.scale), reached)

    def _by_shape(self, wished: int) -> Chosen:
        """Lengths by shape, or one scale for all, whichever comes out better."""
        found = Options(self.old, max(1.0, wished / self.halves))
        if self.settings.mode == "shape" and self.local.is_nowhere:
            self._offer_scale(found, wished)
        shapes = self._shapes()
        shares, flat = self._shares(shapes), [FLAT] * len(shapes)
        self._offer_shape(found, shapes, shares)
        if found.is_worse_by_shape and shares != flat and self.settings.mode == "shape":
            self._offer_shape(found, shapes, flat)
        if found.best()[0].missed and not self.settings.coarse and self.old.face_count <= SLOW:
            merged = self._shapes(True)
            self._offer_shape(found, merged, self._shares(merged), True)
        _, tried, reached = found.best()
        self.begin("remeshing", len(self.parts))
        return _chosen(tried, replace(
            reached, faces=self.halves * tried.faces, tries=next(self.tries) - 1, because=found.reason(self.halves)))

    def _offer_scale(self, found: Options, wished: int) -> None:
        """One scale, as the program takes it, and with single chords changed where that misses the number."""
        scale = self._by_scale(wished)
        tried, reached = Tried(scale.parts, scale.texts, scale.wish), replace(scale.reached, way="one scale")
        found.offer(tried, reached)
        if reached.scale is None or len(tried.texts) != len(self.parts):
            return
        shapes = self._shapes()
        trials = self._trials(shapes)
        tried = replace(tried, shapes=tuple(shapes), wished=tuple(
            float(reached.scale) * it.layout.old for it in shapes))
        found.offer_others(trials, tried, replace(reached, scale=None))
        nearer = met(trials, tried, found.wished, found.is_good) if reached.because else tried
        if nearer is not tried:
            reached = replace(reached, scale=None, way="one scale, with some rows of faces more or less")
            found.offer(nearer, reached)
            found.offer_others(trials, nearer, reached)

    def _shares(self, shapes: Sequence[Shape]) -> list[Shares]:
        if self.settings.mode == "even":
            return [EVEN] * len(shapes)
        if self.settings.mode == "scale":
            return [AS_BEFORE] * len(shapes)
        return [FLAT if it.is_flat else BENT for it in shapes]

    def _offer_shape(
        self, found: Options, shapes: list[Shape], shares: list[Shares], is_merged: bool = False
    ) -> None:
        """Lengths by shape, as they come nearest by one multiplier, and with single chords changed."""
        is_capped = self.local.density is None and found.wished <= self.old.face_count
        trials = self._trials(shapes, is_merged, is_capped)
        lengths = [it.lengths(share) for it, share in zip(shapes, shares)]
        first = Multiplying(trials, lengths, found.wished, self._begin_try).nearest()
        nearer = met(trials, first, found.wished, found.is_good)
        for tried in (first, nearer) if nearer is not first else (first,):
            found.offer(tried, MERGED if is_merged else BY_SHAPE)
            found.offer_others(trials, tried, MERGED if is_merged else BY_SHAPE)

    def _within(self, distance: float) -> Chosen:
        """The coarsest mesh that is about within a distance of the old surface, and the old one within that of it."""
        shapes = self._shapes()
        trials = self._trials(shapes, False, self.local.density is None)
        lengths = [it.lengths(share) for it, share in zip(shapes, self._shares(shapes))]
        tried, because = coarsest_within(trials, lengths, self.old, distance, self._begin_try)
        return _chosen(tried, Reached(None, self.halves * tried.faces, next(self.tries) - 1, because, BY_SHAPE.way))


class Options:
    """Remeshes that were tried for a number of faces, and what each is worth."""

    def __init__(self, old: Mesh, wished: float) -> None:
        self.old, self.wished = old, wished
        self.found: list[tuple[Worth, Tried, Reached]] = []

    def is_good(self, tried: Tried) -> bool:
        """Whether a remesh has no more inverted faces than the first."""
        return not self.found or quality_of(tried.mesh()).inverted <= self.found[0][0].inverted

    def offer(self, tried: Tried, reached: Reached) -> None:
        """With merged patches that are much farther a number is hardly nearer."""
        worth = Worth(tried, self.old, self.wished)
        if reached.way == MERGED.way and worth.distances[0] > FARTHER * self.best()[0].distances[0]:
            worth.missed += LATER
        self.found.append((worth, tried, reached))

    def offer_others(self, trials: Trials, tried: Tried, reached: Reached) -> None:
        """The same lengths, with points where others wish them, if none that was found is nearer to the number."""
        for it in trials.spaced(tried) if Worth(tried, self.old, self.wished).missed <= self.best()[0].missed else ():
            self.offer(it, reached)

    def best(self) -> tuple[Worth, Tried, Reached]:
        """The best of those that have no more inverted faces than the first; where no more faces are wished than there
        are, of those with no more, if any."""
        good = [it for it in self.found if it[0].inverted <= self.found[0][0].inverted]
        fewer = [it for it in good if it[1].faces <= self.old.face_count]
        some = fewer if fewer and self.wished <= self.old.face_count else good
        first = min((it[0].missed, it[0].inverted) for it in some)
        some = [it for it in some if (it[0].missed, it[0].inverted) == first]
        return some[0] if len(some) == 1 else min(some, key=lambda it: it[0].distances)

    @property
    def is_worse_by_shape(self) -> bool:
        """Whether all that were made by shape have more inverted faces than the first."""
        return all(it[0].inverted > self.found[0][0].inverted for it in self.found if it[2].way == BY_SHAPE.way)

    def reason(self, halves: int) -> str:
        """Why the best has not about as many faces as wished, or nothing."""
        worth, tried, _ = self.best()
        if not worth.missed:
            return ""
        nearer = [it for it in self.found if it[0].missed < worth.missed]
        if nearer:
            there = min(nearer, key=lambda it: (it[0].missed, it[0].inverted))
            return (f"a mesh of {halves * there[1].faces} would have {halves * there[0].inverted} inverted faces, and "
                    f"this one has {halves * worth.inverted}")
        floors = tried.floors
        if tried.faces > self.wished and 2 * floors.short > floors.arcs:
            return at_the_floor(floors)
        return "no row of faces more or less brings it nearer"


def _along(settings: Settings, local: Local) -> Along:
    """Where along arcs new points are wished: as edges are long, where their length is told, or else by shape."""
    if settings.mode == "even" or settings.edge is not None or local.size is not None:
        return by_length
    return by_bends if settings.is_by_shape else by_density


def _chosen(tried: Tried, reached: Reached) -> Chosen:
    reached = replace(reached, strayed=tried.strayed(), beyond=tried.beyond())
    return Chosen(tried.parts, tried.texts, tried.wish, reached)
