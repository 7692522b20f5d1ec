"""The multiplier of wished lengths that brings a mesh near a number of faces, and what is changed beyond it."""

from __future__ import annotations

import math
from itertools import combinations_with_replacement
from typing import Callable, Iterator, Optional, Sequence

import numpy as np

from .arrays import Array
from .chords import chords_of
from .refusal import Refusal
from .targets import TOO_FINE
from .trying import NEAR, Trials, Tried

TRIES = 12
SAME = 1.003
"""Multipliers that differ by less are one."""
FADED = 0.3
"""Where no arc wishes more, all are at the floor."""
FAR = 0.2
"""A part of the wished number: where it is off by more, no single chords bring it near."""
ROUNDS = 3
"""How often chords are looked for, one time after the other."""
TOGETHER = (1 << 20, 40, 16, 8)
"""How many chords are tried alone, in pairs, by three and by four: those that cost least."""
AT_A_TIME = 256
"""How many combinations of chords are looked at together: it bounds the memory."""
RUNS = 8
"""How many lists of lengths are tried at most, where an edge would be there twice or faces be inverted."""


class Multiplying:
    """The multipliers that were tried so far. Texts are kept of the nearest alone."""

    def __init__(self, trials: Trials, lengths: Sequence[Array], wished: float, begin: Callable[[], None]) -> None:
        self.trials, self.lengths, self.wished, self.begin = trials, list(lengths), wished, begin
        self.counts: dict[float, float] = {}
        self.best: Optional[Tried] = None
        self.best_at = 0.0

    def nearest(self) -> Tried:
        """The remesh whose number of faces is nearest; of multipliers with one number the greatest, which tells the
        most of the wishes."""
        at: Optional[float] = self._guess()
        while at is not None and len(self.counts) < TRIES:
            if self._is_near(self._try(at)):
                break
            at = self._next()
        if self.best is None:
            raise Refusal(TOO_FINE, "whatever was tried is too fine")
        self._raise_best(self.best.faces)
        return self.best

    def _try(self, at: float) -> float:
        self.begin()
        try:
            tried = self.trials.at(self.trials.times(self.lengths, at))
        except Refusal as refusal:
            if refusal.status != TOO_FINE:
                raise
            self.counts[at] = math.inf
            return math.inf
        self.counts[at] = tried.faces
        gap = abs(tried.faces - self.wished)
        best = math.inf if self.best is None else abs(self.best.faces - self.wished)
        if gap < best or (gap == best and at > self.best_at):
            self.best, self.best_at = tried, at
        return tried.faces

    def _is_near(self, count: float) -> bool:
        return abs(count - self.wished) <= NEAR * self.wished

    def _estimate(self, at: float) -> float:
        """About how many faces there are, where lengths could have any value from 1 on."""
        lengths = self.trials.times(self.lengths, at)
        return sum(shape.layout.faces(np.maximum(1.0, it)) for shape, it in zip(self.trials.shapes, lengths))

    def _guess(self) -> float:
        """A multiplier that should do: where all have more faces, about the greatest with the fewest."""
        least = self._estimate(0.0)
        wished = max(float(self.wished), 1.01 * least)
        low, high = 1e-6, 1e6
        for _ in range(60):
            middle = math.sqrt(low * high)
            low, high = (middle, high) if self._estimate(middle) < wished else (low, middle)
        return high

    def _next(self) -> Optional[float]:
        """What to try next; None where nothing new would come of it."""
        below = [at for at, count in self.counts.items() if count < self.wished]
        above = [at for at, count in self.counts.items() if count >= self.wished]
        if below and above:
            low, high = max(below), min(above)
            # Counts do not always rise: then there is nothing between.
            return math.sqrt(low * high) if high > SAME * low else None
        if below:
            last = max(below)
            return last * min(2.0, max(1.05, math.sqrt(self.wished / max(self.counts[last], 1.0))))
        last = min(above)
        if last * max((float(it.max(initial=0.0)) for it in self.lengths), default=0.0) < FADED:
            return None
        return last * max(0.4, min(0.95, math.sqrt(self.wished / self.counts[last])))

    def _raise_best(self, count: int) -> None:
        """Of multipliers with the number of the best the greatest, about."""
        beyond = [at for at in self.counts if at > self.best_at and self.counts[at] > count]
        high = min(beyond, default=2 * self.best_at)
        for _ in range(3):
            if self._is_near(count) and count <= self.wished or high <= 1.02 * self.best_at:
                return
            middle = math.sqrt(self.best_at * high)
            if self._try(middle) != count:
                high = middle


def met(trials: Trials, found: Tried, wished: float, is_good: Callable[[Tried], bool] = lambda it: True) -> Tried:
    """A remesh with some chords longer or shorter, until the number of faces is met within a hundredth, or no chords
    bring it nearer: those that come least far from the first wishes, and are good if any are that were tried."""
    for _ in range(ROUNDS):
        if not found.fits_shapes or not NEAR * wished < abs(found.faces - wished) <= FAR * wished:
            break
        nearer = _nearer(trials, found, wished, is_good)
        if nearer is None:
            break
        found = nearer
    return found


def _nearer(trials: Trials, found: Tried, wished: float, is_good: Callable[[Tried], bool]) -> Optional[Tried]:
    first: Optional[Tried] = None
    for _, lengths in zip(range(RUNS), _changes(found, wished)):
        tried = trials.at([it.astype(float) for it in lengths], found.wished)
        if all(np.array_equal(one, other) for one, other in zip(tried.lengths, lengths)):
            if is_good(tried):
                return tried
            first = tried if first is None else first
    return first


def _changes(found: Tried, wished: float) -> Iterator[list[Array]]:
    """Lengths of all parts with some chords of one part changed: those that meet the number by how many chords these
    are and how far they come from the wishes, then those that come nearer, the nearest first."""
    options: list[tuple[bool, float, float, int, Array]] = []
    gap = abs(found.faces - wished)
    for place, (shape, it, first) in enumerate(zip(found.shapes, found.certified, found.wished)):
        now, floors = it.lengths, it.floors
        chords = chords_of(shape.layout, now, first, floors)
        changes = np.array([it.change for it in chords], dtype=np.int64).reshape(-1, len(now))
        costs = np.array([it.cost for it in chords])
        wide = shape.layout.widths(changes.T).transpose(2, 0, 1) if len(chords) else np.zeros((0, 0, 2))
        before = shape.layout.widths(now)
        for some in _combinations(len(chords)):
            after = found.faces + (before + wide[some].sum(axis=1)).prod(axis=2).sum(axis=1) - before.prod(axis=1).sum()
            off = np.abs(after - wished)
            for at in np.flatnonzero((off < gap) & _are_above(now, changes, some, floors)):
                is_met, cost = bool(off[at] <= NEAR * wished), float(costs[some[at]].sum())
                rank = float(some.shape[1]) if is_met else float(off[at])
                options.append((not is_met, rank, cost, place, changes[some[at]].sum(axis=0)))
    for _, _, _, place, change in sorted(options, key=lambda it: it[:4]):
        yield [it + change if at == place else it for at, it in enumerate(found.lengths)]


def _are_above(now: Array, changes: Array, some: Array, floors: Array) -> Array:
    """(combinations,) bool: with which changes together no length falls below its floor, or below what it is."""
    return np.asarray(np.all(now + changes[some].sum(axis=1) >= np.minimum(now, floors), axis=1))


def _combinations(count: int) -> Iterator[Array]:
    """(n, k) int64 each: the chords that are changed together, some maybe twice: single ones, then pairs, then three
    and four of the first. What is bounded is how many there are."""
    for together, first in enumerate(TOGETHER, 1):
        among = combinations_with_replacement(range(min(count, first)), together)
        table = np.array(list(among), dtype=np.int64).reshape(-1, together)
        yield from (it for it in np.array_split(table, -(-len(table) // AT_A_TIME) or 1) if len(it))
