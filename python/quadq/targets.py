"""The scale that brings a mesh near a wished number of faces."""

from __future__ import annotations

import math
from dataclasses import dataclass
from fractions import Fraction
from typing import Callable, Optional

from .floors import Floors
from .notices import why_no_shorter
from .program import LARGEST
from .refusal import Refusal

TRIES = 14
MORE_TRIES = 8
"""How many scales are tried besides, where all that are near give more faces than there were."""
MOST_TRIES = TRIES + 1 + MORE_TRIES
NEAR = 0.01
"""A part of the wished number: so near is near enough."""
TOO_FINE = 10
MOST_FACES = 1 << 21
"""The program writes no mesh with more faces."""
MANY = 1 << 40
"""Stands for more faces than a mesh may have."""


@dataclass(frozen=True)
class Counted:
    """What a scale gives."""

    faces: int
    floors: Floors = Floors()


@dataclass(frozen=True)
class Reached:
    """How near a scale came."""

    scale: Optional[Fraction]
    """None where edges of one length are wished."""
    faces: int
    tries: int
    because: str
    """Why it came no nearer, or nothing where it is near enough."""
    way: str = ""
    """How lengths were wished, where more than one way was tried."""
    strayed: Optional[float] = None
    """By how many edges all arcs differ from what was wished at first, where lengths were wished arc by arc."""
    beyond: Optional[tuple[int, int]] = None
    """How many arcs outside a region have another number of edges, and how many there are, where there is a region."""


def nearest_scale(wished: int, faces: int, count_at: Callable[[Fraction], Counted]) -> Reached:
    """The scale whose remesh has a number of faces near the wished one, by bisection of the scale's logarithm. Where no
    more faces are wished than there are, none that gives more is taken, if any that was tried gives no more.

    `faces` is how many there are now; `count_at` remeshes at a scale and counts, and its refusals go on to the caller,
    but for those of meshes that are too fine.
    """
    return _Search(wished, faces, count_at).result()


def as_scale(value: float) -> Fraction:
    """The scale near a number whose numerator and denominator are from 1 to 1000."""
    held = min(max(value, 1 / LARGEST), LARGEST)
    if held <= 1:
        return max(Fraction(held).limit_denominator(LARGEST), Fraction(1, LARGEST))
    return 1 / Fraction(1 / held).limit_denominator(LARGEST)


class _Search:
    """The scales that were tried so far."""

    def __init__(self, wished: int, faces: int, count_at: Callable[[Fraction], Counted]) -> None:
        self.wished, self.faces, self.count_at = wished, faces, count_at
        self.tried: dict[Fraction, Counted] = {}

    def count(self, scale: Fraction) -> int:
        if scale not in self.tried:
            try:
                self.tried[scale] = self.count_at(scale)
            except Refusal as refusal:
                if refusal.status != TOO_FINE:
                    raise
                self.tried[scale] = Counted(MANY)
        return self.tried[scale].faces

    def result(self) -> Reached:
        low, high = self._bracket(math.sqrt(self.wished / max(self.faces, 1)))
        self._bisect(low, high, self.wished, TRIES)
        because = ""
        if self.wished <= self.faces < self.tried[self._nearest()].faces:
            beyond = self._nearest()
            because = self._why_more(beyond)
            if self.count(Fraction(1)) <= self.faces and beyond < 1:
                self._bisect(float(beyond), 1.0, 0, MORE_TRIES)
        scale = self._nearest()
        if self._is_near():
            because = ""
        return Reached(scale, self.tried[scale].faces, len(self.tried), because or self._reason())

    def _allowed(self) -> list[Fraction]:
        """The scales that may be taken: where no more faces are wished than there are, those with no more, if any."""
        fewer = [it for it in self.tried if self.tried[it].faces <= self.faces]
        return fewer if fewer and self.wished <= self.faces else list(self.tried)

    def _nearest(self) -> Fraction:
        return min(self._allowed(), key=lambda it: (abs(self.tried[it].faces - self.wished), it))

    def _is_near(self) -> bool:
        return min(abs(self.tried[it].faces - self.wished) for it in self._allowed()) <= NEAR * self.wished

    def _bracket(self, guess: float) -> tuple[float, float]:
        """A scale with fewer faces than wished and one with as many or more; the same twice where there are no such."""
        wished, count = self.wished, self.count
        low = high = float(as_scale(guess))
        step, end = 1.25, LARGEST if count(as_scale(low)) < wished else 1 / LARGEST
        if (count(as_scale(end)) < wished) == (end == LARGEST):
            return end, end
        while count(as_scale(high)) < wished:
            low, high, step = high, min(high * step, LARGEST), step * step
        while count(as_scale(low)) >= wished:
            low, high, step = max(low / step, 1 / LARGEST), low, step * step
        return low, high

    def _bisect(self, low: float, high: float, wished: int, tries: int) -> None:
        """Tries scales between two; or, where no number is wished, looks for the least that gives no more faces than
        there were."""
        last = len(self.tried) + tries if not wished else tries
        while low < high and len(self.tried) < last and not self._is_near():
            middle = as_scale(math.sqrt(low * high))
            if middle in self.tried:
                break
            is_low = self.count(middle) < wished if wished else self.count(middle) > self.faces
            low, high = (float(middle), high) if is_low else (low, float(middle))

    def _why_more(self, scale: Fraction) -> str:
        found = self.tried[scale]
        return f"at scale {scale} it has {found.faces}, more than before: {why_no_shorter(found.floors)}"

    def _reason(self) -> str:
        tried = self.tried
        if self._is_near():
            return ""
        below = [it for it in tried if tried[it].faces < self.wished]
        above = [it for it in tried if tried[it].faces >= self.wished]
        if not below:
            least = min(above)
            return (f"already at scale {least} it has {tried[least].faces} faces: "
                    f"{why_no_shorter(tried[least].floors)}")
        if not above:
            most = max(below)
            return f"even at scale {most} it has {tried[most].faces} faces"
        last, first = max(below), min(above)
        return (f"it has {tried[last].faces} faces at scale {last} and {tried[first].faces} at {first}: arcs have "
                "whole lengths")
