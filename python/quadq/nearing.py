"""The coarsest mesh that is about within a distance of the old one."""

from __future__ import annotations

import math
from typing import Callable, Optional, Sequence

from .arrays import Array
from .distance import Surface, distance_between
from .features import mark_features
from .mesh import Mesh
from .refusal import Refusal
from .quality import quality_of
from .targets import TOO_FINE
from .trying import Trials, Tried

TRIES = 9
FIRST = 0.35
"""The multiplier that is tried first: about an eighth of the faces."""
SHARP = 30.0
"""Degrees: where faces meet at more, the edge between them is measured too."""
SAMPLES = 5_000


def greatest_between(new: Mesh, old: Mesh) -> float:
    """The greatest distance from either mesh to the other, from either boundary to the other, and from sharp edges of
    the old mesh."""
    edges = mark_features(old, SHARP, corners=False).edges
    edges = edges[::max(1, -(-len(edges) // SAMPLES))]
    along = float(Surface(new).distances(old.points[edges].mean(axis=1)).max(initial=0.0))
    return max(along, distance_between(new, old).greatest, distance_between(old, new).greatest)


def coarsest_within(
    trials: Trials, lengths: Sequence[Array], old: Mesh, distance: float, begin: Callable[[], None]
) -> tuple[Tried, str]:
    """The remesh with the fewest faces of those that were tried, by bisection of the multiplier of lengths, whose
    distance is no greater; else the mesh as it was, and the distance of the nearest in words."""
    best: Optional[Tried] = None
    nearest = math.inf
    at, low, high = FIRST, 0.0, math.inf
    for _ in range(TRIES):
        begin()
        tried, reached = _tried(trials, trials.times(lengths, at), old)
        nearest = min(nearest, reached)
        if tried is not None and reached <= distance and (best is None or tried.faces < best.faces):
            best = tried
        # What is too fine is near enough.
        low, high = (at, high) if tried is not None and reached > distance else (low, at)
        at = _between(low, high)
    if best is not None:
        return best, ""
    same = trials.at([it.layout.old.astype(float) for it in trials.shapes], lengths)
    return same, f"all others that were tried are farther than that, {nearest:.4g} or more"


def _tried(trials: Trials, lengths: Sequence[Array], old: Mesh) -> tuple[Optional[Tried], float]:
    """The nearest remesh with these lengths that has no more inverted faces than the first, and its distance; none
    where it is too fine."""
    try:
        tried = trials.at(lengths)
    except Refusal as refusal:
        if refusal.status != TOO_FINE:
            raise
        return None, math.inf
    inverted = quality_of(tried.mesh()).inverted
    others = [it for it in trials.spaced(tried) if quality_of(it.mesh()).inverted <= inverted]
    far = [greatest_between(it.mesh(), old) for it in (tried, *others)]
    return (tried, *others)[far.index(min(far))], min(far)


def _between(low: float, high: float) -> float:
    """What to try next: from the greatest multiplier that is too coarse to the least that is not."""
    return 2 * low if math.isinf(high) else math.sqrt(max(low, high / 4) * high)
