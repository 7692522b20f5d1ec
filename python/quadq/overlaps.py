"""Which old faces new ones lie over, and how much of each, as their map tells."""

from __future__ import annotations

from dataclasses import dataclass

import numpy as np

from .arrays import Array
from .carry_boxes import Boxes
from .maps import EAST, NORTH, ONE, SOUTH, WEST, Map, along

TINY = 1e-12
"""So small a part of an old face is none: the places of a map are rounded to 2^-32 of a face."""
FLAT = 1e-6
"""Numbers that differ by less are one where the mean between them is taken."""


@dataclass(frozen=True)
class Overlaps:
    """Which old faces each new face lies over, a row for each pair."""

    new: Array
    """(pairs,) int64."""
    old: Array
    """(pairs,) int64."""
    parts: Array
    """(pairs,) float64: how much of the old face lies under the new one, along the parameters of the map."""
    darts: Array
    """(sides,) int64: four times a new face and a corner: a side of a new face that lies along old edges."""
    under: Array
    """(sides,) int64: four times an old face and a corner: the old side under it."""
    spans: Array
    """(sides, 2) float64: from where to where on that old side, in parts of it."""

    def followed_by(self, other: Overlaps, new: int, old: int) -> Overlaps:
        """These, and others of meshes that stand behind so many new and old faces."""
        return Overlaps(
            np.concatenate([self.new, other.new + new]), np.concatenate([self.old, other.old + old]),
            np.concatenate([self.parts, other.parts]), np.concatenate([self.darts, other.darts + 4 * new]),
            np.concatenate([self.under, other.under + 4 * old]), np.concatenate([self.spans, other.spans]))


def overlaps_of(given: Map, twins: Array) -> Overlaps:
    """What lies under each new face, by the twins (darts,) of the old mesh. Linear in the pairs."""
    boxes = Boxes(given, twins)
    low, high = (np.clip(it[boxes.face] - boxes.places * ONE, 0, ONE) / float(ONE)
                 for it in (given.places.min(axis=1), given.places.max(axis=1)))
    parts = np.prod(high - low, axis=1)
    # Where the arcs of a side are not in proportion to those across, new faces are no rectangles to the map.
    some = np.flatnonzero(_is_slanted(given)[boxes.face])
    corners = (given.places[boxes.face[some]] - boxes.places[some, None, :] * ONE) / float(ONE)
    parts[some] = areas_in_square(corners)
    some = np.flatnonzero(parts > TINY)
    old = boxes.darts[some] // 4
    return Overlaps(boxes.face[some], old, _in_whole(old, parts[some], len(twins) // 4), *_sides_of(boxes))


def _is_slanted(given: Map) -> Array:
    """(new faces,) bool: whether a face is no upright rectangle, as its home sees it."""
    steps = np.roll(given.places, -1, axis=1) - given.places
    return np.asarray(~np.all(np.any(steps == 0, axis=2), axis=1))


def _in_whole(old: Array, parts: Array, count: int) -> Array:
    """The parts (pairs,) of old faces, so that those of each face that lies under new ones are 1 in all."""
    sums = np.bincount(old, weights=parts, minlength=count)
    return np.asarray(parts / sums[old])


def areas_in_square(corners: Array) -> Array:
    """(n,): how much of the square from (0, 0) to (1, 1) polygons (n, corners, 2) cover that run counterclockwise."""
    one, other = corners, np.roll(corners, -1, axis=1)
    wide = other[..., 0] - one[..., 0]
    steep = np.divide(other[..., 1] - one[..., 1], wide, out=np.zeros_like(wide), where=wide != 0)
    begin, end = (np.clip(it[..., 0], 0, 1) for it in (one, other))
    first, last = (one[..., 1] + steep * (it - one[..., 0]) for it in (begin, end))
    return np.asarray(-((end - begin) * _mean_within(first, last)).sum(axis=1))


def _mean_within(first: Array, last: Array) -> Array:
    """The means of numbers that go evenly from first to last, where those below 0 are 0 and those above 1 are 1."""

    def integral(at: Array) -> Array:
        inside = np.clip(at, 0, 1)
        return np.asarray(inside * inside / 2 + np.maximum(at - 1, 0))

    rise = last - first
    is_steep = np.abs(rise) > FLAT
    steep = (integral(last) - integral(first)) / np.where(is_steep, rise, 1)
    return np.where(is_steep, steep, np.clip((first + last) / 2, 0, 1))


def _sides_of(boxes: Boxes) -> tuple[Array, Array, Array]:
    """The sides of new faces that lie along sides of the old faces of their boxes: the new darts, the old ones, and
    from where to where."""
    found, given = [], boxes.map
    for corner in range(4):
        begin, end = given.places[:, corner], given.places[:, (corner + 1) % 4]
        east, north = (end - begin).T
        for way, is_it, axis in ((SOUTH, (north == 0) & (east > 0), 0), (EAST, (east == 0) & (north > 0), 1),
                                 (NORTH, (north == 0) & (east < 0), 0), (WEST, (east == 0) & (north < 0), 1)):
            border = (boxes.places[:, 1 - axis] + (way in (EAST, NORTH))) * ONE
            some = np.flatnonzero(is_it[boxes.face] & (begin[boxes.face, 1 - axis] == border))
            here = boxes.places[some, axis] * ONE
            spans = np.column_stack([it[boxes.face[some], axis] - here for it in (begin, end)])
            spans = np.clip(spans / float(ONE), 0, 1)
            # Counterclockwise the north side runs to the west, and the west side to the south.
            spans = 1 - spans if way in (NORTH, WEST) else spans
            some, spans = some[spans[:, 1] > spans[:, 0]], spans[spans[:, 1] > spans[:, 0]]
            found.append((4 * boxes.face[some] + corner, along(boxes.darts[some], way), spans))
    darts, under, spans = (np.concatenate(it) for it in zip(*found))
    return darts, under, spans
