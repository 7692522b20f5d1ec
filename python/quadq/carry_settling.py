"""Corners of a new mesh whose values were carried on beyond a seam: each takes that of a corner at its vertex which was
reached and hangs together with it, and values that are nearly the same become one."""

from __future__ import annotations

import numpy as np

from .arrays import Array
from .carry_boxes import Boxes
from .mesh import NONE
from .surface import least_in_class

NEAR = 2e-6
"""Values at one vertex that differ by no more are one."""


def settle(
    values: Array, named: Array, boxes: Boxes, reached: Array, seams: Array, vertices: Array, beyond: Array
) -> None:
    """Gives the corners of `beyond`, which were carried on, the value of one at their vertex that was reached and hangs
    together with them, one after the other; where there is none, the mean of those that do. What was reached keeps its
    value."""
    at_such = np.zeros(int(vertices.max()) + 1, dtype=bool)
    at_such[vertices[beyond]] = True
    corners = np.flatnonzero(at_such[vertices])
    is_beyond = np.zeros(len(vertices), dtype=bool)
    is_beyond[beyond] = True
    one, other = _pairs(corners, vertices)
    together = _hang_together(boxes, reached, seams, one // 4, other // 4)
    one, other = one[together], other[together]
    source = _sources(one, other, corners[~is_beyond[corners]], len(vertices))
    taken = beyond[source[beyond] != NONE]
    values[taken], named[taken] = values[source[taken]], named[source[taken]]
    left = beyond[source[beyond] == NONE]
    if len(left):
        _take_means(values, named, left, one, other)


def _pairs(corners: Array, vertices: Array) -> tuple[Array, Array]:
    """All pairs of different corners at one vertex, in both directions."""
    order = corners[np.argsort(vertices[corners], kind="stable")]
    _, firsts, counts = np.unique(vertices[order], return_index=True, return_counts=True)
    first, many = np.repeat(firsts, counts), np.repeat(counts, counts)
    one = np.repeat(np.arange(len(order)), many)
    other = np.repeat(first, many) + np.arange(len(one)) - np.repeat(np.cumsum(many) - many, many)
    apart = one != other
    return order[one[apart]], order[other[apart]]


def _hang_together(boxes: Boxes, reached: Array, seams: Array, one: Array, other: Array) -> Array:
    """(pairs,) bool: whether the old faces that two new ones have reached are in part the same, or side by side over no
    seam."""
    old_faces = len(boxes.twins) // 4
    wanted = np.zeros(len(boxes.sizes), dtype=bool)
    wanted[one] = True
    at = np.flatnonzero(reached & wanted[boxes.face])
    face, old = boxes.face[at], boxes.darts[at] // 4
    sides = 4 * old[:, None] + np.arange(4)
    back = np.where(seams[sides], NONE, boxes.twins[sides])
    near = np.concatenate([face * old_faces + old, (face[:, None] * old_faces + back // 4)[back != NONE]])
    near = np.unique(near)
    starts = np.searchsorted(face, other, side="left")
    counts = np.searchsorted(face, other, side="right") - starts
    pair = np.repeat(np.arange(len(one)), counts)
    step = np.arange(len(pair)) - np.repeat(np.cumsum(counts) - counts, counts)
    keys = one[pair] * old_faces + old[starts[pair] + step]
    found = np.zeros(len(one), dtype=bool)
    if len(near):
        place = np.minimum(np.searchsorted(near, keys), len(near) - 1)
        found[pair[near[place] == keys]] = True
    return found


def _sources(one: Array, other: Array, settled: Array, count: int) -> Array:
    """(count,): the settled corner whose value each corner takes, in the order in which they are come to, or NONE.
    Pairs of corners hang together."""
    source, turn = np.full(count, NONE), np.full(count, NONE)
    source[settled], turn[settled] = settled, settled
    last = count
    while True:
        open_pairs = (turn[one] != NONE) & (turn[other] == NONE)
        if not open_pairs.any():
            return source
        before, after = one[open_pairs], other[open_pairs]
        order = np.lexsort((turn[before], after))
        after, before = after[order], before[order]
        firsts = np.concatenate([[True], after[1:] != after[:-1]])
        after, before = after[firsts], before[firsts]
        source[after] = source[before]
        turn[after[np.lexsort((after, turn[before]))]] = last + np.arange(len(after))
        last += len(after)


def _take_means(values: Array, named: Array, left: Array, one: Array, other: Array) -> None:
    """Gives the corners that are left, of those that hang together, the mean of what these have."""
    place = np.full(len(named), NONE)
    place[left] = np.arange(len(left))
    both = (place[one] != NONE) & (place[other] != NONE)
    group = least_in_class(len(left), place[one[both]], place[other[both]])
    counts = np.bincount(group, weights=named[left], minlength=len(left))
    has = counts[group] > 0
    for column in range(values.shape[1]):
        sums = np.bincount(group, weights=np.where(named[left], values[left, column], 0.0), minlength=len(left))
        values[left[has], column] = (sums / np.maximum(counts, 1))[group][has]
    named[left] = has


def unite(values: Array, named: Array, vertices: Array) -> None:
    """Gives corners at one vertex whose values are near each other the value of the first."""
    waiting = np.flatnonzero(named)
    waiting = waiting[np.argsort(vertices[waiting], kind="stable")]
    while len(waiting):
        at = vertices[waiting]
        starts = np.concatenate([[True], at[1:] != at[:-1]])
        first = waiting[np.flatnonzero(starts)[np.cumsum(starts) - 1]]
        same = np.all(np.abs(values[waiting] - values[first]) <= NEAR, axis=1)
        values[waiting[same]] = values[first[same]]
        waiting = waiting[~same]
