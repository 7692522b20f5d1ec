"""Layers of corners, brought over to the corners of a new mesh. `tools/carrying.py` has the same rules in plain Python,
and says them in words; a test compares the two."""

from __future__ import annotations

import numpy as np

from .arrays import Array
from .carry_boxes import Boxes
from .carry_settling import settle, unite
from .features import name_others
from .maps import EAST, ONE, along
from .mesh import NONE, Layer

DIGITS = 6
"""What is carried over has so many digits behind the point."""
HALF = 1 << 24
"""Squares of distances are compared exactly, as numbers of this base."""


def seams_of(layer: Layer, twins: Array) -> Array:
    """(darts,) bool: at whose edges two faces name other values."""
    seams = np.zeros(len(twins), dtype=bool)
    inner = np.flatnonzero(twins != NONE)
    back = twins[inner]
    seams[inner] = (name_others(layer, inner, along(back, EAST)) | name_others(layer, along(inner, EAST), back))
    return seams


def carried_layer(boxes: Boxes, layer: Layer, vertices: Array, are_directions: bool = False) -> tuple[Layer, Array]:
    """A layer of the old mesh at the corners of the new one, which have these vertices (corners,): a row for each
    corner that has a value; and (faces,) bool, which faces lie over one of its seams. Directions get the length 1."""
    if not len(layer.values):
        return Layer(layer.values, np.full(len(vertices), NONE)), np.zeros(len(boxes.sizes), dtype=bool)
    seams = seams_of(layer, boxes.twins)
    reached = boxes.reached(seams)
    lost, taken, beyond = _taken_instead(boxes, reached)
    values, named = _values_at(layer, *boxes.between())
    values[lost], named[lost] = _values_at(layer, *boxes.between(lost, taken))
    if len(beyond):
        settle(values, named, boxes, reached, seams, vertices, beyond)
    unite(values, named, vertices)
    if are_directions:
        sizes = np.linalg.norm(values, axis=1, keepdims=True)
        values /= np.where(sizes > 0, sizes, 1.0)
    is_over = ~np.logical_and.reduceat(reached, boxes.firsts) if len(boxes.firsts) else np.zeros(0, dtype=bool)
    return Layer(values.round(DIGITS) + 0.0, np.where(named, np.arange(len(named)), NONE)), is_over


def _taken_instead(boxes: Boxes, reached: Array) -> tuple[Array, Array, Array]:
    """The corners that lie in an old face which is not reached, with the place of their face's box from which each
    takes its value, the nearest that is reached; and those of them that lie beyond it."""
    chosen = boxes.corner_places
    lost = np.flatnonzero(~reached[chosen])
    counts = boxes.sizes[lost // 4]
    who = np.repeat(lost, counts)
    at = np.arange(len(who)) - np.repeat(np.cumsum(counts) - counts, counts) + boxes.firsts[who // 4]
    who, at = who[reached[at]], at[reached[at]]
    low = boxes.places[at] * ONE
    corner = boxes.map.places.reshape(-1, 2)[who]
    far = np.maximum(np.maximum(low - corner, corner - low - ONE), 0)
    columns, rows = boxes.places[at].T
    order = np.lexsort((rows, columns, boxes.steps[at], *_squares(far), who))
    firsts = order[np.searchsorted(who[order], lost)]
    return lost, at[firsts], lost[far[firsts].any(axis=1)]


def _squares(far: Array) -> tuple[Array, Array, Array]:
    """(n,) each: the digits of the squares of distances (n, 2), the least first."""
    high, low = far // HALF, far % HALF
    ones, tens, hundreds = ((low * low).sum(axis=1), 2 * (high * low).sum(axis=1), (high * high).sum(axis=1))
    tens += ones // HALF
    hundreds += tens // HALF
    return ones % HALF, tens % HALF, hundreds


def _values_at(layer: Layer, darts: Array, parts: Array) -> tuple[Array, Array]:
    """Values mixed from those at four darts (4, n), which count so much (4, n); and whether all four name one."""
    values = np.zeros((darts.shape[1], layer.values.shape[1]))
    named = np.ones(darts.shape[1], dtype=bool)
    for some, part in zip(darts, parts):
        rows = layer.rows[some]
        named &= rows != NONE
        values += layer.values[rows] * part[:, None]
    values[~named] = 0.0
    return values, named


def each_once(layer: Layer) -> Layer:
    """The same layer with each value once, in the order in which corners come to them."""
    kept = np.flatnonzero(layer.rows != NONE)
    values = layer.values[layer.rows[kept]]
    rows = np.full(len(layer.rows), NONE)
    if not len(kept):
        return Layer(values, rows)
    _, first, of_value = np.unique(_keys(values), return_index=True, return_inverse=True)
    if not np.array_equal(values[first][of_value], values):
        _, first, of_value = np.unique(values, axis=0, return_index=True, return_inverse=True)
    order = np.argsort(first)
    rank = np.empty(len(order), dtype=np.int64)
    rank[order] = np.arange(len(order))
    rows[kept] = rank[of_value.reshape(-1)]
    return Layer(values[first[order]], rows)


def _keys(values: Array) -> Array:
    """(n,) uint64: a number for each row of values, the same for the same; now and then the same for others."""
    bits = np.ascontiguousarray(values).view(np.uint64).reshape(values.shape)
    keys = np.zeros(len(values), dtype=np.uint64)
    for column in bits.T:
        keys = (keys ^ column ^ (column >> np.uint64(29))) * np.uint64(0x9E3779B97F4A7C15)
        keys ^= keys >> np.uint64(32)
    return keys
