"""Blocks of surfaces made a cell deep, and which of their points are one."""

from __future__ import annotations

from typing import Optional

import numpy as np

from .arrays import Array
from .blocks import Blocks, along
from .errors import WishError
from .notices import counted
from .surface import least_in_class, number_in_order

FLAT = 1e-6
"""A part of the size: what lies so near a plane is flat."""


def points_as_one(blocks: Blocks) -> list[Array]:
    """For each block (high + 1, wide + 1) int64: a number for each point, the same for linked ones, from 0 in their
    order."""
    counts = [(it.wide + 1) * (it.high + 1) for it in blocks]
    firsts = np.concatenate([[0], np.cumsum(counts)])
    own = [np.arange(count).reshape(it.high + 1, it.wide + 1) + first
           for it, count, first in zip(blocks, counts, firsts.tolist())]
    one, other = [np.zeros(0, dtype=np.int64)], [np.zeros(0, dtype=np.int64)]
    for at, link in blocks.joins():
        one.append(along(own[at], link.side)[link.first:link.first + link.count + 1])
        other.append(along(own[link.block], link.across)[link.point:link.point + link.count + 1][::-1])
    names = number_in_order(least_in_class(int(firsts[-1]), np.concatenate(one), np.concatenate(other)))
    return [names[it] for it in own]


def extruded(blocks: Blocks, thickness: Optional[float]) -> list[Array]:
    """For each block the points (layers, high + 1, wide + 1, 3): one layer, or with a thickness two, of which the
    second lies so far along the normals. Raises a `WishError` where faces have no normal."""
    layers = [it.points[None] for it in blocks]
    if thickness is None:
        return layers
    names = points_as_one(blocks)
    normals = normals_of(blocks, names)
    return [np.concatenate([it, it + thickness * normals[name]]) for it, name in zip(layers, names)]


def folded_in(blocks: Blocks, thickness: Optional[float]) -> tuple[str, ...]:
    """How many cells are turned inside out where blocks are made so deep, in words, if any are."""
    count = 0
    for low, high in extruded(blocks, thickness) if thickness is not None else ():
        away = high - low
        up = away[1:, 1:] + away[:-1, :-1] + away[1:, :-1] + away[:-1, 1:]
        sides = [np.cross(it[1:, 1:] - it[:-1, :-1], it[1:, :-1] - it[:-1, 1:]) for it in (low, high)]
        is_folded = np.any([np.sum(it * up, axis=2) <= 0 for it in sides], axis=0)
        count += int(is_folded.sum())
    if not count:
        return ()
    return (f"{counted(count, 'cell')} would be inside out with the thickness {thickness:.4g}, where the surface "
            "bends: take a smaller one",)


def is_plane(blocks: Blocks) -> bool:
    """Whether all points lie in a plane."""
    normals = normals_of(blocks, points_as_one(blocks))
    return bool(np.all(normals == normals[0]))


def normals_of(blocks: Blocks, names: list[Array]) -> Array:
    """(points, 3): where all lies in a plane its normal, else the mean of the normals of the faces around each."""
    count = max(int(it.max()) for it in names) + 1
    sums, places = np.zeros((count, 3)), np.zeros((count, 3))
    for it, name in zip(blocks, names):
        places[name] = it.points
        across = np.cross(it.points[1:, 1:] - it.points[:-1, :-1], it.points[1:, :-1] - it.points[:-1, 1:])
        for corner in (name[:-1, :-1], name[:-1, 1:], name[1:, 1:], name[1:, :-1]):
            np.add.at(sums, corner.ravel(), across.reshape(-1, 3))
    whole = sums.sum(axis=0)
    size = float(np.ptp(places, axis=0).max())
    away = (places - places[0]) @ (whole / (np.linalg.norm(whole) or 1.0))
    if np.linalg.norm(whole) and float(np.ptp(away)) <= FLAT * size:
        sums = np.broadcast_to(whole, sums.shape)
    long = np.linalg.norm(sums, axis=1, keepdims=True)
    if np.any(long == 0):
        raise WishError("the blocks cannot be made deep: around a point the faces have no normal")
    return np.asarray(sums / long)
