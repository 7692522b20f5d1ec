"""Points of a new mesh moved along the old surface, where that makes no face worse."""

from __future__ import annotations

from dataclasses import replace

import numpy as np

from .arrays import Array
from .distance import Surface
from .features import mark_features
from .mesh import Edges, Mesh
from .quality import jacobians_of

PARTS_OF_WAY = (1.0, 0.5)
"""How far a point is moved toward the mean of its neighbours; the first that makes nothing worse."""
SHARP = 30.0
"""Degrees: where faces meet at more, their edge is a feature."""


def relax(mesh: Mesh, old: Mesh, nodes: int, times: int) -> tuple[Mesh, int]:
    """The mesh relaxed so many times over the old surface, and how many moves were made.

    Each time each point goes to the place of the old surface nearest to the mean of its neighbours, or half way, if the
    least scaled Jacobian of its faces does not fall by that. Points of features, of lines and of the boundary stay, and
    the first `nodes` points.
    """
    if not mesh.face_count:
        return mesh, 0
    edges = mesh.edges
    surface, points, moves = Surface(old), mesh.points.copy(), 0
    rounds = _independent(mesh, _free(mesh, edges, nodes))
    beside = np.concatenate([edges.ends, edges.ends[:, ::-1]])
    beside = beside[np.argsort(beside[:, 0], kind="stable")]
    for _ in range(times):
        for chosen in rounds:
            moves += _move(points, mesh.quads, chosen, _means(points, beside, chosen), surface)
    return replace(mesh, points=points), moves


def _free(mesh: Mesh, edges: Edges, nodes: int) -> Array:
    """(points,) bool: which may be moved."""
    free = np.zeros(len(mesh.points), dtype=bool)
    free[mesh.corners] = True
    free[:nodes] = False
    free[edges.ends[edges.uses == 1]] = False
    free[mark_features(mesh, SHARP, corners=False).edges] = False
    for line in mesh.lines:
        free[line] = False
    return free


def _independent(mesh: Mesh, free: Array) -> list[Array]:
    """The free points in rounds, in each of which no two are in one face."""
    quads, rounds = mesh.quads, []
    ranks = np.random.default_rng(1).permutation(len(free))
    left = free.copy()
    while left.any():
        rank = np.where(left, ranks, -1)
        highest = np.zeros(len(free), dtype=np.int64)
        np.maximum.at(highest, quads, rank[quads].max(axis=1)[:, None])
        chosen = np.flatnonzero(left & (rank == highest))
        rounds.append(chosen)
        left[chosen] = False
    return rounds


def _means(points: Array, beside: Array, chosen: Array) -> Array:
    """(chosen, 3): the mean of each point's neighbours; `beside` has all pairs of these, in order."""
    starts = np.searchsorted(beside[:, 0], chosen)
    counts = np.searchsorted(beside[:, 0], chosen, side="right") - starts
    at = np.repeat(starts - np.concatenate([[0], np.cumsum(counts)[:-1]]), counts) + np.arange(counts.sum())
    sums = np.add.reduceat(points[beside[at, 1]], np.concatenate([[0], np.cumsum(counts)[:-1]]))
    return np.asarray(sums / counts[:, None])


def _move(points: Array, quads: Array, chosen: Array, means: Array, surface: Surface) -> int:
    """Moves each of the chosen points where no face becomes worse, and returns how many were moved."""
    was = np.zeros(len(points), dtype=bool)
    was[chosen] = True
    faces = np.flatnonzero(was[quads].any(axis=1))
    mover = np.where(was[quads[faces]], quads[faces], -1).max(axis=1)
    before = _least_at(points, quads[faces], mover)
    start, moved = points[chosen].copy(), np.zeros(len(points), dtype=bool)
    for part in PARTS_OF_WAY:
        todo = ~moved[chosen]
        some = chosen[todo]
        points[some] = surface.nearest(start[todo] + part * (means[todo] - start[todo]))
        worse = some[_least_at(points, quads[faces], mover)[some] < before[some]]
        moved[some] = True
        moved[worse] = False
        points[chosen[~moved[chosen]]] = start[~moved[chosen]]
    return int(moved.sum())


def _least_at(points: Array, quads: Array, mover: Array) -> Array:
    """(points,): for each point that is the mover of some quads the least of their scaled Jacobians."""
    least = np.ones(len(points))
    np.minimum.at(least, mover, jacobians_of(points[quads]))
    return least
