"""How much a mesh of quads bends along its edges, and what the arcs of a layout see of it."""

from __future__ import annotations

from dataclasses import dataclass

import numpy as np

from .arrays import Array
from .darts import Darts
from .layout import Layout
from .mesh import NONE, Mesh

MOST = 0.9
"""Of what stands beside an arc, this part is no greater than what counts."""


@dataclass(frozen=True)
class Rows:
    """What lies beside each arc of a layout, in the patches on both of its sides. (arcs,) float64 each."""

    sag: Array
    """How far the middle of a bow is from its chord: of the edges parallel to the arc, nine of ten have no more."""
    length: Array
    """The root mean square of the lengths of its rows: of the runs of edges parallel to all of it."""
    weight: Array
    """The mean of a value of points, over the ends of these edges."""


def sags(darts: Darts, kept: Array) -> Array:
    """(edges,) float64: for each edge the height of a bow over it, from the turn of the straight run of edges through
    it. A run does not go across edges that are kept (edges,) bool; where none goes on, the turn of the normals counts.
    """
    mesh = darts.mesh
    ends = mesh.edges.ends
    lengths = np.linalg.norm(mesh.points[ends[:, 1]] - mesh.points[ends[:, 0]], axis=1)
    turns, counts = _turns_of_runs(darts, kept, lengths)
    alone = counts == 0
    turns[~alone] /= counts[~alone, None]
    normals = normals_at_points(mesh)
    bent = np.linalg.norm(normals[ends[alone, 1]] - normals[ends[alone, 0]], axis=1)
    by_length = np.linalg.norm(turns, axis=1)
    by_length[alone] = np.divide(bent, lengths[alone], out=np.zeros(len(bent)), where=lengths[alone] > 0)
    return np.asarray(by_length * lengths ** 2 / 8)


def _turns_of_runs(darts: Darts, kept: Array, lengths: Array) -> tuple[Array, Array]:
    """(edges, 3) the sum of how much the unit tangent changes at both ends of each edge, by the mean length of the two
    edges there; and of how many ends that is."""
    mesh, of_edge = darts.mesh, darts.of_edge
    before = np.flatnonzero(darts.straight != NONE)
    after = darts.straight[before]
    before, after = (it[_goes_on(darts, kept, before, after)] for it in (before, after))
    units = _units(mesh.points[darts.end] - mesh.points[darts.start])
    means = (lengths[of_edge[before]] + lengths[of_edge[after]]) / 2
    turn = (units[after] - units[before]) / np.where(means > 0, means, np.inf)[:, None]
    turns, counts = np.zeros((len(lengths), 3)), np.zeros(len(lengths))
    for some in (of_edge[before], of_edge[after]):
        counts += np.bincount(some, minlength=len(lengths))
        for axis in range(3):
            turns[:, axis] += np.bincount(some, weights=turn[:, axis], minlength=len(lengths))
    return turns, counts


def _goes_on(darts: Darts, kept: Array, before: Array, after: Array) -> Array:
    """(n,) bool: whether a run goes on from darts (n,) straight to those after them: over a regular point inside or
    along the boundary, and not across kept lines."""
    mesh, at = darts.mesh, darts.end[before]
    faces = np.bincount(mesh.corners, minlength=len(mesh.points))[at]
    on_rim, holds = np.zeros(len(mesh.points), dtype=bool), np.zeros(len(mesh.points), dtype=bool)
    on_rim[mesh.edges.ends[mesh.edges.uses == 1]] = True
    holds[mesh.edges.ends[kept].ravel()] = True
    along_rim = (darts.twin[before] == NONE) & (darts.twin[after] == NONE)
    is_regular = ((faces == 4) & ~on_rim[at]) | ((faces == 2) & along_rim)
    return np.asarray(is_regular & (~holds[at] | (kept[darts.of_edge[before]] & kept[darts.of_edge[after]])))


def normals_at_points(mesh: Mesh) -> Array:
    """(points, 3): the mean direction of the faces around each point, each by its area."""
    a, b, c, d = mesh.points[mesh.quads].transpose(1, 0, 2)
    facing = np.cross(c - a, d - b)
    summed = np.zeros((len(mesh.points), 3))
    for axis in range(3):
        summed[:, axis] = np.bincount(mesh.corners, weights=np.repeat(facing[:, axis], 4), minlength=len(summed))
    return _units(summed)


def rows_of(layout: Layout, kept: Array, density: Array) -> Rows:
    """What lies beside each arc, with a value of points (points,). n log n in the faces."""
    darts, count = layout.darts, len(layout.old)
    ends, points = layout.mesh.edges.ends, layout.mesh.points
    lengths = np.linalg.norm(points[ends[:, 1]] - points[ends[:, 0]], axis=1)
    height, weights = sags(darts, kept), density[ends].mean(axis=1)
    arcs, found, dense = [], [], np.zeros((2, count))
    squares, rows = np.zeros(count), np.zeros(count)
    for step in layout.strips():
        edges = darts.of_edge[step[:, 1]]
        of_arc = layout.arc_of_edge[darts.of_edge[step[:, 0]]]
        arcs.append(of_arc)
        found.append(height[edges])
        dense += np.stack([np.bincount(of_arc, it, minlength=count) for it in (weights[edges], np.ones(len(edges)))])
        row = np.flatnonzero(np.concatenate([[True], of_arc[1:] != of_arc[:-1]]))
        # The two sides of an arc go as one row while both last.
        share = np.diff(np.append(row, len(of_arc))) / layout.old[of_arc[row]]
        squares[of_arc[row]] += share * (np.add.reduceat(lengths[edges], row) / share) ** 2
        rows[of_arc[row]] += share
    return Rows(high_of(np.concatenate(arcs), np.concatenate(found), count), np.sqrt(squares / np.maximum(rows, 1)),
                dense[0] / np.maximum(dense[1], 1))


def row_means(layout: Layout, of_edge: Array) -> Array:
    """(arcs,) float64: for each arc the mean over its rows of the sum of a value of edges (edges,). Rows are the runs
    of edges parallel to all of it, in the patches on both of its sides."""
    count, edge_of = len(layout.old), layout.darts.of_edge
    sums, edges = np.zeros(count), np.zeros(count)
    for step in layout.strips():
        of_arc = layout.arc_of_edge[edge_of[step[:, 0]]]
        sums += np.bincount(of_arc, of_edge[edge_of[step[:, 1]]], minlength=count)
        edges += np.bincount(of_arc, minlength=count)
    return np.asarray(sums * layout.old / np.maximum(edges, 1))


def high_of(groups: Array, values: Array, count: int) -> Array:
    """(count,) float64: for each group the value that nine of ten of its values do not exceed; 0 where it has none."""
    order = np.lexsort((values, groups))
    sizes = np.bincount(groups, minlength=count)
    at = np.cumsum(sizes) - sizes + np.floor(MOST * np.maximum(sizes - 1, 0)).astype(np.int64)
    some = np.flatnonzero(sizes)
    found = np.zeros(count)
    found[some] = values[order][at[some]]
    return found


def _units(vectors: Array) -> Array:
    lengths = np.linalg.norm(vectors, axis=1, keepdims=True)
    return np.asarray(np.divide(vectors, lengths, out=np.zeros_like(vectors), where=lengths > 0))
