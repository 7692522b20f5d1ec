"""Groups of faces and edges, as the physical groups of gmsh: what has to stay so that they come back, and how they come
back on the new mesh."""

from __future__ import annotations

from dataclasses import replace
from typing import Iterator, NamedTuple

import numpy as np

from .arrays import Array
from .features import MEETINGS, Marks, edges_in, mark_features
from .mesh import NONE, Mesh, Names
from .notices import counted
from .program import Program
from .settings import Settings
from .under import Under

HALF = 0.5
"""A new edge belongs to a group where more than this part of what lies under it does."""
LONGER = 1e-3
"""A part of its length: a group of edges that changes by more is told."""
SHARE = 1e-6
"""A part of a new face: where less of it lies in another group, it does not lie over a border."""


def edges_by_group(mesh: Mesh) -> dict[str, Array]:
    """By the name of each group of edges the numbers of those of its edges that the mesh has, each once."""
    found: dict[str, list[Array]] = {}
    for line, name in zip(mesh.lines, mesh.line_names):
        if name:
            found.setdefault(name, []).append(line)
    whole = {name: np.unique(mesh.edges.numbers_of(edges_in(tuple(some)))) for name, some in found.items()}
    return {name: some[some != NONE] for name, some in whole.items()}


def marks_of_groups(mesh: Mesh, corners: bool) -> Marks:
    """The edges that have to stay so that groups come back: borders between groups of faces, edges of groups, and one
    at each point where groups of edges meet in a straight line. With `corners` besides what keeps corners."""
    found = mark_features(mesh, None, kinds=("groups", "lines"), corners=corners)
    return with_meetings(mesh, found)


def with_meetings(mesh: Mesh, marks: Marks) -> Marks:
    """The marks, and an edge at each point where groups of edges meet in a straight line, which else would be none of
    the new mesh."""
    more = _meetings(mesh, marks)
    more = more[~_are_in(more, marks.edges, len(mesh.points))]
    edges = np.concatenate([marks.edges, more])
    reasons = np.concatenate([marks.reasons, np.full(len(more), MEETINGS)])
    order = np.lexsort((edges[:, 1], edges[:, 0]))
    return Marks(edges[order], reasons[order])


def _are_in(some: Array, others: Array, count: int) -> Array:
    return np.asarray(np.isin(some @ [count, 1], others @ [count, 1]))


def _meetings(mesh: Mesh, marks: Marks) -> Array:
    """(n, 2): edges across lines of named edges, at points where names change: inside ones with four faces, and ones of
    the boundary with two. At others there is a point of the new mesh anyway."""
    groups = edges_by_group(mesh)
    if not groups:
        return np.zeros((0, 2), dtype=np.int64)
    edges, faces = mesh.edges, np.bincount(mesh.corners, minlength=len(mesh.points))
    kind = _kinds(groups, len(edges.ends))
    is_on = edges.uses == 1
    is_on[edges.numbers_of(marks.edges)] = True
    degree = np.bincount(edges.ends[is_on].ravel(), minlength=len(faces))
    low, high = _extremes(kind, edges.ends, is_on, len(faces))
    on_rim = np.zeros(len(faces), dtype=bool)
    on_rim[edges.ends[edges.uses == 1]] = True
    meet = np.flatnonzero((degree == 2) & (low != high) & (faces == np.where(on_rim, 2, 4)))
    return _edges_across(mesh, meet, is_on)


def _kinds(groups: dict[str, Array], count: int) -> Array:
    """(edges,) int64: a number for each set of groups that edges are in."""
    table = np.zeros((count, len(groups)), dtype=bool)
    for column, some in enumerate(groups.values()):
        table[some, column] = True
    _, kind = np.unique(table, axis=0, return_inverse=True)
    return np.asarray(kind.reshape(-1))


def _extremes(kind: Array, ends: Array, is_on: Array, count: int) -> tuple[Array, Array]:
    """(points,): the least and the greatest number among the chosen edges at each point."""
    low, high = np.full(count, len(kind)), np.full(count, -1)
    for side in ends[is_on].T:
        np.minimum.at(low, side, kind[is_on])
        np.maximum.at(high, side, kind[is_on])
    return low, high


def _edges_across(mesh: Mesh, points: Array, is_on: Array) -> Array:
    """(n, 2): for each point one edge that is not on a line already: the first that a face has there."""
    chosen = np.zeros(len(mesh.points), dtype=bool)
    chosen[points] = True
    ends = mesh.edges.ends[~is_on]
    at = np.concatenate([np.column_stack([ends[:, 0], ends]), np.column_stack([ends[:, 1], ends])])
    at = at[chosen[at[:, 0]]]
    _, first = np.unique(at[:, 0], return_index=True)
    return np.asarray(at[first, 1:])


def keeping_groups(settings: Settings, mesh: Mesh, program: Program) -> Settings:
    """The settings, with what has to stay so that the groups of a mesh come back, where the command can keep edges."""
    if not mesh.is_grouped or settings.free_groups:
        return settings
    if (settings.coarse or settings.edge is not None) and not program.has_fit():
        return settings
    if not settings.is_creased and not len(marks_of_groups(mesh, settings.corners).edges):
        return settings
    return replace(settings, keep=tuple(dict.fromkeys((*settings.keep, "groups", "lines"))))


class Returned(NamedTuple):
    """A new mesh with the groups of the old one, and what of them is not as it was."""

    mesh: Mesh
    said: list[tuple[str, str]]


def return_groups(old: Mesh, new: Mesh, under: Under) -> Returned:
    """The new mesh of an old one of quads, with its groups. Faces are in those of the old face under their middle, and
    edges in those that more than half of the old edges under them are in."""
    homes = under.map.homes
    groups = {word: Names(it.names, it.of_face[homes]) for word, it in old.groups.items()}
    lines, names = _lines_of(old, new, under)
    made = replace(new, groups=groups, lines=lines, line_names=names, is_grouped=True)
    return Returned(made, [*_told_of_faces(old, made, under), *_told_of_edges(old, made)])


def _lines_of(old: Mesh, new: Mesh, under: Under) -> tuple[tuple[Array, ...], tuple[str, ...]]:
    """The edges of each group on the new mesh, as lines, and the name of each line."""
    over = under.overlaps
    of_new = new.edges.of_corner[over.darts]
    # Of an edge inside one side is enough.
    first = np.full(len(new.edges.ends), 4 * new.face_count)
    np.minimum.at(first, of_new, over.darts)
    one = first[of_new] == over.darts
    of_new, of_old = of_new[one], old.edges.of_corner[over.under[one]]
    long = np.linalg.norm(np.diff(old.points[old.edges.ends], axis=1)[:, 0], axis=1)
    long = long[of_old] * (over.spans[one, 1] - over.spans[one, 0])
    whole = np.bincount(of_new, weights=long, minlength=len(first))
    lines, names = [], []
    for name, some in edges_by_group(old).items():
        is_in = np.zeros(len(old.edges.ends), dtype=bool)
        is_in[some] = True
        within = np.bincount(of_new, weights=long * is_in[of_old], minlength=len(first))
        for chain in chains_of(new.edges.ends[(within > HALF * whole) & (whole > 0)]):
            lines.append(chain)
            names.append(name)
    return tuple(lines), tuple(names)


def chains_of(edges: Array) -> Iterator[Array]:
    """Edges (n, 2) as lines of points, as long as they go without a fork, in the order of their least points."""
    around: dict[int, list[int]] = {}
    for one, other in edges.tolist():
        around.setdefault(one, []).append(other)
        around.setdefault(other, []).append(one)
    ends = {it for it in around if len(around[it]) != 2}
    for start in [*sorted(ends), *sorted(around)]:
        while around[start]:
            line = [start]
            while len(line) == 1 or line[-1] not in ends and line[-1] != start:
                after = around[line[-1]].pop(0)
                around[after].remove(line[-1])
                line.append(after)
            yield np.array(line, dtype=np.int64)


def _told_of_faces(old: Mesh, new: Mesh, under: Under) -> Iterator[tuple[str, str]]:
    """Which groups have no faces any more, and how many faces lie over a border of groups."""
    over = under.overlaps
    is_over = np.zeros(new.face_count, dtype=bool)
    for word, it in new.groups.items():
        before = {it.names[at] for at in np.unique(old.groups[word].of_face).tolist()}
        gone = sorted(before - {it.names[at] for at in np.unique(it.of_face).tolist()} - {""})
        if gone and word == next(iter(new.groups)):
            yield "groups", f"no face is left of {counted(len(gone), 'group')}: {', '.join(gone)}"
        strange = (old.groups[word].of_face[over.old] != it.of_face[over.new]) & (over.parts > SHARE)
        is_over[over.new[strange]] = True
    if is_over.any():
        yield "over-groups", (f"{counted(int(is_over.sum()), 'face')} lie over a border of groups, which this command "
                              "does not keep: --scale and --faces keep them")


def _told_of_edges(old: Mesh, new: Mesh) -> Iterator[tuple[str, str]]:
    """Which groups of edges are longer or shorter than they were, or gone, and what is no edge of the mesh."""
    before, after = edges_by_group(old), edges_by_group(new)
    for name, some in before.items():
        was, now = length_of(old, some), length_of(new, after.get(name, some[:0]))
        if abs(now - was) > LONGER * was:
            yield "group-length", f"the edges of the group {name} are {now:.6g} long in all, and were {was:.6g}"
    strange = int(np.sum(old.edges.numbers_of(edges_in(old.lines)) == NONE)) if old.lines else 0
    if strange:
        yield "lines", f"{counted(strange, 'line cell', True)} dropped: no edge of a face lies there"


def length_of(mesh: Mesh, edges: Array) -> float:
    """How long these edges are in all."""
    ends = mesh.points[mesh.edges.ends[edges]]
    return float(np.linalg.norm(ends[:, 1] - ends[:, 0], axis=1).sum())
