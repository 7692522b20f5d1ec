"""Each face of a polygon mesh divided into quads, once."""

from __future__ import annotations

from dataclasses import replace

import numpy as np

from .arrays import Array
from .mesh import NONE, Edges, Layer, Mesh


def subdivide(mesh: Mesh) -> Mesh:
    """The mesh with a point in the middle of each edge and of each face: a face of n corners becomes n quads, as in the
    first step of Catmull and Clark, but every old point keeps its place. What corners carry is carried on linearly."""
    edges = mesh.edges
    points, faces = len(mesh.points), mesh.face_of_corner()
    before = np.empty(len(mesh.corners), dtype=np.int64)
    before[mesh.next_corners()] = np.arange(len(mesh.corners))
    quads = np.column_stack([
        mesh.corners,
        points + edges.of_corner,
        points + len(edges.ends) + faces,
        points + edges.of_corner[before],
    ])
    lines, line_names = _refined_lines(mesh, edges)
    return replace(
        Mesh.of_quads(refined(mesh, mesh.points), quads),
        texture=None if mesh.texture is None else _refined_layer(mesh, before, mesh.texture),
        normal=None if mesh.normal is None else _refined_layer(mesh, before, mesh.normal),
        layers={name: _refined_layer(mesh, before, it) for name, it in mesh.layers.items()},
        lines=lines,
        groups={word: replace(it, of_face=it.of_face[faces]) for word, it in mesh.groups.items()},
        extra=None if mesh.extra is None else refined(mesh, mesh.extra),
        libraries=mesh.libraries,
        line_names=line_names,
        point_fields={name: at_divided(mesh, it) for name, it in mesh.point_fields.items()},
        face_fields={name: it[faces] for name, it in mesh.face_fields.items()},
        is_grouped=mesh.is_grouped,
    )


def in_quads(mesh: Mesh) -> Mesh:
    """The mesh, or what becomes of it when its faces are divided where some are no quads."""
    return mesh if mesh.is_quads() else subdivide(mesh)


def at_divided(mesh: Mesh, values: Array) -> Array:
    """Values at points (points, ..), at the points of the divided mesh."""
    table = refined(mesh, np.asarray(values, dtype=np.float64).reshape(len(values), -1))
    return table.reshape(len(table), *values.shape[1:])


def _refined_lines(mesh: Mesh, edges: Edges) -> tuple[tuple[Array, ...], tuple[str, ...]]:
    """The lines with the middles of their edges, and their names; a pair of points that is no edge parts its line in
    two."""
    middles = {(one, other): len(mesh.points) + at for at, (one, other) in enumerate(edges.ends.tolist())}
    done: list[tuple[list[int], str]] = []
    for line, name in zip(mesh.lines, mesh.line_names or ("",) * len(mesh.lines)):
        run = line[:1].tolist()
        for one, other in zip(line.tolist(), line[1:].tolist()):
            middle = middles.get((min(one, other), max(one, other)))
            if middle is None:
                done.append((run, name))
                run = [other]
            else:
                run += [middle, other]
        done.append((run, name))
    kept = [(np.array(it, dtype=np.int64), name) for it, name in done if len(it) > 1]
    return tuple(it for it, _ in kept), tuple(name for _, name in kept) if mesh.line_names else ()


def refined(mesh: Mesh, values: Array) -> Array:
    """Values at points (points, width), at these, the middles of edges and the middles of faces."""
    return np.concatenate([values, values[mesh.edges.ends].mean(axis=1), _face_means(mesh, values[mesh.corners])])


def _face_means(mesh: Mesh, at_corners: Array) -> Array:
    if not mesh.face_count:
        return np.zeros((0, at_corners.shape[1]))
    return np.asarray(np.add.reduceat(at_corners, mesh.starts[:-1]) / mesh.sides[:, None])


def _refined_layer(mesh: Mesh, before: Array, layer: Layer) -> Layer:
    """Four values for each old corner; none where some corner of its face names none."""
    named = np.logical_and.reduceat(layer.rows != NONE, mesh.starts[:-1])[mesh.face_of_corner()]
    at_corners = layer.values[np.maximum(layer.rows, 0)] if len(layer.values) else np.zeros((len(before), 1))
    along = (at_corners + at_corners[mesh.next_corners()]) / 2
    means = _face_means(mesh, at_corners)[mesh.face_of_corner()]
    values, rows = np.unique(
        np.stack([at_corners, along, means, along[before]], axis=1).reshape(-1, at_corners.shape[1]),
        axis=0, return_inverse=True)
    return Layer(values, np.where(np.repeat(named, 4), rows.reshape(-1), NONE))
