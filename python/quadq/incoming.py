"""Meshes of what meshio has read: faces, lines, groups and fields."""

from __future__ import annotations

from dataclasses import dataclass, field, replace
from typing import Any

import numpy as np

from .arrays import Array
from .errors import MeshError
from .mesh import Mesh, Names
from .notices import counted
from .refusal import NOT_QUAD, SYNTAX, Refusal

PHYSICAL, GEOMETRICAL = "gmsh:physical", "gmsh:geometrical"
"""The names by which meshio has the physical groups of gmsh, and the numbers of its curves and surfaces."""
GROUP = "group:"
"""Before the name of a group, the name of a field that is 1 where a face or an edge is in it."""
UNTOLD = (PHYSICAL, "gmsh:dim_tags", "facet_normals")
"""What is no field: it is told in another way, or follows from the mesh."""
FLAT = ("quad", "triangle", "polygon")
BOUNDS = "gmsh:bounding_entities"
"""A set of meshio that is none."""


@dataclass
class Cells:
    """The cells of one dimension, of all blocks together."""

    blocks: list[int] = field(default_factory=list)
    """The places of their blocks in what was read."""
    count: int = 0
    groups: dict[str, Array] = field(default_factory=dict)
    """By the name of each group (cells,) bool."""

    def take(self, name: str, chosen: Array) -> None:
        self.groups[name] = self.groups.get(name, np.zeros(self.count, dtype=bool)) | chosen


def mesh_of(read: Any, name: str) -> Mesh:
    """The surface of what meshio has read: quads, and any other faces of straight sides, with its lines, groups and
    fields. What else it has is named in the notes; curved faces are refused."""
    blocks = [(it, np.asarray(it.data, dtype=np.int64)) for it in read.cells]
    _refuse_curved(read, name)
    faces = _cells(read, [at for at, (it, _) in enumerate(blocks) if it.type in FLAT], 2)
    edges = _cells(read, [at for at, (it, _) in enumerate(blocks) if it.type == "line"], 1)
    if not faces.count:
        raise Refusal(NOT_QUAD, f"no faces in {name}")
    corners = np.concatenate([blocks[at][1].reshape(-1) for at in faces.blocks])
    sides = np.concatenate([np.full(len(blocks[at][1]), blocks[at][1].shape[1]) for at in faces.blocks])
    corners, sides, kept = _each_once(corners, sides, faces)
    pairs = np.concatenate([np.zeros((0, 2), dtype=np.int64), *(blocks[at][1] for at in edges.blocks)])
    lines, line_names = _lines_of(pairs, edges)
    notes = [f"{len(data)} cells of the type {it.type} were left out" for it, data in blocks
             if it.dim in (0, 3) or (it.dim == 1 and it.type != "line")]
    points = np.zeros((len(read.points), 3))
    points[:, :read.points.shape[1]] = read.points
    of_faces, beside = _face_fields(read, faces, edges)
    groups, further = _names_of(faces, kept)
    mesh = Mesh(
        points, corners, np.concatenate([[0], np.cumsum(sides)]), groups=groups, lines=lines, line_names=line_names,
        point_fields=_point_fields(read), face_fields={**{key: it[kept] for key, it in of_faces.items()}, **further},
        notes=tuple([*notes, *beside]), is_grouped=bool(groups) or bool(line_names))
    try:
        mesh.refuse_strange()
    except MeshError as error:
        raise Refusal(SYNTAX, f"{name}: {error}") from error
    return with_point_sets(mesh, {key: np.asarray(it, dtype=np.int64) for key, it in read.point_sets.items()})


def _refuse_curved(read: Any, name: str) -> None:
    curved = [f"{len(it.data)} cells of the type {it.type}" for it in read.cells
              if it.dim == 2 and it.type not in FLAT]
    if curved:
        raise Refusal(NOT_QUAD, f"{name} has {' and '.join(curved)}: write it with faces of straight sides")


def _cells(read: Any, blocks: list[int], dimension: int) -> Cells:
    """The cells of these blocks with their groups: physical groups of gmsh, sets, and fields that tell groups."""
    cells = Cells(blocks, sum(len(read.cells[at].data) for at in blocks))
    # Where fields tell groups, numbers without names tell the same ones.
    is_told = not read.field_data and any(it.startswith(GROUP) for it in read.cell_data)
    if PHYSICAL in read.cell_data and not is_told:
        tags = _column(read, PHYSICAL, blocks).astype(np.int64)
        named = {int(data[0]): key for key, data in read.field_data.items()
                 if len(data) == 2 and int(data[1]) == dimension}
        for tag in np.unique(tags[tags != 0]).tolist():
            cells.take(named.get(tag, str(tag)), tags == tag)
    for key, some in read.cell_sets.items():
        if key != BOUNDS and len(some) == len(read.cells):
            chosen = np.concatenate([np.zeros(0, dtype=bool), *(
                np.isin(np.arange(len(read.cells[at].data)), _numbers(some[at])) for at in blocks)])
            if chosen.any():
                cells.take(key, chosen)
    for key in read.cell_data:
        if key.startswith(GROUP):
            chosen = np.nan_to_num(_column(read, key, blocks).reshape(cells.count, -1)[:, 0]) != 0
            if chosen.any():
                cells.take(key[len(GROUP):], chosen)
    return cells


def _numbers(some: Any) -> Array:
    return np.zeros(0, dtype=np.int64) if some is None else np.asarray(some, dtype=np.int64)


def _column(read: Any, key: str, blocks: list[int]) -> Array:
    """The values of a field in some blocks, one below the other."""
    some = [np.asarray(read.cell_data[key][at]) for at in blocks]
    return np.concatenate(some) if some else np.zeros(0, dtype=np.int64)


def _each_once(corners: Array, sides: Array, faces: Cells) -> tuple[Array, Array, Array]:
    """Corners and sides of the faces, each once, and the numbers of those that are kept: gmsh writes a face again for
    each further group that it is in, which joins the groups of the first."""
    every = np.arange(faces.count)
    if not faces.groups or not np.all(sides == sides[:1]):
        return corners, sides, every
    quads = corners.reshape(faces.count, -1)
    _, first, of_face = np.unique(np.sort(quads, axis=1), axis=0, return_index=True, return_inverse=True)
    first = first[of_face.reshape(-1)]
    again = np.flatnonzero((first != every) & np.all(quads == quads[first], axis=1))
    again = again[~np.any([it[again] & it[first[again]] for it in faces.groups.values()], axis=0)]
    for it in faces.groups.values():
        it[first[again[it[again]]]] = True
    kept = np.setdiff1d(every, again)
    return quads[kept].reshape(-1), sides[kept], kept


def _names_of(faces: Cells, kept: Array) -> tuple[dict[str, Names], dict[str, Array]]:
    """The first group of each face as its material and its name, and for each group that is no more than that to some
    face a field that tells where it is."""
    if not faces.groups:
        return {}, {}
    table = np.array([it[kept] for it in faces.groups.values()])
    first = np.where(table.any(axis=0), table.argmax(axis=0) + 1, 0)
    names = ("", *faces.groups)
    used = np.unique(first)
    place = np.searchsorted(used, first)
    told = Names(tuple(names[it] for it in used.tolist()), place)
    further = {GROUP + name: it.astype(np.int32) for at, (name, it) in enumerate(zip(faces.groups, table), 1)
               if np.any(it & (first != at))}
    return {"usemtl": told, "g": told}, further


def _lines_of(pairs: Array, edges: Cells) -> tuple[tuple[Array, ...], tuple[str, ...]]:
    """The edges of each group, and those that are in none."""
    found = [(name, pair) for name, it in edges.groups.items() for pair in _unique(pairs[it])]
    free = np.ones(edges.count, dtype=bool)
    for it in edges.groups.values():
        free &= ~it
    found += [("", pair) for pair in pairs[free]]
    return tuple(pair for _, pair in found), tuple(name for name, _ in found) if edges.groups else ()


def _unique(pairs: Array) -> Array:
    _, first = np.unique(np.sort(pairs, axis=1), axis=0, return_index=True)
    return np.asarray(pairs[np.sort(first)])


def _point_fields(read: Any) -> dict[str, Array]:
    return {key: _plain(np.asarray(it)) for key, it in read.point_data.items()
            if key not in UNTOLD and np.asarray(it).dtype.kind in "fiub"}


def _plain(values: Array) -> Array:
    """Values with a row each; where a row has one number, that number."""
    return np.asarray(values.reshape(-1) if values.ndim == 2 and values.shape[1] == 1 else values)


def _face_fields(read: Any, faces: Cells, edges: Cells) -> tuple[dict[str, Array], list[str]]:
    """The fields of faces, and what is said of those of lines."""
    found, beside = {}, []
    for key in read.cell_data:
        if key in UNTOLD or key.startswith(GROUP):
            continue
        values = _column(read, key, faces.blocks)
        if values.dtype.kind not in "fiub":
            beside.append(f"the field {key} of faces was left out: it has no real numbers")
            continue
        found[key] = _plain(values)
        of_lines = _column(read, key, edges.blocks)
        if key != GEOMETRICAL and np.any(np.nan_to_num(of_lines) != 0):
            beside.append(f"the values of the field {key} on line cells were left out")
    return found, beside


def with_point_sets(mesh: Mesh, sets: dict[str, Array]) -> Mesh:
    """The mesh with sets of points as groups of edges: those of the boundary that have both ends in a set. What of a
    set is at no such edge is named in the notes."""
    edges, notes = mesh.edges, list(mesh.notes)
    lines, names = list(mesh.lines), list(mesh.line_names or ("",) * len(mesh.lines))
    for name, some in sets.items():
        is_in = np.zeros(len(mesh.points), dtype=bool)
        is_in[some[some < len(mesh.points)]] = True
        rim = edges.ends[(edges.uses == 1) & is_in[edges.ends].all(axis=1)]
        beside = int(is_in.sum()) - len(np.unique(rim))
        if name not in names:
            lines += list(rim)
            names += [name] * len(rim)
            if beside:
                notes.append(f"{counted(beside, 'point')} of the set {name} left out: no edge of the boundary is there "
                             "that has both ends in it")
    if len(lines) == len(mesh.lines) and len(notes) == len(mesh.notes):
        return mesh
    return replace(mesh, lines=tuple(lines), line_names=tuple(names) if any(names) else (), notes=tuple(notes),
                   is_grouped=mesh.is_grouped or any(names))
