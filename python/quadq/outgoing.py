"""Meshes as what meshio writes: faces, lines, groups and fields; and what a format has no word for."""

from __future__ import annotations

import re
from dataclasses import dataclass
from pathlib import Path
from typing import Any, Iterator
from urllib.parse import quote

import numpy as np

from .arrays import Array
from .incoming import GEOMETRICAL, GROUP, PHYSICAL
from .mesh import NONE, Mesh
from .obj_writing import changed_names

TYPES = {3: "triangle", 4: "quad"}
ABAQUS = {"line": b"T3D2", "triangle": b"S3", "quad": b"S4"}
"""The plain elements of Abaqus. meshio takes those of its table that come last."""
ELEMENT = re.compile(rb"(?<=^\*ELEMENT, TYPE=)\w+$", re.M)
MASKED = (".vtk", ".vtu")
"""The formats in which a field tells for each group what is in it."""
TRIANGLES = (".stl",)
"""The formats that have no quads."""
MATERIALS, EDGES, POINT_FIELDS, FACE_FIELDS, CORNERS = "groups of faces", "groups of edges", "fields of points", \
    "fields of faces", "what corners carry"
TAKES = {
    "": (MATERIALS, EDGES, CORNERS), ".obj": (MATERIALS, EDGES, CORNERS),
    ".msh": (MATERIALS, EDGES, POINT_FIELDS, FACE_FIELDS), ".vtk": (MATERIALS, EDGES, POINT_FIELDS, FACE_FIELDS),
    ".vtu": (MATERIALS, EDGES, POINT_FIELDS, FACE_FIELDS), ".inp": (MATERIALS, EDGES), ".ply": (POINT_FIELDS,),
    ".off": (), ".stl": (),
}
"""What each format takes besides points, faces and edges."""
SAFE = "".join(map(chr, range(33, 127))).replace("%", "").replace('"', "")
"""The letters that VTK writes as they are in names."""
WIDTHS = (1, 3, 9)
"""How many numbers a value may have in a field of gmsh."""


@dataclass(frozen=True)
class Pieces:
    """What is handed to meshio."""

    cells: list[tuple[str, Array]]
    point_data: dict[str, Array]
    cell_data: dict[str, list[Array]]
    field_data: dict[str, Array]
    cell_sets: dict[str, list[Array]]


def pieces_of(mesh: Mesh, suffix: str) -> Pieces:
    """A mesh as meshio takes it for a format."""
    takes = TAKES.get(suffix, (MATERIALS, POINT_FIELDS, FACE_FIELDS))
    blocks = [("triangle", *triangles_of(mesh))] if suffix in TRIANGLES else _face_blocks(mesh)
    lines = _line_table(mesh, is_repeated=suffix == ".msh") if EDGES in takes else _Lines.none()
    cells = [(kind, data) for kind, data, _ in blocks] + ([("line", lines.pairs)] if len(lines.pairs) else [])
    of_faces = [numbers for *_, numbers in blocks]
    columns: dict[str, list[Array]] = {}
    sets: dict[str, list[Array]] = {}
    names: dict[str, Array] = {}
    fields = mesh.face_fields if FACE_FIELDS in takes else {}
    for name in fields if suffix not in MASKED else [it for it in fields if not it.startswith(GROUP)]:
        values = _fitting(fields[name], suffix)
        columns[name] = [values[it] for it in of_faces] + lines.beside(values)
    if MATERIALS in takes:
        columns.update(_tags(mesh, of_faces, lines, names, suffix))
        if suffix in MASKED:
            columns.update({GROUP + name: [it.astype(np.int32) for it in some]
                            for name, some in _masks(mesh, of_faces, lines).items()})
        if suffix == ".inp":
            sets = {name: [np.flatnonzero(it) for it in some] for name, some in _masks(mesh, of_faces, lines).items()}
            columns = {}
    points = {name: _fitting(it, suffix) for name, it in mesh.point_fields.items()
              if POINT_FIELDS in takes and (suffix != ".ply" or it.ndim == 1)}
    if suffix == ".vtk":
        points = {quote(name, SAFE): it for name, it in points.items()}
        columns = {quote(name, SAFE): it for name, it in columns.items()}
    return Pieces(cells, points, columns, names, sets)


def lost_in(mesh: Mesh, suffix: str) -> Iterator[str]:
    """What of a mesh is not in a file of a format, in words."""
    takes = TAKES.get(suffix, (MATERIALS, POINT_FIELDS, FACE_FIELDS))
    names = sorted(set(mesh.line_names) - {""})
    has = {
        MATERIALS: [MATERIALS] if mesh.groups else [], EDGES: [EDGES] if names else ["lines"] if mesh.lines else [],
        POINT_FIELDS: [f"the field {it} of points" for it, values in mesh.point_fields.items()
                       if POINT_FIELDS not in takes or (suffix == ".ply" and values.ndim > 1)],
        FACE_FIELDS: [f"the field {it} of faces" for it in mesh.face_fields
                      if suffix != ".inp" or not it.startswith(GROUP)],
        CORNERS: [word for word, it in (("texture coordinates", mesh.texture), ("normals", mesh.normal),
                                        ("numbers of points", mesh.extra)) if it is not None]}
    lost = [it for what, some in has.items() for it in some if what not in takes or what == POINT_FIELDS]
    lost += [f"the layer {it}" for it in mesh.layers]
    if lost:
        yield f"not in {suffix or '.obj'} files, and left out: {', '.join(lost)}"
    if suffix in TRIANGLES and np.any(mesh.sides > 3):
        yield f"{suffix} has no quads: each is written as two triangles"
    if suffix not in TAKES and mesh.groups:
        yield f"the names of groups are written as numbers in {suffix} files"
    changed = changed_names(mesh) if suffix in ("", ".obj") else []
    if changed:
        yield f"names that OBJ cannot have are written as others that are like them: {', '.join(map(repr, changed))}"
    both = sorted(set(names) & set(_face_names(mesh))) if suffix == ".msh" else []
    if both:
        yield f"groups of edges with the name of one of faces are written with `.edges` behind it: {', '.join(both)}"


def _face_names(mesh: Mesh) -> list[str]:
    given = mesh.groups.get("usemtl", mesh.groups.get("g"))
    return [] if given is None else [given.names[it] for it in np.unique(given.of_face).tolist() if given.names[it]]


def _face_blocks(mesh: Mesh) -> list[tuple[str, Array, Array]]:
    """The faces in runs of as many corners: their types, their corners, and their numbers."""
    sides = mesh.sides
    firsts = np.flatnonzero(np.concatenate([[True], sides[1:] != sides[:-1]])) if len(sides) else sides
    return [(TYPES.get(int(sides[first]), "polygon"),
             mesh.corners[mesh.starts[first]:mesh.starts[last]].reshape(last - first, -1), np.arange(first, last))
            for first, last in zip(firsts.tolist(), [*firsts[1:].tolist(), len(sides)])]


def triangles_of(mesh: Mesh) -> tuple[Array, Array]:
    """The faces as triangles (triangles, 3), and the number of the face that each is of: quads along their shorter
    diagonal, others around their first corner."""
    found, numbers = [], []
    for kind, data, faces in _face_blocks(mesh):
        if kind == "quad":
            at = mesh.points[data]
            is_long = np.linalg.norm(at[:, 0] - at[:, 2], axis=1) > np.linalg.norm(at[:, 1] - at[:, 3], axis=1)
            data = np.where(is_long[:, None], data[:, [1, 2, 3, 0]], data)
        wide = data.shape[1]
        found.append(np.stack([data[:, [0, at, at + 1]] for at in range(1, wide - 1)], axis=1).reshape(-1, 3))
        numbers.append(np.repeat(faces, wide - 2))
    return (np.concatenate([np.zeros((0, 3), dtype=np.int64), *found]),
            np.concatenate([np.zeros(0, dtype=np.int64), *numbers]))


@dataclass(frozen=True)
class _Lines:
    """The edges of lines."""

    pairs: Array
    """(edges, 2)"""
    names: tuple[str, ...]
    """The groups of edges."""
    table: Array
    """(groups, edges) bool: which edge is in which group."""

    @staticmethod
    def none() -> _Lines:
        return _Lines(np.zeros((0, 2), dtype=np.int64), (), np.zeros((0, 0), dtype=bool))

    def beside(self, values: Array) -> list[Array]:
        """What stands for values in the block of lines, where there is one: no number, or 0 among whole ones."""
        nothing = np.nan if values.dtype.kind == "f" else 0
        return [np.full((len(self.pairs), *values.shape[1:]), nothing, dtype=values.dtype)] if len(self.pairs) else []


def _line_table(mesh: Mesh, is_repeated: bool) -> _Lines:
    """The edges of lines with their groups; each once, or once for each group."""
    segments = [np.column_stack([it[:-1], it[1:]]) for it in mesh.lines]
    if not segments:
        return _Lines.none()
    pairs = np.concatenate(segments)
    labels = mesh.line_names or ("",) * len(mesh.lines)
    names = tuple(dict.fromkeys(it for it in labels if it))
    place = {name: at for at, name in enumerate(names)}
    of_pair = np.repeat([place.get(it, NONE) for it in labels], [len(it) for it in segments])
    table = of_pair == np.arange(len(names))[:, None]
    if not is_repeated:
        _, first, of = np.unique(np.sort(pairs, axis=1), axis=0, return_index=True, return_inverse=True)
        merged = np.zeros((len(names), len(first)), dtype=bool)
        for row, it in zip(merged, table):
            row[of.reshape(-1)[it]] = True
        pairs, table = pairs[first], merged
    return _Lines(pairs, names, table)


def _masks(mesh: Mesh, of_faces: list[Array], lines: _Lines) -> dict[str, list[Array]]:
    """For each group which faces and edges are in it, block by block."""
    given = mesh.groups.get("usemtl", mesh.groups.get("g"))
    masks: dict[str, Array] = {}
    for name in _face_names(mesh):
        assert given is not None
        masks[name] = given.of_face == given.names.index(name)
    for name, it in mesh.face_fields.items():
        if name.startswith(GROUP):
            masks[name[len(GROUP):]] = it != 0
    empty = np.zeros(mesh.face_count, dtype=bool)
    found = {}
    for name in dict.fromkeys([*masks, *lines.names]):
        found[name] = [masks.get(name, empty)[it] for it in of_faces]
        if len(lines.pairs):
            found[name].append(lines.table[lines.names.index(name)] if name in lines.names
                               else np.zeros(len(lines.pairs), dtype=bool))
    return found


def _tags(
    mesh: Mesh, of_faces: list[Array], lines: _Lines, names: dict[str, Array], suffix: str
) -> dict[str, list[Array]]:
    """The numbers of physical groups, as meshio has them, and their names. A name that is a number is that number."""
    given = mesh.groups.get("usemtl", mesh.groups.get("g"))
    if given is None and not lines.names:
        return {}
    face_tags = _numbers_for([] if given is None else list(given.names))
    line_tags = _numbers_for(list(lines.names))
    of_face = np.zeros(mesh.face_count, dtype=np.int32)
    if given is not None:
        of_face = np.array([face_tags.get(it, 0) for it in given.names], dtype=np.int32)[given.of_face]
    columns = [of_face[it] for it in of_faces]
    if len(lines.pairs):
        tags = np.array([line_tags[it] for it in lines.names] or [0], dtype=np.int32)
        table = lines.table if len(lines.table) else np.zeros((1, len(lines.pairs)), dtype=bool)
        columns.append(np.where(table.any(axis=0), tags[table.argmax(axis=0)], 0).astype(np.int32))
    if suffix == ".msh":
        names.update({it: np.array([tag, 2]) for it, tag in face_tags.items() if not it.isdecimal()})
        names.update({it if it not in names else f"{it}.edges": np.array([tag, 1])
                      for it, tag in line_tags.items() if not it.isdecimal()})
    geometrical = [it.copy() for it in columns]
    if GEOMETRICAL in mesh.face_fields:
        geometrical[:len(of_faces)] = [mesh.face_fields[GEOMETRICAL][it].astype(np.int32) for it in of_faces]
    return {PHYSICAL: columns, **({GEOMETRICAL: geometrical} if suffix == ".msh" else {})}


def _numbers_for(names: list[str]) -> dict[str, int]:
    """A number for each name that is not empty: the one that it says, or else one that is free."""
    tags = {it: int(it) for it in names if it.isdecimal() and 0 < int(it) < 1 << 31}
    taken = set(tags.values())
    free = (it for it in range(1, len(names) + len(taken) + 2) if it not in taken)
    return {it: tags[it] if it in tags else next(free) for it in names if it}


def _fitting(values: Array, suffix: str) -> Array:
    """Values as a format takes them: in fields of gmsh with 1, 3 or 9 numbers each, the further ones 0."""
    table = values.astype(np.int8) if values.dtype.kind == "b" else values
    if suffix != ".msh":
        return table
    wide = int(np.prod(table.shape[1:], dtype=np.int64)) if table.ndim > 1 else 1
    more = next((it for it in WIDTHS if it >= wide), wide) - wide
    flat = table.reshape(len(table), wide).astype(np.float64)
    return np.pad(flat, ((0, 0), (0, more))) if table.ndim > 1 else flat[:, 0]


def with_plain_elements(data: bytes, pieces: Pieces) -> bytes:
    """What meshio wrote for Abaqus, with plain elements."""
    types = iter([ABAQUS.get(kind) for kind, _ in pieces.cells])
    return ELEMENT.sub(lambda it: next(types) or it[0], data)


def fault_of(tool: Any, place: Path, mesh: Mesh) -> str:
    """What is wrong with a file that meshio wrote, or nothing: in formats that are not known here it may pass over
    quads, or write a further file beside it."""
    if place.suffix in TAKES:
        return ""
    beside = [it.name for it in place.parent.iterdir() if it != place]
    if beside:
        return f"this format has further files, as {beside[0]}"
    found = sum(len(it.data) for it in tool.read(place).cells if it.dim == 2)
    return f"it would have {found} of {mesh.face_count} faces" if found != mesh.face_count else ""
