"""Meshes of other packages, which are imported when they are called for, and plain arrays."""

from __future__ import annotations

from dataclasses import replace
from typing import Any, Iterator, Sequence, Union

import numpy as np

from .arrays import Array
from .errors import MeshError
from .incoming import mesh_of
from .mesh import Mesh
from .outgoing import pieces_of, triangles_of

POLYGONS = (5, 7, 9)
"""The numbers of VTK for triangles, polygons and quads."""
LINES = (3, 4)
"""Those for lines."""
MeshLike = Union[Mesh, Sequence[Any], Any]
"""A mesh, a pair of points and faces, or a mesh of trimesh, meshio or pyvista."""


def as_mesh(given: MeshLike) -> Mesh:
    """The mesh that is meant: one of this package, a pair `(points, faces)`, or what trimesh, meshio and pyvista have.
    Raises a `MeshError` for anything else."""
    if isinstance(given, Mesh):
        return given
    if isinstance(given, (tuple, list)) and len(given) == 2:
        return of_arrays(*given)
    if hasattr(given, "cells") and hasattr(given, "cell_sets"):
        return from_meshio(given)
    if hasattr(given, "vertices") and hasattr(given, "faces"):
        return from_trimesh(given)
    if hasattr(given, "points") and (hasattr(given, "faces") or hasattr(given, "celltypes")):
        return from_pyvista(given)
    raise MeshError(f"a {type(given).__name__} is no mesh: a quadq.Mesh is, a pair (points, faces), or a mesh of "
                    "trimesh, meshio or pyvista")


def of_arrays(points: Any, faces: Any) -> Mesh:
    """A mesh of points (points, 3), or (points, 2) in the plane, and faces: an array (faces, corners), or a list of
    faces with any number of corners each. Raises a `MeshError`."""
    try:
        places = np.asarray(points, dtype=np.float64)
        rows = [np.asarray(it, dtype=np.int64) for it in faces]
    except (TypeError, ValueError) as error:
        raise MeshError(f"points and faces are tables of numbers: {error}") from error
    if places.ndim != 2 or places.shape[1] not in (2, 3):
        raise MeshError(f"points have the shape (points, 3), and not {places.shape}")
    if any(it.ndim != 1 or len(it) < 3 for it in rows):
        raise MeshError("a face has three corners or more")
    if places.shape[1] == 2:
        places = np.column_stack([places, np.zeros(len(places))])
    mesh = Mesh(places, np.concatenate([np.zeros(0, dtype=np.int64), *rows]),
                np.concatenate([[0], np.cumsum([len(it) for it in rows], dtype=np.int64)]).astype(np.int64))
    mesh.refuse_strange()
    return mesh


def from_trimesh(given: Any) -> Mesh:
    """The mesh of a `trimesh.Trimesh`: triangles, which `subdivide=True` divides into quads."""
    return of_arrays(given.vertices, given.faces)


def to_trimesh(mesh: Mesh) -> Any:
    """A `trimesh.Trimesh`, which has triangles alone: two for each quad, along its shorter diagonal. Which face each is
    of stands in its `face_attributes`, as `quad`."""
    import trimesh
    corners, faces = triangles_of(mesh)
    return trimesh.Trimesh(mesh.points, corners, face_attributes={"quad": faces}, process=False)


def from_meshio(given: Any) -> Mesh:
    """The surface of a `meshio.Mesh`, with its lines, groups and fields."""
    return mesh_of(given, "the mesh")


def to_meshio(mesh: Mesh) -> Any:
    """A `meshio.Mesh` with groups as gmsh has them, and fields."""
    import meshio
    it = pieces_of(mesh, ".msh")
    return meshio.Mesh(mesh.points, it.cells, point_data=it.point_data, cell_data=it.cell_data,
                       field_data=it.field_data)


def from_pyvista(given: Any) -> Mesh:
    """The polygons and the fields of a `pyvista.PolyData`, or of the faces of a `pyvista.UnstructuredGrid`."""
    if hasattr(given, "celltypes"):
        rows = list(_rows(given.cells))
        is_face = np.isin(np.asarray(given.celltypes), POLYGONS)
        others = sorted(set(np.asarray(given.celltypes)[~is_face].tolist()) - set(LINES))
        notes = [f"cells of VTK's type {it} were left out" for it in others]
        faces = [it for it, is_it in zip(rows, is_face) if is_it]
    else:
        faces, notes = list(_rows(given.faces)), []
        is_face = np.ones(len(faces), dtype=bool)
    points = {str(name): np.array(given.point_data[name]) for name in given.point_data.keys()}
    cells = {str(name): np.array(given.cell_data[name])[is_face] for name in given.cell_data.keys()}
    return replace(of_arrays(given.points, faces), notes=tuple(notes), point_fields=points, face_fields=cells)


def _rows(flat: Any) -> Iterator[Array]:
    """The faces of VTK's flat table: how many corners each has stands before these."""
    table, at = np.asarray(flat, dtype=np.int64), 0
    while at < len(table):
        yield table[at + 1:at + 1 + int(table[at])]
        at += 1 + int(table[at])


def to_pyvista(mesh: Mesh) -> Any:
    """A `pyvista.PolyData` with the fields of the mesh."""
    import pyvista
    made = pyvista.PolyData(mesh.points, np.insert(mesh.corners, mesh.starts[:-1], mesh.sides))
    for name, it in mesh.point_fields.items():
        made.point_data[name] = it
    for name, it in mesh.face_fields.items():
        made.cell_data[name] = it
    return made
