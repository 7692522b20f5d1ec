"""Quad meshes remeshed by the proved program quadq, part by part, and each result checked before it is handed over.

    import quadq
    result = quadq.remesh(quadq.read("in.obj"), faces=5000)
    print(result.report.summary(), *result.report.warnings, sep="\n")
    quadq.write("out.obj", result.mesh)
"""

from __future__ import annotations

from . import early  # noqa: F401
from .distance import Distance, distance_between
from .features import find_features
from .mesh import Layer, Mesh, Names
from .notices import Notice
import os
from pathlib import Path
from typing import Optional, Union

from .batch import Books, remesh_files
from .block_files import write_blocks
from .blocks import Block, Blocks, Link, blocks
from .checking import Checked, Fault, check
from .conforming import conforming
from .conversions import (
    MeshLike, as_mesh, from_meshio, from_pyvista, from_trimesh, to_meshio, to_pyvista, to_trimesh)
from .errors import FormatError, MeshError, QuadqError, WishError
from .files import write_whole
from .formats import bytes_of, left_out, read_file
from .graphs import Cut, graph, layout
from .inputs import file_named
from .maps import Map
from .obj import read_obj
from .obj_writing import write_obj
from .program import Program
from .quality import Quality, quality_of, scaled_jacobians
from .refining import refine
from .refusal import Refusal
from .remeshing import remesh
from .report import refusal_page, result_page
from .results import Counts, Report, Result
from .rows import Row
from .settings import Settings
from .subdivision import subdivide
from .transfer import areas, areas_under, edges_under, transfer
from .version import VERSION

__all__ = [
    "Block", "Blocks", "Books", "Checked", "Counts", "Cut", "Distance", "Fault", "FormatError", "Layer", "Link", "Map",
    "Mesh", "MeshError", "Names", "Notice", "Program", "QuadqError", "Quality", "Refusal", "Report", "Result", "Row",
    "Settings", "WishError", "areas", "areas_under", "as_mesh", "blocks", "check", "conforming", "distance_between",
    "edges_under", "find_features", "from_meshio", "from_pyvista", "from_trimesh", "graph", "layout", "map",
    "quality_of", "read", "read_obj", "refine", "refusal_page", "remesh", "remesh_files", "result_page",
    "scaled_jacobians", "subdivide", "to_meshio", "to_pyvista", "to_trimesh", "transfer", "write", "write_blocks",
    "write_obj",
]

__version__ = VERSION


def map(result: Result) -> Map:
    """Where each point and face of a new mesh lies in the old one, over all parts."""
    return result.made.under.map


def read(path: Union[str, os.PathLike[str]], *, polygons: bool = False, program: Optional[Program] = None) -> Mesh:
    """The mesh of a file, as the program reads it: OBJ, and what meshio reads where that is installed. With `polygons`
    faces may have any number of corners. Raises a `Refusal`."""
    return read_file(Path(path), Program() if program is None else program, polygons)[0]


def write(path: Union[str, os.PathLike[str]], mesh: MeshLike, *, format: Optional[str] = None) -> tuple[str, ...]:
    """Writes a mesh as a whole file, in the format that its name says, and returns what the format has no word for, in
    words. A `.msh` file is of version 2.2, and with the format `gmsh` of version 4.1. Raises a `Refusal` where that
    fails, and a `WishError` for a format that is not written."""
    made, target = as_mesh(mesh), file_named(path)
    write_whole(target, bytes_of(target, made, form=format))
    return left_out(target, made)
