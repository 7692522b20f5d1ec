"""Fields over other meshes than the one that is remeshed: views of gmsh, and fields of points in files of meshio."""

from __future__ import annotations

import re
from dataclasses import dataclass
from pathlib import Path
from typing import Any

import numpy as np

from .arrays import Array
from .distance import Surface
from .errors import WishError
from .mesh import Mesh

SUFFIXES = (".pos", ".msh", ".vtk", ".vtu", ".vtp", ".med")
VIEW = re.compile(r'View\s*"[^"]*"\s*\{((?:[^{}]|\{[^{}]*\})*)\}')
ELEMENT = re.compile(r"S([PLTQS])\s*\(([^)]*)\)\s*\{([^}]*)\}")
"""A scalar element of a view: its letter, the places of its nodes, and their values, a step after the other."""
TRIANGLES = {
    "P": ((0, 0, 0),), "L": ((0, 1, 1),), "T": ((0, 1, 2),), "Q": ((0, 1, 2), (0, 2, 3)),
    "S": ((0, 1, 2), (0, 1, 3), (0, 2, 3), (1, 2, 3)),
}
"""The triangles of elements: points and lines are flat ones, solids have their sides."""
LETTERS = {"vertex": "P", "line": "L", "triangle": "T", "quad": "Q", "tetra": "S"}
"""The same elements as meshio names them."""


@dataclass(frozen=True)
class Background:
    """A field over triangles, linear in each."""

    places: Array
    """(triangles, 3, 3) float64: the corners of each; two or all may be one."""
    values: Array
    """(triangles, 3) float64."""

    def at(self, points: Array) -> Array:
        """(points,) float64: the values at the places of the triangles that are nearest to points (points, 3)."""
        count = len(self.places)
        corners = np.repeat(np.arange(count), 4) * 3 + np.tile([0, 1, 2, 2], count)
        surface = Surface(Mesh(self.places.reshape(-1, 3), corners, np.arange(0, 4 * count + 1, 4)))
        places, faces = surface.nearest_faces(points)
        return np.asarray(np.sum(_shares(places, self.places[faces]) * self.values[faces], axis=1))


def is_background(path: Path) -> bool:
    """Whether a file of this name has a field over a mesh of its own."""
    return path.suffix.lower() in SUFFIXES


def read_background(path: Path) -> Background:
    """The field of a file. Raises a `WishError` where it has none, or several."""
    try:
        found = _read_view(path) if path.suffix.lower() == ".pos" else _read_meshio(path)
    except OSError as error:
        raise WishError(f"the size of edges cannot be read from {path}: {error.strerror}") from error
    if not len(found.places):
        raise WishError(f"{path} has no scalar field over points, lines, triangles, quads or tetrahedra")
    return found


def _read_view(path: Path) -> Background:
    """The first view of a text of gmsh, and the first step of it."""
    view = VIEW.search(path.read_text(encoding="utf-8", errors="replace"))
    try:
        found = [_element(*it) for it in ELEMENT.findall(view[1] if view is not None else "")]
    except ValueError as error:
        raise WishError(f"{path} has a view with other than numbers: {error}") from error
    return Background(np.array([it for some, _ in found for it in some]).reshape(-1, 3, 3),
                      np.array([it for _, some in found for it in some]).reshape(-1, 3))


def _element(letter: str, places: str, values: str) -> tuple[Array, Array]:
    """The triangles of an element: (n, 3, 3) places and (n, 3) values."""
    at = np.array(places.split(","), dtype=float).reshape(-1, 3)
    triangles = np.array(TRIANGLES[letter])
    told = np.array(values.split(",")[:len(at)], dtype=float)
    if triangles.max() >= len(told):
        raise ValueError(f"S{letter} ({places[:40]})")
    return at[triangles], told[triangles]


def _read_meshio(path: Path) -> Background:
    from .formats import read_raw
    read = read_raw(path)
    fields = {name: np.asarray(it, dtype=float).reshape(len(read.points), -1) for name, it in read.point_data.items()
              if np.asarray(it).dtype.kind in "fiu"}
    scalars = [name for name, it in fields.items() if it.shape[1] == 1]
    if len(scalars) != 1:
        raise WishError(f"{path} has {len(scalars)} fields of points with one number each, and has to have one"
                        + (f": {', '.join(scalars)}" if scalars else ""))
    points = np.zeros((len(read.points), 3))
    points[:, :read.points.shape[1]] = read.points
    triangles = _triangles(read)
    return Background(points[triangles], fields[scalars[0]][:, 0][triangles])


def _triangles(read: Any) -> Array:
    """(n, 3) int64: the triangles of the cells of the highest dimension; of none, each point."""
    known = [it for it in read.cells if it.type in LETTERS]
    most = max((it.dim for it in known), default=0)
    found = [np.asarray(it.data, dtype=np.int64)[:, TRIANGLES[LETTERS[it.type]]].reshape(-1, 3)
             for it in known if it.dim == most]
    return np.concatenate(found) if found else np.repeat(np.arange(len(read.points)), 3).reshape(-1, 3)


def _shares(places: Array, corners: Array) -> Array:
    """(n, 3): how much of each corner of triangles (n, 3, 3) there is in a place of it (n, 3). Where corners are one,
    the way along the longest side counts."""
    a, b, c = corners.transpose(1, 0, 2)
    normal = np.cross(b - a, c - a)
    square = np.sum(normal * normal, axis=1)
    sides = ((b, c), (c, a), (a, b))
    areas = np.stack([np.sum(np.cross(q - p, places - p) * normal, axis=1) for p, q in sides], axis=1)
    along = np.sum((b - a) ** 2, axis=1)
    part = np.clip(np.sum((places - a) * (b - a), axis=1) / np.where(along > 0, along, 1.0), 0, 1)
    flat = np.stack([1 - part, part, np.zeros(len(part))], axis=1)
    is_flat = square <= 1e-24 * along ** 2
    return np.where(is_flat[:, None], flat, areas / np.where(square > 0, square, 1.0)[:, None])
