"""What is wished of single places of a mesh, from colours, fields, groups, files and arrays."""

from __future__ import annotations

import io
import stat
import warnings
from dataclasses import replace
from pathlib import Path
from typing import Optional, Union

import numpy as np

from .arrays import Array
from .backgrounds import is_background, read_background
from .carried import carried
from .errors import WishError
from .files import read_whole
from .incoming import GROUP
from .local import Local
from .mesh import Mesh
from .results import Result
from .settings import GIVEN, Settings
from .transfer import transfer

COLOURS = ("red", "green", "blue")
"""The names of numbers behind the place in `v` lines; colours have values from 0 to 1."""
WORDS = ("usemtl", "g", "o")
"""What names faces in a file."""
NEAR = 0.2
"""An edge is about as long as wished where it differs by no more, in parts of that."""


def local_of(mesh: Mesh, settings: Settings, given: Local) -> Local:
    """What settings wish of single places of a mesh; `given` has the arrays of which they say that they are given.
    Raises a `WishError` where these do not fit the mesh."""
    return Local(
        None if settings.density is None else density_of(mesh, settings.density, given.density),
        None if settings.size is None else size_of(mesh, settings.size, given.size),
        None if settings.region is None else region_of(mesh, settings.region, given.region))


def for_region(settings: Settings, mesh: Mesh, region: Array) -> Settings:
    """The settings with the number of faces of the whole, where one, or a part, is wished of a region (faces,)."""
    settings = settings.for_faces(int(region.sum()))
    if settings.faces is None:
        return settings
    others = mesh.sides[~region].sum() if settings.subdivide else np.sum(~region)
    return replace(settings, faces=settings.faces + int(others))


def with_sizes(done: Result, size: Optional[Array]) -> Result:
    """What was done, with how many of its edges are about as long as was wished at the old points (points,), if it
    was."""
    if size is None:
        return done
    wished = transfer(done, size)[done.mesh.edges.ends].mean(axis=1)
    ends = done.mesh.points[done.mesh.edges.ends]
    is_met = np.abs(np.linalg.norm(ends[:, 1] - ends[:, 0], axis=1) / wished - 1) <= NEAR
    return replace(done, report=replace(done.report, sized=float(is_met.mean())))


def density_of(mesh: Mesh, where: str, given: Optional[Array] = None) -> Array:
    """(points,) float64: the density at each point: an array that is given, a field or a colour of the points by its
    name, or the numbers of a file, `.npy` or text. Raises a `WishError` where these are not one number from 0 on for
    each point."""
    found = _at_points(mesh, where, given, "density")
    if not np.all(np.isfinite(found)) or np.any(found < 0):
        raise WishError("the density has to be 0 or more at each point")
    return found


def size_of(mesh: Mesh, where: str, given: Optional[Array] = None) -> Array:
    """(points,) float64: how long edges are to be at each point, from where a density may stand, or from a field over
    another mesh: a view of gmsh in `.pos` or `.msh`, or any file of meshio with a field of points. Raises a `WishError`
    where these are not one number above 0 for each point."""
    if where != GIVEN and where not in mesh.point_fields and is_background(Path(where)):
        found = read_background(Path(where)).at(mesh.points)
    else:
        found = _at_points(mesh, where, given, "size of edges")
    if not np.all(np.isfinite(found)) or np.any(found <= 0):
        raise WishError("the size of edges has to be above 0 at each point")
    return found


def region_of(mesh: Mesh, where: str, given: Optional[Array] = None) -> Array:
    """(faces,) bool: the faces that change: an array that is given, with a truth for each or their numbers, or those of
    a group by its name. Raises a `WishError` where there is no such face."""
    if where == GIVEN:
        found = _given_faces(mesh, np.zeros(0) if given is None else np.asarray(given).ravel())
    else:
        found = np.zeros(mesh.face_count, dtype=bool)
        for it in (mesh.groups[word] for word in WORDS if word in mesh.groups):
            found |= np.isin(it.of_face, [at for at, name in enumerate(it.names) if name == where])
        for name in (where, GROUP + where):
            if name in mesh.face_fields:
                found |= mesh.face_fields[name].reshape(mesh.face_count, -1)[:, 0] != 0
    if not found.any():
        raise WishError("no face is in the region" if where == GIVEN else f"no face is in a group {where}")
    return found


def _given_faces(mesh: Mesh, given: Array) -> Array:
    if given.dtype == bool:
        if len(given) != mesh.face_count:
            raise WishError(f"the region has {len(given)} truths, and the mesh {mesh.face_count} faces")
        return given
    if len(given) and not (given.dtype.kind in "iu" and 0 <= given.min() and given.max() < mesh.face_count):
        raise WishError(f"the region has to have numbers of faces, from 0 to {mesh.face_count - 1}")
    found = np.zeros(mesh.face_count, dtype=bool)
    found[given.astype(np.int64)] = True
    return found


def _at_points(mesh: Mesh, where: str, given: Optional[Array], what: str) -> Array:
    """(points,) float64: the numbers that stand somewhere."""
    if where == GIVEN:
        found = np.zeros(0) if given is None else np.asarray(given, dtype=float).ravel()
    elif where in mesh.point_fields:
        found = np.asarray(mesh.point_fields[where], dtype=float).ravel()
    elif where in COLOURS:
        found = _colour(mesh, where, what)
    else:
        found = _numbers(mesh, Path(where), what)
    if len(found) != len(mesh.points):
        raise WishError(f"the {what} has {len(found)} numbers, and the mesh {len(mesh.points)} points")
    return found


def _colour(mesh: Mesh, name: str, what: str) -> Array:
    at = COLOURS.index(name)
    if mesh.extra is None or mesh.extra.shape[1] <= at:
        raise WishError(f"the points have no colours, so no {name} tells the {what}")
    return np.asarray(mesh.extra[:, at])


def _numbers(mesh: Mesh, path: Path, what: str) -> Array:
    try:
        # A device may have no end.
        is_long = stat.S_ISCHR(path.stat().st_mode) or stat.S_ISFIFO(path.stat().st_mode)
        file: Union[Path, io.BytesIO] = path
        if is_long:
            file = io.BytesIO(read_whole(path, carried("obj_text").MAX_BYTES))
        with warnings.catch_warnings():
            warnings.simplefilter("ignore", UserWarning)
            return np.asarray(np.load(file) if path.suffix == ".npy" else np.loadtxt(file), dtype=float).ravel()
    except (OSError, ValueError, EOFError) as error:
        fields = ", ".join(mesh.point_fields)
        has = f"; the fields of its points are {fields}" if fields else ""
        raise WishError(f"the {what} cannot be read from {path}: it is no field of the mesh, and no file with a number "
                        f"for each point{has}") from error
