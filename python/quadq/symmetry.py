"""Meshes that are their own mirror image, point by point and face by face."""

from __future__ import annotations

from dataclasses import dataclass, replace
from typing import Optional

import numpy as np

from .arrays import Array
from .distance import distance_between
from .local import NOWHERE, Local
from .losses import keys_of
from .mesh import NONE, Mesh
from .mirror import AXES, crossing
from .notices import counted
from .parts import Part
from .quality import quality_of
from .surface import darts_between, least_in_class

NEAR = 1e-5
"""A part of the mesh's size: so near is a point to the image of another that is its own."""
ABOUT = 0.1
"""A part of the wished number of faces: so near is about it."""
FARTHER = 1.5
"""By how many times halves may be farther from the old mesh than one scale of the whole."""
SHIFTS = (0.0, 0.31, -0.31, 0.17)
"""By which parts of a cell the grid is moved that tells which points are near each other."""


@dataclass(frozen=True)
class Image:
    """The mirror image of a mesh in itself."""

    axis: int
    points: Array
    """(points,) int64: the image of each point; NONE for those that no face has."""
    darts: Array
    """(darts,) int64: for each side of a face the one, of the face's image, that goes back along the image of the edge.
    """


def image_of(mesh: Mesh, wished: str, local: Local = NOWHERE) -> Optional[Image]:
    """The image of a mesh about the plane through the origin across an axis, x, y or z, or across the first that there
    is for `auto`; None where the mesh is not its own image there, where faces cross the plane, or where other things
    are wished on both sides."""
    for axis in range(3) if wished == "auto" else [AXES.index(wished)]:
        points = _image_points(mesh, axis)
        darts = None if points is None else _image_darts(mesh, points)
        if points is not None and darts is not None and not len(crossing(mesh, axis)):
            if local.is_symmetric(points, darts[::4] // 4):
                return Image(axis, points, darts)
    return None


def why_none(mesh: Mesh, wished: str) -> str:
    """Why there is no image of which a half could be remeshed, in words; nothing where none was named."""
    for axis in range(3) if wished == "auto" else [AXES.index(wished)]:
        points = _image_points(mesh, axis)
        if points is not None and _image_darts(mesh, points) is not None:
            count = len(crossing(mesh, axis))
            if count:
                return f"{counted(count, 'face')} cross the mirror plane {AXES[axis]} = 0"
            if wished != "auto":
                return "what is wished at places is not the same on both sides"
    return "" if wished == "auto" else f"the mesh is not its own mirror image about {wished} = 0"


class SeamOpens(Exception):
    """Where a half and its image do not hang together as the whole did, or do not come near a number of faces."""


def refuse_open_seam(old: Mesh, new: Mesh) -> None:
    """Raises `SeamOpens` where the boundary of the new mesh has another number of lines than that of the old one."""
    if _rims_of(new) != _rims_of(old):
        raise SeamOpens("a half does not meet its mirror image along all of the plane")


def refuse_worse(halves: Mesh, other: Mesh, old: Mesh, wished: int) -> None:
    """Raises `SeamOpens` where two halves have more inverted faces than another remesh of the whole, or are much
    farther from the old mesh though the other has about as many faces as wished."""
    inverted = quality_of(halves).inverted
    if inverted > quality_of(other).inverted:
        raise SeamOpens(f"two halves would have {counted(inverted, 'inverted face')}")
    far, near = (max(distance_between(it, old).greatest, distance_between(old, it).greatest) for it in (halves, other))
    if abs(other.face_count - wished) <= ABOUT * wished and far > FARTHER * near:
        raise SeamOpens(f"two halves would be up to {far:.4g} from the old mesh, and the whole is up to {near:.4g} by "
                        "one scale")


def _rims_of(mesh: Mesh) -> int:
    """How many lines the boundary has that hang together."""
    ends = mesh.edges.ends[mesh.edges.uses == 1]
    return len(np.unique(least_in_class(len(mesh.points), ends[:, 0], ends[:, 1])[ends[:, 0]]))


def named_as_image(image: Image, part: Part, whole: Mesh) -> Part:
    """A part of the half of a mesh with the names that the image of each of its faces has."""
    faces = image.darts[4 * part.faces] // 4
    groups = {word: replace(it, of_face=it.of_face[faces]) for word, it in whole.groups.items()}
    return replace(part, mesh=replace(part.mesh, groups=groups))


def _image_points(mesh: Mesh, axis: int) -> Optional[Array]:
    """(points,): the image of each point of a face, or None where one has none."""
    used = mesh.used
    places = mesh.points[used]
    size = float(np.abs(places).max(initial=0.0))
    flip = np.where(np.arange(3) == axis, -1.0, 1.0)
    if not len(used) or abs(places[:, axis].max() + places[:, axis].min()) > NEAR * size or not size:
        return None
    found = np.full(len(used), NONE)
    for shift in SHIFTS:
        open_ones = np.flatnonzero(found == NONE)
        keys = keys_of(places / size + shift * NEAR, NEAR)
        order = np.argsort(keys, kind="stable")
        if not shift and np.any(np.diff(keys[order]) == 0):
            return None
        wanted = keys_of(places[open_ones] * flip / size + shift * NEAR, NEAR)
        at = order[np.minimum(np.searchsorted(keys[order], wanted), len(keys) - 1)]
        same = keys[at] == wanted
        found[open_ones[same]] = at[same]
    if np.any(found == NONE) or not np.array_equal(found[found], np.arange(len(found))):
        return None
    image = np.full(len(mesh.points), NONE)
    image[used] = used[found]
    return image


def _image_darts(mesh: Mesh, image: Array) -> Optional[Array]:
    """(darts,): the way back along the image of each side of a face, or None where faces have no image."""
    after = mesh.next_corners()
    darts = darts_between(mesh, image[mesh.corners[after]], image[mesh.corners])
    if np.any(darts == NONE) or not np.array_equal(after[darts[after]], darts):
        return None
    return darts
