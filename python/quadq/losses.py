"""What a remesh loses of a shape: sharp edges that no new edge follows, and mirror symmetries."""

from __future__ import annotations

from typing import Optional

import numpy as np

from .arrays import Array
from .distance import Surface
from .features import edges_in, mark_features
from .mesh import NONE, Mesh
from .notices import counted
from .scaling import is_short
from .settings import Settings

SHARP = 30.0
"""Degrees: where faces meet at more, their edge is sharp."""
BENT = 10.0
"""Degrees: where new faces meet at less, no edge is to be seen."""
FOLLOWED = 1 / 8
"""A part of the mean length of new edges: an old edge is followed by a new one whose nearest place is nearer."""
MOST = 2_000
"""How many edges and points are looked at; of more, each so manieth."""
AXES = "xyz"
SAME, OTHER = 1e-5, 1e-3
"""Parts of the diagonal: how near a point's image has to be to a point, in the old mesh and in the new one."""
ALL, SOME = 0.99, 0.9
"""Which part of the points has an image in a mesh that is symmetric, and in one that is no longer so."""


def segments_as_mesh(points: Array, edges: Array) -> Mesh:
    """Edges (edges, 2) as faces without an area, to which distances can be measured."""
    return Mesh(points, edges[:, [0, 1, 1, 0]].reshape(-1), np.arange(0, 4 * len(edges) + 1, 4))


def lost_edges(old: Mesh, new: Mesh, mean_edge: float, sharp: Optional[Array] = None) -> tuple[int, int]:
    """How many sharp edges of the old mesh no edge of the new one follows, and how many sharp edges it had, which are
    `sharp` (edges, 2) if they are at hand. Of many, as many as those of a sample stand for."""
    if sharp is None:
        sharp = mark_features(old, SHARP, corners=False).edges
    if not len(sharp) or not new.face_count:
        return 0, len(sharp)
    _, is_followed = followed(old, new, mean_edge, sharp)
    return round((1 - float(np.mean(is_followed))) * len(sharp)), len(sharp)


def followed(old: Mesh, new: Mesh, mean_edge: float, sharp: Optional[Array] = None) -> tuple[Array, Array]:
    """Sharp edges of the old mesh (edges, 2), of many a sample; and whether an edge of the new one follows each."""
    if sharp is None:
        sharp = mark_features(old, SHARP, corners=False).edges
    chosen = sharp[::max(1, -(-len(sharp) // MOST))]
    bent = mark_features(new, BENT, corners=False).edges
    bent = np.concatenate([bent, new.edges.ends[new.edges.uses == 1]])
    if not len(bent):
        return chosen, np.zeros(len(chosen), dtype=bool)
    middles = old.points[chosen].mean(axis=1)
    far = Surface(segments_as_mesh(new.points, bent)).distances(middles)
    return chosen, np.asarray(far <= FOLLOWED * mean_edge)


def lost_mirrors(old: Mesh, new: Mesh) -> str:
    """The axes along which the old mesh was its own mirror image, and the new one is not."""
    before, after = parts_with_image(old, SAME), parts_with_image(new, OTHER)
    return "".join(axis for axis, was, now in zip(AXES, before, after) if was >= ALL and now < SOME)


def parts_with_image(mesh: Mesh, near: float) -> list[float]:
    """For each axis which part of the points has a point at its mirror image, behind the plane through the middle of
    the box. Of many points a sample is tried."""
    places = mesh.points[mesh.used]
    low, high = places.min(axis=0), places.max(axis=0)
    cell, middle = near * float(np.linalg.norm(high - low)), (low + high) / 2
    # The mean of places that are their own mirror image lies in the plane.
    axes = [at for at in range(3) if high[at] > low[at] and abs(float(places[:, at].mean()) - middle[at]) <= 10 * cell]
    if not axes:
        return [0.0] * 3
    some = places[::max(1, -(-len(places) // MOST))] - middle
    # A place at the border of two cells may lie in either, and so may its image.
    shifts = np.array([-0.25, 0.0, 0.25]) * cell
    images = np.stack([some * np.where(np.arange(3) == axis, -1, 1) + shift for axis in axes for shift in shifts])
    known, of_image = np.unique(keys_of(images.reshape(-1, 3), cell), return_inverse=True)
    keys = keys_of(places - middle, cell)
    at = np.minimum(np.searchsorted(known, keys), len(known) - 1)
    is_there = np.zeros(len(known), dtype=bool)
    is_there[at[known[at] == keys]] = True
    found = is_there[of_image].reshape(len(axes), len(shifts), -1).any(axis=1).mean(axis=1)
    return [float(found[axes.index(it)]) if it in axes else 0.0 for it in range(3)]


def dropped_of(mesh: Mesh, settings: Settings) -> tuple[tuple[str, str], ...]:
    """What a mesh has that its remesh does not get, with such settings: kinds of notices, and their words."""
    loose = len(mesh.points) - len(mesh.used)
    said = [("unread", it) for it in mesh.notes]
    if loose:
        said.append(("loose", f"{counted(loose, 'loose point', True)} dropped: no face has them"))
    said += [("lines", it) for it in _lines_of(mesh, settings)]
    if not settings.carry:
        names = [f"`{word}` within parts" for word, it in mesh.groups.items()
                 if np.any(it.of_face != it.of_face[:1]) and not mesh.is_grouped]
        has = [("texture coordinates", mesh.texture), ("normals", mesh.normal), ("numbers of points", mesh.extra),
               *mesh.layers.items()]
        lost = [name for name, it in has if it is not None] + names
        if lost:
            said.append(("not-carried", f"not carried over: {', '.join(lost)}; --carry keeps them"))
    if is_short(mesh):
        said.append(("rounded", "edges are so short that rounding to millionths shows: bring the mesh nearer to the "
                     "origin"))
    return tuple(said)


def _lines_of(mesh: Mesh, settings: Settings) -> list[str]:
    """What becomes of lines that are not kept."""
    if not mesh.lines or mesh.is_grouped:
        return []
    if "lines" not in settings.keep:
        return [f"{counted(len(mesh.lines), 'line', True)} dropped: --lines keeps those along edges"]
    at = mesh.edges.numbers_of(edges_in(mesh.lines))
    strange = int(np.sum(at == NONE))
    told = counted(strange, "piece of a line", True) if strange == 1 else f"{strange} pieces of lines were"
    return [f"{told} dropped: no edge of the mesh lies there"] if strange else []


def keys_of(places: Array, cell: float) -> Array:
    """(places,) int64: a number for the cell in which each lies."""
    cells = np.rint(places / cell).astype(np.int64) + (1 << 20)
    return np.asarray((cells[:, 0] << 42) ^ (cells[:, 1] << 21) ^ cells[:, 2])
