"""What pictures and views show of a remesh: both meshes with their patches, the edges that stay, and where its faults
lie."""

from __future__ import annotations

from dataclasses import dataclass
from typing import Iterator, Optional

import numpy as np

from .arrays import Array
from .features import edges_in, mark_features
from .losses import followed
from .maps import read_map
from .mesh import NONE, Mesh, join
from .parts import NO_MARKS
from .patches import Painted, borders, colours_of, paint
from .pictures import PALETTE
from .program import Program
from .quality import scaled_jacobians
from .results import Result
from .scene import Shown, distances_of_faces, irregular_points

BEFORE, AFTER = 0, 1
MOST = 1_000
"""So many irregular points are compared."""
APART = 1e-4
"""A part of the diagonal: irregular points that are farther apart are not the same."""


@dataclass(frozen=True)
class Looks:
    """Both meshes of a remesh, with the same colours. A mirror image has those of its half."""

    old: Mesh
    """What was remeshed: the parts side by side."""
    new: Mesh
    painted: Painted
    tints: Array
    """(patches,) int64: the colour of each patch, as a place in the palette."""
    old_stay: Array
    new_stay: Array
    """(edges, 2): the edges that stay, or else those at an angle."""

    @staticmethod
    def of(result: Result, program: Program) -> Looks:
        painted = paint(result.parts, result.written, program)
        old, new = join([it.mesh for it in result.parts]), result.mesh
        shifts = np.cumsum([0, *(len(it.mesh.points) for it in result.parts)])
        stay = np.concatenate([NO_MARKS, *(it.marks + shift for it, shift in zip(result.parts, shifts))])
        return Looks(old, new, painted, colours_of(old, painted.of_old, len(PALETTE)), _marked(old, stay),
                     _marked(new, edges_in(new.lines)))

    @property
    def new_patches(self) -> Array:
        return self.painted.of_all(self.new)


def _marked(mesh: Mesh, stay: Array) -> Array:
    return stay if len(stay) else mark_features(mesh, corners=False).edges


def shown_of(result: Result, looks: Looks, program: Program) -> tuple[Shown, Shown]:
    """Both meshes as a view shows them."""
    old, new = looks.old, looks.new
    numbers = np.concatenate([it.faces for it in result.parts])
    if result.owners is not None:
        numbers = result.owners[numbers]
    count = len(looks.painted.of_new)
    # Of a mirrored mesh the parts are a half.
    half = new if count == new.face_count else new.faces_of(np.arange(count))[0]
    far = np.tile(distances_of_faces(half, old), new.face_count // max(count, 1))
    before = Shown("before", old, numbers, looks.painted.of_old, looks.tints, borders(old, looks.painted.of_old),
                   looks.old_stay, distances_of_faces(old, half))
    after = Shown("after", new, None, looks.new_patches, looks.tints, borders(new, looks.new_patches), looks.new_stay,
                  far, homes_of(result, program))
    return before, after


def homes_of(result: Result, program: Program) -> Optional[Array]:
    """(new faces,) int64: the face of the parts side by side in which the middle of each new face lies, as `map` tells
    it; of a mirror image, that of its half. None where the program has no `map`."""
    if "map" not in program.commands():
        return None
    found, shift = [np.zeros(0, dtype=np.int64)], 0
    for part, it in zip(result.parts, result.written):
        found.append(read_map(program.map(part.text, it.text), part.mesh.quads).homes + shift)
        shift += part.mesh.face_count
    homes = np.concatenate(found)
    return np.tile(homes, result.mesh.face_count // max(len(homes), 1))


@dataclass(frozen=True)
class Place:
    """Where something is at fault."""

    mesh: int
    """BEFORE or AFTER."""
    face: int
    colours: str = "patches"
    """What shows it best."""


def places_of(result: Result, shown: tuple[Shown, Shown]) -> dict[str, Place]:
    """The places of warnings, by their kinds. What is of the whole mesh, or not in these meshes, has none."""
    old, new = (it.mesh for it in shown)
    bad = scaled_jacobians(new)
    worst = Place(AFTER, int(bad.argmin()), "jacobian")
    found = {"least-quality": worst, "mean-quality": worst}
    if bad.min() < 0:
        found["inverted"] = Place(AFTER, int(np.argmax(bad < 0)), "jacobian")
    far = [np.zeros(1) if it.distances is None else it.distances for it in shown]
    farther = int(far[AFTER].max() > far[BEFORE].max())
    found["distance"] = Place(farther, int(far[farther].argmax()), "distance")
    length = [_lengths(it) for it in (old, new)]
    found["rounded"] = Place(BEFORE, _face_at(old, int(length[BEFORE].argmin())), "plain")
    found["edges"] = Place(AFTER, _face_at(new, int(length[AFTER].argmax())), "plain")
    if result.over_seams is not None and result.over_seams.any():
        found["over-seams"] = Place(AFTER, int(result.over_seams.argmax()))
    kinds = {it.kind for it in result.report.notices}
    if "sharp" in kinds:
        edges, is_followed = followed(old, new, result.report.after.mean_edge)
        at = old.edges.numbers_of(edges[~is_followed][:1])
        if len(at) and at[0] != NONE:
            found["sharp"] = Place(BEFORE, _face_at(old, int(at[0])))
    if "irregular" in kinds:
        found.update({"irregular": it for it in _irregular_alone(old, new)})
    if "lines" in kinds:
        found.update({"lines": it for it in _first_line(result, old)})
    return found


def _lengths(mesh: Mesh) -> Array:
    """(edges,) float64."""
    ends = mesh.points[mesh.edges.ends]
    return np.asarray(np.linalg.norm(ends[:, 1] - ends[:, 0], axis=1))


def _face_at(mesh: Mesh, edge: int) -> int:
    """A face that has an edge."""
    return max(int(mesh.edges.rising[edge]), int(mesh.edges.falling[edge])) // 4


def _irregular_alone(old: Mesh, new: Mesh) -> Iterator[Place]:
    """A face at the irregular point of either mesh that is farthest from those of the other; of many, some are tried.
    """
    for at, mesh, other in ((BEFORE, old, new), (AFTER, new, old)):
        own, others = (irregular_points(it)[0][:MOST] for it in (mesh, other))
        away = np.linalg.norm(mesh.points[own, None] - other.points[None, others], axis=2)
        far = away.min(axis=1, initial=np.inf)
        if far.max(initial=0.0) > APART * float(np.linalg.norm(np.ptp(old.points, axis=0))):
            yield Place(at, int((mesh.corners == own[far.argmax()]).argmax()) // 4)


def _first_line(result: Result, old: Mesh) -> Iterator[Place]:
    """A face of the parts at the first point of a line that has one, if there is one."""
    if result.owners is not None:
        return
    numbers = np.concatenate([it.points for it in result.parts])
    is_of_line = np.isin(numbers[old.corners], edges_in(result.old.lines))
    if is_of_line.any():
        yield Place(BEFORE, int(is_of_line.argmax()) // 4)
