"""Polygon meshes with what their corners and faces carry."""

from __future__ import annotations

from dataclasses import dataclass, field, replace
from functools import cached_property
from typing import Any, Optional, Sequence

import numpy as np
from numpy.typing import ArrayLike

from .arrays import Array, Kept
from .errors import MeshError

NONE = -1
"""Stands in an index for "names nothing"."""


@dataclass(frozen=True, eq=False)
class Layer(Kept):
    """Values, and for each corner of the mesh the row that it names, or NONE."""

    values: Array
    """(rows, width) float64."""
    rows: Array
    """(corners,) int64."""


@dataclass(frozen=True, eq=False)
class Names(Kept):
    """What groups faces: a list of names, and for each face the place of its name there."""

    names: tuple[str, ...]
    of_face: Array
    """(faces,) int64."""


@dataclass(frozen=True, eq=False)
class Edges(Kept):
    """The edges of a mesh, each once. A dart is a side of a face: it has the number of the corner where it begins."""

    ends: Array
    """(edges, 2) int64: its points, in rising order; the least edges come first."""
    of_corner: Array
    """(corners,) int64: the edge from each corner to the next."""
    uses: Array
    """(edges,) int64: how many sides of faces it is; 1 at the boundary."""
    rising: Array
    """(edges,) int64: the dart from its first point to its second, or NONE. Of several the last."""
    falling: Array
    """(edges,) int64: the dart back, or NONE."""

    def numbers_of(self, pairs: Array) -> Array:
        """(n,) int64: the edges between pairs of points (n, 2) in rising order, or NONE."""
        if not len(self.ends):
            return np.full(len(pairs), NONE)
        count = max(int(self.ends.max()), int(pairs.max(initial=0))) + 1
        keys, wanted = self.ends @ [count, 1], pairs @ [count, 1]
        at = np.minimum(np.searchsorted(keys, wanted), len(keys) - 1)
        return np.where(keys[at] == wanted, at, NONE)


@dataclass(frozen=True, eq=False)
class Mesh(Kept):
    """A mesh of polygons. Lengths are in the unit of its file; indices count from 0. Its arrays cannot be written to:
    `changed` makes another mesh, and `mesh.points.copy()` an array to work on.

    The corners of all faces stand in one table, face by face: face `f` has those from `starts[f]` on, before
    `starts[f + 1]`.
    """

    points: Array
    """(points, 3) float64."""
    corners: Array
    """(corners,) int64: the point of each corner."""
    starts: Array
    """(faces + 1,) int64."""
    texture: Optional[Layer] = None
    normal: Optional[Layer] = None
    groups: dict[str, Names] = field(default_factory=dict)
    """By the word of OBJ that names them: usemtl, g, o, s."""
    extra: Optional[Array] = None
    """(points, width) float64: further numbers of `v` lines, such as colours."""
    lines: tuple[Array, ...] = ()
    """The points along each `l` line."""
    libraries: tuple[str, ...] = ()
    """The material libraries, as `mtllib` names them."""
    layers: dict[str, Layer] = field(default_factory=dict)
    """Further layers of corners, by name, for which OBJ has no word: other UV maps, colours of corners."""
    notes: tuple[str, ...] = ()
    """What was left out when the mesh was read."""
    line_names: tuple[str, ...] = ()
    """The group of each line, where some are in one."""
    point_fields: dict[str, Array] = field(default_factory=dict)
    """By name (points, ..): values at points, of a simulation."""
    face_fields: dict[str, Array] = field(default_factory=dict)
    """By name (faces, ..): values of faces."""
    is_grouped: bool = False
    """Whether its names are groups that a remesh brings back, as the physical groups of gmsh."""

    def __repr__(self) -> str:
        return f"<quadq.Mesh: {self.in_words()}>"

    def in_words(self) -> str:
        """What it has, in a line."""
        names = {name: None for it in self.groups.values() for name in it.names if name}
        names.update({name: None for name in self.line_names if name})
        fields = [*self.point_fields, *self.face_fields]
        kind = "quads" if self.is_quads() else "faces"
        more = [f"groups {', '.join(names)}" if names else "", f"fields {', '.join(fields)}" if fields else ""]
        return "; ".join([f"{self.face_count} {kind}, {len(self.points)} points", *(it for it in more if it)])

    def _repr_html_(self) -> str:
        """What a notebook shows: a picture of the mesh."""
        from .report import mesh_view
        return mesh_view(self)

    @staticmethod
    def of_quads(points: ArrayLike, quads: ArrayLike) -> Mesh:
        """A mesh of points (points, 3) and quads (faces, 4) alone. Raises a `MeshError` for other arrays."""
        places, corners = np.asarray(points, dtype=float), np.asarray(quads, dtype=np.int64)
        if places.ndim < 2 or places.shape[-1] != 3:
            raise MeshError(f"points have the shape (points, 3), and not {places.shape}")
        if corners.size and (corners.ndim < 2 or corners.shape[-1] != 4):
            raise MeshError(f"quads have the shape (faces, 4), and not {corners.shape}")
        mesh = Mesh(places.reshape(-1, 3), corners.reshape(-1), np.arange(0, corners.size + 1, 4))
        mesh.refuse_strange()
        return mesh

    def refuse_strange(self) -> None:
        """Raises a `MeshError` where a corner names no point, or the faces do not have all corners."""
        if self.starts[0] != 0 or self.starts[-1] != len(self.corners) or np.any(np.diff(self.starts) < 0):
            raise MeshError("the starts of faces do not rise from 0 to the number of corners")
        wrong = np.flatnonzero((self.corners < 0) | (self.corners >= len(self.points)))
        if len(wrong):
            face = int(np.searchsorted(self.starts, wrong[0], side="right"))
            raise MeshError(f"face {face} names the point {self.corners[wrong[0]]} of {len(self.points)}, from 0")

    @property
    def face_count(self) -> int:
        return len(self.starts) - 1

    @property
    def sides(self) -> Array:
        """(faces,) int64: how many corners each face has."""
        return np.diff(self.starts)

    def is_quads(self) -> bool:
        return bool(np.all(self.sides == 4))

    @property
    def quads(self) -> Array:
        """(faces, 4) int64: the points of each face. All faces have to be quads."""
        if not self.is_quads():
            raise ValueError(f"face {int(np.argmax(self.sides != 4)) + 1} is no quad")
        return self.corners.reshape(-1, 4)

    @cached_property
    def used(self) -> Array:
        """The numbers of the points that faces have, in rising order."""
        return np.flatnonzero(np.bincount(self.corners, minlength=len(self.points)))

    def face_of_corner(self) -> Array:
        """(corners,) int64."""
        return np.repeat(np.arange(self.face_count), self.sides)

    def next_corners(self) -> Array:
        """(corners,) int64: the corner after each, around its face."""
        after = np.arange(1, len(self.corners) + 1)
        ends = self.starts[1:][self.sides > 0] - 1
        after[ends] = self.starts[:-1][self.sides > 0]
        return after

    def changed(self, **changes: Any) -> Mesh:
        """The same with other values, as `dataclasses.replace` has it. Of the same faces edges are not found again."""
        made = replace(self, **changes)
        if "edges" in self.__dict__ and made.corners is self.corners and made.starts is self.starts:
            made.__dict__["edges"] = self.edges
        return made

    @cached_property
    def edges(self) -> Edges:
        """The edges, found once. n log n in the corners."""
        heads, tails = self.corners, self.corners[self.next_corners()]
        count = max(len(self.points), 1)
        keys = np.minimum(heads, tails) * count + np.maximum(heads, tails)
        order = np.argsort(keys, kind="stable")
        keys = keys[order]
        is_first = np.concatenate([keys[:1] >= 0, keys[1:] != keys[:-1]])
        of_corner = np.empty(len(keys), dtype=np.int64)
        of_corner[order] = np.cumsum(is_first) - 1
        firsts = np.flatnonzero(is_first)
        found = keys[firsts]
        sides = np.full((2, len(found)), NONE)
        for side, chosen in zip(sides, (heads <= tails, heads > tails)):
            darts = np.flatnonzero(chosen)
            side[of_corner[darts]] = darts
        ends = np.column_stack([found // count, found % count])
        return Edges(ends, of_corner, np.diff(np.append(firsts, len(keys))), *sides)

    def faces_of(self, chosen: Array) -> tuple[Mesh, Array]:
        """The mesh of the faces with these numbers, in this order, and the numbers of the points that they use."""
        firsts = self.starts[chosen]
        sides = self.starts[chosen + 1] - firsts
        starts = np.concatenate([[0], np.cumsum(sides)])
        at = np.repeat(firsts - starts[:-1], sides) + np.arange(starts[-1])
        used, corners = np.unique(self.corners[at], return_inverse=True)
        part = Mesh(
            self.points[used],
            corners,
            starts,
            texture=None if self.texture is None else replace(self.texture, rows=self.texture.rows[at]),
            normal=None if self.normal is None else replace(self.normal, rows=self.normal.rows[at]),
            groups={word: replace(it, of_face=it.of_face[chosen]) for word, it in self.groups.items()},
            extra=None if self.extra is None else self.extra[used],
            libraries=self.libraries,
            layers={name: replace(it, rows=it.rows[at]) for name, it in self.layers.items()},
            point_fields={name: it[used] for name, it in self.point_fields.items()},
            face_fields={name: it[chosen] for name, it in self.face_fields.items()},
        )
        return part, used


def join(meshes: Sequence[Mesh]) -> Mesh:
    """Meshes side by side: their points, faces and lines in turn, with the names that group them, and no other
    attribute."""
    if len(meshes) == 1:
        return meshes[0]
    shifts = np.cumsum([0, *(len(it.points) for it in meshes)])
    sides = np.concatenate([np.zeros(0, dtype=np.int64), *(it.sides for it in meshes)])
    return Mesh(
        np.concatenate([np.zeros((0, 3)), *(it.points for it in meshes)]),
        np.concatenate([np.zeros(0, dtype=np.int64), *(it.corners + shift for it, shift in zip(meshes, shifts))]),
        np.concatenate([[0], np.cumsum(sides)]),
        groups=_joined_groups(meshes),
        lines=tuple(line + shift for it, shift in zip(meshes, shifts) for line in it.lines),
        libraries=tuple(dict.fromkeys(name for it in meshes for name in it.libraries)),
    )


def _joined_groups(meshes: Sequence[Mesh]) -> dict[str, Names]:
    groups = {}
    for word in dict.fromkeys(word for it in meshes for word in it.groups):
        place: dict[str, int] = {}
        columns = []
        for mesh in meshes:
            kept = mesh.groups.get(word, Names(("",), np.zeros(mesh.face_count, dtype=np.int64)))
            table = np.array([place.setdefault(name, len(place)) for name in kept.names], dtype=np.int64)
            columns.append(table[kept.of_face])
        groups[word] = Names(tuple(place), np.concatenate(columns))
    return groups
