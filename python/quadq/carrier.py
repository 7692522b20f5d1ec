"""What carries over from a mesh to its remesh: any values at points, corners, faces and edges, by the map."""

from __future__ import annotations

from dataclasses import dataclass, replace
from functools import cached_property
from typing import Optional

import numpy as np

from .arrays import Array
from .carry_boxes import Boxes
from .carry_edges import Followed, followed
from .carry_layers import DIGITS, carried_layer, each_once
from .maps import Map
from .mesh import NONE, Layer, Mesh
from .subdivision import refined
from .surface import twins_of

BORDERS = ("usemtl", "g", "o")
"""The words at whose borders a face may lie on both sides of one."""


@dataclass(frozen=True)
class Carrier:
    """An old mesh, its remesh, and the map between them. Numbers count from 0; those of edges are of `Mesh.edges`."""

    old: Mesh
    """The mesh that was handed in."""
    ready: Mesh
    """The mesh of quads that was remeshed: the old one, or what became of it where it was divided first."""
    new: Mesh
    map: Map

    @property
    def is_divided(self) -> bool:
        return self.ready is not self.old

    @cached_property
    def boxes(self) -> Boxes:
        return Boxes(self.map, twins_of(self.ready))

    @cached_property
    def faces(self) -> Array:
        """(new faces,) int64: the old face in which the middle of each lies."""
        homes = self.map.homes
        return np.asarray(self.old.face_of_corner()[homes] if self.is_divided else homes)

    @cached_property
    def corners(self) -> Array:
        """(new corners,) int64: the corner that is nearest to each, of the old face in which its face's middle lies."""
        nearest = self.map.nearest_corners()
        return nearest // 4 if self.is_divided else nearest

    @cached_property
    def points(self) -> Array:
        """(new points,) int64: the old point that is nearest to each along the old faces."""
        nearest = self.map.nearest_points()
        if not self.is_divided:
            return nearest
        old = self.old
        firsts = old.corners[old.starts[:-1]]
        return np.asarray(np.concatenate([np.arange(len(old.points)), old.edges.ends[:, 0], firsts])[nearest])

    @cached_property
    def followed(self) -> Followed:
        """The old edges along which new ones lie."""
        found = followed(self.boxes, self.ready, self.new)
        if not self.is_divided:
            return found
        count, (one, other) = len(self.old.points), self.ready.edges.ends.T
        is_half = (one < count) & (other < count + len(self.old.edges.ends))
        return found.renumbered(np.where(is_half, other - count, NONE))

    def mixed(self, values: Array) -> Array:
        """(new points, width) float64: values at old points (old points, width), mixed at each new one from those
        between which it lies."""
        return self.map.at_points(refined(self.old, values) if self.is_divided else values)

    def dressed(self) -> tuple[Mesh, Array]:
        """The new mesh with the layers, names and further numbers of points of the old one; and (new faces,) bool,
        which faces lie over a seam of the texture or a border of names."""
        ready, homes = self.ready, self.map.homes
        texture, over = self._layer(ready.texture)
        normal, _ = self._layer(ready.normal, are_directions=True)
        # The texture may be one of the layers, and then is carried once, as these are.
        is_shared = any(it is ready.texture for it in ready.layers.values())
        layers = {name: texture if it is ready.texture else self._layer(it)[0] for name, it in ready.layers.items()}
        mesh = self.new.changed(
            texture=texture if texture is None or is_shared else each_once(texture),
            normal=None if normal is None else each_once(normal),
            groups={word: replace(it, of_face=it.of_face[homes]) for word, it in ready.groups.items()},
            extra=None if ready.extra is None else self.map.at_points(ready.extra).round(DIGITS),
            libraries=ready.libraries,
            layers={name: it for name, it in layers.items() if it is not None},
        )
        return mesh, np.asarray(over | self._over_borders())

    def _layer(self, layer: Optional[Layer], are_directions: bool = False) -> tuple[Optional[Layer], Array]:
        if layer is None:
            return None, np.zeros(self.new.face_count, dtype=bool)
        return carried_layer(self.boxes, layer, self.new.corners, are_directions)

    def _over_borders(self) -> Array:
        """(new faces,) bool: which lie in old faces of different names."""
        found = np.zeros(self.new.face_count, dtype=bool)
        boxes = self.boxes
        for names in (self.ready.groups[word].of_face for word in BORDERS if word in self.ready.groups):
            if np.any(names != names[:1]):
                differ = names[boxes.darts // 4] != names[self.map.homes][boxes.face]
                found[boxes.face[differ]] = True
        return found
