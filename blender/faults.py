"""Selecting vertices, edges and faces in edit mode, where something is said of them."""

from __future__ import annotations

from dataclasses import dataclass
from typing import Any, Optional, Sequence

import bpy
import numpy as np

from .arrays import name_of, put_column
from .objects import select, selected_faces
from .quadq.arrays import Array


@dataclass(frozen=True)
class Place:
    """Vertices, edges or faces of an object, by their numbers."""

    name: str
    """The name of the object."""
    kind: str
    """vertices, edges or faces."""
    numbers: tuple[int, ...]

    @property
    def words(self) -> str:
        one = {"vertices": "the vertex", "edges": "the edge", "faces": "the face"}[self.kind]
        return f"Select {one if len(self.numbers) == 1 else self.kind} of {self.name}"


def place_of(name: str, faces: Sequence[int], vertices: Sequence[int]) -> list[Place]:
    """The faces, or else the vertices, as a place of an object, if there are any."""
    if len(faces):
        return [Place(name, "faces", tuple(faces))]
    return [Place(name, "vertices", tuple(vertices))] if len(vertices) else []


class Shown:
    """What was selected last."""

    place: Optional[Place] = None


def is_shown(context: Any) -> bool:
    """Whether the faces that are selected in edit mode are those that were shown last."""
    place, source = Shown.place, context.view_layer.objects.active
    if place is None or place.kind != "faces" or source is None or place.name != name_of(source):
        return False
    source.update_from_editmode()
    return np.array_equal(np.flatnonzero(selected_faces(source.data)), np.unique(place.numbers))


def show(context: Any, place: Place) -> bool:
    """Selects a place in edit mode. Whether its object is there."""
    source = bpy.data.objects.get(place.name)
    if source is None or source.type != "MESH" or source not in set(context.view_layer.objects):
        return False
    if context.mode != "OBJECT":
        bpy.ops.object.mode_set(mode="OBJECT")
    select(context, [source])
    data = source.data
    for kind, items in (("vertices", data.vertices), ("edges", data.edges), ("faces", data.polygons)):
        put_column(items, "select", _marks(len(items), place.numbers if kind == place.kind else ()))
    context.tool_settings.mesh_select_mode = tuple(it == place.kind for it in ("vertices", "edges", "faces"))
    bpy.ops.object.mode_set(mode="EDIT")
    Shown.place = place
    return True


def _marks(count: int, numbers: Sequence[int]) -> Array:
    marks = np.zeros(count, dtype=bool)
    at = np.array(numbers, dtype=np.int64)
    marks[at[(at >= 0) & (at < count)]] = True
    return marks
