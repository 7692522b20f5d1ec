"""What a dialog says of the selected objects before anything runs."""

from __future__ import annotations

from dataclasses import dataclass
from typing import Any, Optional

import numpy as np

from .arrays import column
from .objects import chosen, has_modifiers, selected_faces
from .wishes import Wishes


def _selected(context: Any, meshes: list[Any]) -> Optional[list[int]]:
    """How many faces of each mesh are selected in edit mode, where some are and others are not."""
    if context.mode != "EDIT_MESH":
        return None
    counts = [int(selected_faces(it).sum()) for it in meshes]
    return counts if 0 < sum(counts) < sum(len(it.polygons) for it in meshes) else None


@dataclass(frozen=True)
class Seen:
    """The meshes that are selected, in numbers."""

    faces: list[int]
    """Of each mesh, those that share one once."""
    others: int
    """How many faces are no quads."""
    area: float
    """Of all faces, in the scene."""
    has_modifiers: bool
    looked: list[int]
    """The faces of each object as it looks."""
    selected: Optional[list[int]] = None
    """In edit mode, how many faces of each mesh are selected, where some are and others are not."""

    @staticmethod
    def of(context: Any) -> Seen:
        objects = chosen(context)
        for it in objects:
            it.update_from_editmode()
        first_of = {it.data: it for it in reversed(objects)}
        sides = [column(it.polygons, "loop_total", np.int32) for it in first_of]
        area = sum(float(column(data.polygons, "area", np.float32).sum(dtype=float))
                   * abs(it.matrix_world.determinant()) ** (2 / 3) for data, it in first_of.items())
        graph = context.evaluated_depsgraph_get()
        return Seen([len(it) for it in sides], sum(int(np.sum(it != 4)) for it in sides), area,
                    any(has_modifiers(it) for it in objects),
                    [len(it.evaluated_get(graph).data.polygons) for it in objects], _selected(context, [*first_of]))

    @property
    def half(self) -> int:
        """Half of the faces of the largest mesh, or twice those that are selected: what is wished where nothing was
        wished yet."""
        if self.selected is not None:
            return max(1, 2 * max(self.selected))
        return max(1, max(self.faces, default=2) // 2)

    def words(self, wishes: Wishes) -> str:
        """How many faces there are, and about how many are wished."""
        faces = self.looked if wishes.look == "LOOK" else self.faces
        now = f"{len(faces)} meshes, faces" if len(faces) > 1 else "Faces"
        if wishes.selected and self.selected is not None:
            faces, now = [it for it in self.selected if it], "Selected faces"
        return f"{now}: {sum(faces):,} → {self._wished(wishes, faces)}"

    def _wished(self, wishes: Wishes, faces: list[int]) -> str:
        wished = [wishes.wished_faces(it) for it in faces]
        known = [it for it in wished if it is not None]
        if len(known) == len(wished):
            return f"{sum(known):,}"
        if wishes.wish == "EDGE":
            return f"about {self.area / wishes.edge ** 2 * sum(faces) / max(sum(self.faces), 1):,.0f}"
        if wishes.wish == "WITHIN":
            return "as few as the distance allows"
        return f"about {sum(faces) * wishes.scale ** 2:,.0f}"
