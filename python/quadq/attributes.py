"""What points, corners and faces of parts carry, brought over to their remeshes by the maps that the program writes."""

from __future__ import annotations

from typing import Sequence

from .carrier import Carrier
from .maps import Map, joined, read_map
from .mesh import Mesh
from .parts import Part, Workshop, Written


def maps_of(parts: Sequence[Part], written: Sequence[Written], shop: Workshop) -> list[Map]:
    """The map of the remesh of each part. They are judged anew."""
    text_of = {id(part): it.text for part, it in zip(parts, written)}
    return shop.each(parts, lambda part: read_map(shop.program.map(part.text, text_of[id(part)]), part.mesh.quads))


def map_of(parts: Sequence[Part], written: Sequence[Written], shop: Workshop) -> Map:
    """The map of the remeshes of parts side by side, into the mesh of which they are parts."""
    maps = maps_of(parts, written, shop)
    return joined([it.moved(part.points, part.faces) for it, part in zip(maps, parts)])


def dressed_as(old: Mesh, new: Mesh, text: bytes) -> tuple[Mesh, int]:
    """A new mesh of quads with what the old mesh carries, by the text of its map; and how many faces lie over a seam of
    the texture or a border of names."""
    mesh, over = Carrier(old, old, new, read_map(text, old.quads)).dressed()
    return mesh, int(over.sum())
