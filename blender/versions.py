"""What differs between versions of Blender. Each call that some version lacks is asked for before it is used."""

from __future__ import annotations

from typing import Any

import bpy


def has(kind: str, name: str) -> bool:
    """Whether a type of Blender, such as `MeshEdge`, has a property of this name."""
    found = getattr(bpy.types, kind, None)
    return found is not None and name in found.bl_rna.properties


def can_set(kind: str, name: str) -> bool:
    """Whether it has one that can be set."""
    return has(kind, name) and not getattr(bpy.types, kind).bl_rna.properties[name].is_readonly


def smooth_by_angle(data: Any) -> None:
    """Lets normals that are given by hand show: before 4.1 only meshes with Auto Smooth had them."""
    if has("Mesh", "use_auto_smooth"):
        data.use_auto_smooth = True


def corner_normals(data: Any) -> tuple[Any, str]:
    """The items that have the normals of corners, and the name of the property. Before 4.1 they are made first."""
    if has("Mesh", "corner_normals"):
        return data.corner_normals, "vector"
    data.calc_normals_split()
    return data.loops, "normal"


def draw_bar(layout: Any, part: float, words: str) -> None:
    """A bar that is filled to a part from 0 to 1. Before 4.0 it is a slider."""
    if hasattr(layout, "progress"):
        layout.progress(factor=part, text=words, type="BAR")
    else:
        layout.prop(bpy.context.window_manager, "quadq_part", text=words, slider=True)
