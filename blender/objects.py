"""The objects of a scene: which share a mesh, what their modifiers make of it, and how they get a new one."""

from __future__ import annotations

from dataclasses import dataclass, field
from typing import Any, Iterable, Optional

import bpy

from .arrays import column, name_of
from .quadq.arrays import Array

BOUND = ("SURFACE_DEFORM", "MESH_DEFORM", "LAPLACIANDEFORM", "CORRECTIVE_SMOOTH", "HOOK", "CLOTH", "SOFT_BODY",
         "MESH_CACHE", "MESH_SEQUENCE_CACHE", "MULTIRES", "PARTICLE_SYSTEM", "DYNAMIC_PAINT", "EXPLODE")
"""Modifiers that know the old vertices by their numbers."""
LIVE = ("ARMATURE",)
"""Modifiers that go on working where a mesh is taken as it looks."""


@dataclass
class Target:
    """A mesh that is remeshed once, and the objects that get what becomes of it."""

    data: Any
    """The mesh of the objects."""
    objects: list[Any]
    look: Optional[Any] = None
    """What modifiers make of it, where that is taken: a mesh of its own, which is removed afterwards."""
    names: list[str] = field(default_factory=list)

    @property
    def source(self) -> Any:
        return self.objects[0]

    @property
    def name(self) -> str:
        """The name of the first object."""
        return name_of(self.source)

    @property
    def is_there(self) -> bool:
        """Whether nobody has removed them since."""
        try:
            return all(it.data == self.data for it in self.objects)
        except ReferenceError:
            return False

    def remove_look(self) -> None:
        if self.look is not None:
            remove_mesh(self.look)
            self.look = None


def chosen(context: Any) -> list[Any]:
    """The mesh objects that are meant: those that are selected, and those in edit mode, the active one first."""
    editing = list(context.objects_in_mode) if context.mode == "EDIT_MESH" else []
    found = [it for it in dict.fromkeys([*context.selected_objects, *editing]) if it.type == "MESH"]
    active = context.view_layer.objects.active
    return [it for it in found if it == active] + [it for it in found if it != active]


def selected_faces(data: Any) -> Array:
    """(faces,) bool: which faces of a mesh are selected."""
    return column(data.polygons, "select", bool)


def has_modifiers(source: Any) -> bool:
    """Whether an object looks otherwise than its mesh, but for its pose."""
    return any(it.show_viewport and it.type not in LIVE for it in source.modifiers)


def targets_of(objects: Iterable[Any], is_look: bool) -> list[Target]:
    """Each mesh once, with the objects that share it; as it looks, each object with modifiers by itself."""
    found: dict[Any, Target] = {}
    for it in objects:
        alone = is_look and has_modifiers(it)
        key = it if alone else it.data
        target = found.setdefault(key, Target(it.data, [], looked(it) if alone else None))
        target.objects.append(it)
    return list(found.values())


def looked(source: Any) -> Any:
    """A mesh of its own of what the modifiers of an object make of it, in its rest pose."""
    live = [it for it in source.modifiers if it.type in LIVE and it.show_viewport]
    for it in live:
        it.show_viewport = False
    try:
        graph = bpy.context.evaluated_depsgraph_get()
        graph.update()
        return bpy.data.meshes.new_from_object(
            source.evaluated_get(graph), preserve_all_data_layers=True, depsgraph=graph)
    finally:
        for it in live:
            it.show_viewport = True


def put(context: Any, target: Target, data: Any, is_replaced: bool) -> list[Any]:
    """Gives the objects of a target their new mesh, or makes one beside each, which is hidden; returns those that have
    the new mesh."""
    baked = target.look is not None
    objects = target.objects if is_replaced else [_copied(context, it, data) for it in target.objects]
    if is_replaced:
        name, old = name_of(target.data), target.data
        if baked:
            for it in objects:
                it.data = data
        else:
            old.user_remap(data)
        if old.users == 0:
            remove_mesh(old)
        data.name = name
    if baked:
        for it in objects:
            _switch_off(it)
    return objects


def remove_mesh(data: Any) -> None:
    """Removes a mesh that nobody has, with its shape keys, which would stay behind else."""
    if data.shape_keys is not None:
        owner = bpy.data.objects.new(name_of(data), data)
        owner.shape_key_clear()
        bpy.data.objects.remove(owner)
    bpy.data.meshes.remove(data)


def _copied(context: Any, source: Any, data: Any) -> Any:
    """A copy of an object with another mesh, in the same collections; the object itself is hidden."""
    new = source.copy()
    new.data = data
    new.name = f"{name_of(source)} quadq"
    for collection in source.users_collection:
        collection.objects.link(new)
    source.select_set(False)
    source.hide_set(True)
    source.hide_render = True
    # An instance shows what is hidden in the view layer alone.
    source.hide_viewport = any(it.users_dupli_group for it in source.users_collection)
    return new


def _switch_off(it: Any) -> None:
    """Switches off the modifiers that a mesh has in it already."""
    for modifier in it.modifiers:
        if modifier.type not in LIVE and modifier.show_viewport:
            modifier.show_viewport = modifier.show_render = False


def set_parents(pairs: dict[Any, Any]) -> None:
    """Where the parent of a new object has got a new object too, that becomes its parent."""
    for new in pairs.values():
        if new.parent in pairs:
            inverse = new.matrix_parent_inverse.copy()
            new.parent = pairs[new.parent]
            new.matrix_parent_inverse = inverse


def select(context: Any, objects: Iterable[Any], is_edited: bool = False) -> None:
    """Makes these objects the selection, in edit mode if they were in it."""
    for it in context.selected_objects:
        it.select_set(False)
    there = set(context.view_layer.objects)
    found = [it for it in objects if it in there]
    for it in found:
        it.hide_set(False)
        it.select_set(True)
    if found:
        context.view_layer.objects.active = found[0]
        if is_edited:
            bpy.ops.object.mode_set(mode="EDIT")


def leave_edit_mode(context: Any) -> list[Any]:
    """The objects that were in edit mode, which is left."""
    if context.mode != "EDIT_MESH":
        return []
    editing = list(context.objects_in_mode)
    bpy.ops.object.mode_set(mode="OBJECT")
    return editing


def bound_to(source: Any) -> list[str]:
    """The modifiers of an object, and the objects below it, that know the old vertices by their numbers."""
    children = [name_of(it) for it in source.children if it.parent_type.startswith("VERTEX")]
    return [name_of(it) for it in source.modifiers if it.type in BOUND] + children
