"""Blender's meshes as those of the package, with all that they carry, and back."""

from __future__ import annotations

from dataclasses import dataclass, field, replace
from typing import Any, Generator, Optional, Sequence

import bpy
import numpy as np

from .arrays import column, name_of, put_column
from .objects import remove_mesh
from .quadq import Layer, Mesh, Names, Result
from .quadq.arrays import Array
from .quadq.carrier import Carrier
from .rig import Groups, ShapeKeys, copy_animation
from .tables import ALWAYS, SKIPPED, UV_MAP, Table, attribute_tables, built_in_tables, ends_of, uv_tables
from .versions import can_set, corner_normals, has, smooth_by_angle

MATERIAL = "usemtl"
KEPT = {"sharp": "sharp edges", "seams": "seams", "creases": "creases", "bevels": "bevel weights of edges",
        "freestyle": "freestyle marks"}
"""The kinds of marked edges that can be kept, and the words of their tables."""
ATTRIBUTES = {"attribute crease_edge": "creases", "attribute bevel_weight_edge": "bevel weights of edges"}
"""What two of them are from Blender 4.0 on."""


@dataclass(frozen=True)
class Taken:
    """All that is read of a mesh before the work begins. Nothing here is Blender's, but for the shape keys."""

    mesh: Mesh
    tables: list[Table]
    groups: Optional[Groups] = None
    keys: Optional[ShapeKeys] = None
    lost: list[str] = field(default_factory=list)
    """What cannot come over."""
    selected: Optional[Array] = None
    """(faces,) bool: those that alone are to be remeshed."""
    painted: Optional[Array] = None
    """(vertices,) float64: how densely faces are painted, from 0 to 1."""

    def marked(self, kind: str) -> Array:
        """(edges,) bool: the edges of the package's mesh that have a mark of this kind."""
        found = np.zeros(len(self.mesh.edges.ends), dtype=bool)
        for it in self.tables:
            if ATTRIBUTES.get(it.words, it.words) == KEPT[kind]:
                found |= it.is_marked
        return found

    def with_lines(self, kinds: Sequence[str]) -> Taken:
        """The same, where the edges that are marked so are lines of the mesh."""
        marked = np.zeros(len(self.mesh.edges.ends), dtype=bool)
        for kind in kinds:
            marked |= self.marked(kind)
        return replace(self, mesh=self.mesh.changed(lines=tuple(self.mesh.edges.ends[marked])))


@dataclass(frozen=True)
class Made:
    """What becomes of a mesh, ready to be put into Blender."""

    result: Result
    tables: list[Table]
    normal: Optional[Layer]
    groups: Optional[Groups]
    keys: Optional[ShapeKeys]
    lost: list[str]
    seams: Optional[Array] = None
    """(edges,) bool: those that become seams besides, at the borders of patches."""


def taken(source: Any, data: Any, is_carried: bool = True, is_look: bool = False) -> Taken:
    """What is read of an object and of a mesh, its own or as it looks."""
    mesh, loops = _shape_of(data)
    built_in = built_in_tables(data, mesh)
    if not is_carried:
        lost = _worn(source, data)
        kept = [it for it in built_in if it.words in ALWAYS or it.domain == "EDGE"]
        told = [it.layer(loops, mesh) for it in uv_tables(data) if it.words == _active(data)]
        return Taken(mesh.changed(texture=told[0] if told else None), kept, lost=lost + _strays(data))
    attributes, strange = attribute_tables(data, mesh)
    uvs = uv_tables(data)
    layers = {it.words: it.layer(loops, mesh) for it in [*uvs, *attributes] if it.domain == "CORNER" and it.is_mixed}
    texture = layers.get(_active(data))
    mesh = mesh.changed(texture=texture, layers=layers, normal=_normals_of(data, loops))
    keys = None if is_look else ShapeKeys.of(data)
    lost = [f"attribute {it} (of a type that is not known)" for it in strange] + _strays(data)
    if is_look and source.data.shape_keys is not None:
        lost.append("shape keys (the mesh is taken as it looks)")
    groups = Groups.of(source, data) if len(source.vertex_groups) else None
    return Taken(mesh, [*built_in, *uvs, *attributes], groups, keys, lost)


def _shape_of(data: Any) -> tuple[Mesh, Array]:
    """The package's mesh of places, faces and materials; and the loop of each of its corners."""
    points = column(data.vertices, "co", np.float32, 3).astype(float)
    sides = column(data.polygons, "loop_total", np.int32).astype(np.int64)
    firsts = column(data.polygons, "loop_start", np.int32).astype(np.int64)
    starts = np.concatenate([[0], np.cumsum(sides)])
    loops = np.repeat(firsts - starts[:-1], sides) + np.arange(starts[-1])
    corners = column(data.loops, "vertex_index", np.int32).astype(np.int64)[loops]
    material = column(data.polygons, "material_index", np.int32).astype(np.int64)
    names = Names(tuple(map(str, range(int(material.max(initial=0)) + 1))), material)
    return Mesh(points, corners, starts, groups={MATERIAL: names}), loops


def _active(data: Any) -> str:
    """The words of the active UV map, which tells where islands end."""
    active = data.uv_layers.active
    return "" if active is None else UV_MAP + name_of(active)


def _normals_of(data: Any, loops: Array) -> Optional[Layer]:
    """The layer of normals that were given by hand, or None."""
    if not data.has_custom_normals:
        return None
    values = column(*corner_normals(data), np.float32, 3)
    return Layer(values[loops].astype(float), np.arange(len(loops)))


def _worn(source: Any, data: Any) -> list[str]:
    """What an object has that comes over only where it is carried."""
    own = [it for it in map(name_of, data.attributes) if not it.startswith(".")]
    colours = list(map(name_of, data.color_attributes))
    has = [("UV maps", len(data.uv_layers)), ("colours", len(colours)), ("vertex groups", len(source.vertex_groups)),
           ("shape keys", data.shape_keys), ("normals", data.has_custom_normals),
           ("attributes", set(own) - {*colours, *SKIPPED, *map(name_of, data.uv_layers)})]
    return [name for name, there in has if there]


def _strays(data: Any) -> list[str]:
    """What no remesh can have: vertices and edges without faces, and what belongs to the old vertices."""
    used = np.zeros(len(data.vertices), dtype=bool)
    used[column(data.loops, "vertex_index", np.int32)] = True
    ends = ends_of(data)
    has_face = np.zeros(len(ends), dtype=bool)
    has_face[column(data.loops, "edge_index", np.int32)] = True
    at_edge = np.zeros(len(used), dtype=bool)
    at_edge[ends] = True
    counts = (("edge", "edges", int(np.sum(~has_face))), ("vertex", "vertices", int(np.sum(~used & ~at_edge))))
    words = [f"{count} loose {one if count == 1 else many}" for one, many, count in counts if count]
    has_pins = has("MeshUVLoop", "pin_uv") and any(column(it.data, "pin_uv", bool).any() for it in data.uv_layers)
    others = (("skin radii", len(getattr(data, "skin_vertices", ()))), ("pins of UV maps", has_pins),
              ("sculpt masks", len(getattr(data, "vertex_paint_masks", ()))))
    return words + [name for name, is_there in others if is_there]


def made(old: Taken, result: Result, axis: Optional[int]) -> Made:
    """What becomes of a mesh. With an axis, what lies below 0 is a mirror image of the rest."""
    carrier = result.carrier
    assert carrier is not None
    tables = [it.carried(carrier, result.mesh.layers) for it in old.tables]
    return Made(
        result, tables, result.mesh.normal,
        None if old.groups is None else old.groups.carried(carrier, axis),
        None if old.keys is None else old.keys.carried(carrier, axis),
        old.lost + _lost_marks(old, carrier),
    )


def _lost_marks(old: Taken, carrier: Carrier) -> list[str]:
    """Marked edges that no new edge follows, by kinds."""
    found = []
    for it in old.tables:
        if it.domain == "EDGE":
            marked = int(it.is_marked.sum())
            lost = marked - it.kept(carrier)
            if lost:
                found.append(f"{lost} of {marked} {it.words}, along which no new edge lies")
    return found


def built(source: Any, it: Made) -> Generator[Any, None, None]:
    """Makes Blender's mesh of a remesh, with the materials and settings of the old one (`source`); yields None between
    its steps, and the mesh at last. What is made is removed where it is not waited for."""
    data = source.copy()
    target = None
    try:
        data.clear_geometry()
        target = bpy.data.objects.new(name_of(source), data)
        if data.shape_keys is not None:
            target.shape_key_clear()
        copy_animation(source, data)
        data.vertices.add(len(it.result.mesh.points))
        if it.groups is not None:
            yield from it.groups.put_weights(data)
        _put_shape(data, it.result.mesh)
        yield None
        for table in it.tables:
            table.put(data, table.values)
            yield None
        if it.seams is not None:
            put_column(data.edges, "use_seam", column(data.edges, "use_seam", bool) | it.seams)
        _put_active(source, data)
        if it.normal is not None:
            smooth_by_angle(data)
            data.normals_split_custom_set(it.normal.values[it.normal.rows].astype(np.float32))
            yield None
        for some in (it.groups, it.keys):
            if some is not None:
                yield from some.put(target)
    except BaseException:
        if target is not None:
            bpy.data.objects.remove(target)
        remove_mesh(data)
        raise
    bpy.data.objects.remove(target)
    yield data


def _put_shape(data: Any, mesh: Mesh) -> None:
    """Gives a mesh of Blender, which has its vertices, the places and faces; its edges are those of the package, in
    their order."""
    ends = mesh.edges.ends
    for items, count in (("edges", len(ends)), ("loops", len(mesh.corners)), ("polygons", mesh.face_count)):
        getattr(data, items).add(count)
    put_column(data.vertices, "co", mesh.points.astype(np.float32))
    put_column(data.edges, "vertices", ends.astype(np.int32))
    put_column(data.loops, "vertex_index", mesh.corners.astype(np.int32))
    put_column(data.loops, "edge_index", mesh.edges.of_corner.astype(np.int32))
    put_column(data.polygons, "loop_start", mesh.starts[:-1].astype(np.int32))
    if can_set("MeshPolygon", "loop_total"):
        put_column(data.polygons, "loop_total", mesh.sides.astype(np.int32))
    data.update()


def _put_active(source: Any, data: Any) -> None:
    """Makes those UV maps, colours and attributes active that were."""
    if len(data.uv_layers):
        data.uv_layers.active_index = min(max(source.uv_layers.active_index, 0), len(data.uv_layers) - 1)
        for old, new in zip(source.uv_layers, data.uv_layers):
            if old.active_render:
                new.active_render = True
    colours = data.color_attributes
    if len(colours):
        colours.active_color_index = source.color_attributes.active_color_index
        colours.render_color_index = source.color_attributes.render_color_index
