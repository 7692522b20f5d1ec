"""What the vertices, edges, faces and corners of Blender's meshes have: as tables that know what becomes of them."""

from __future__ import annotations

from dataclasses import dataclass, replace
from typing import Any, Callable, Optional

import bpy
import numpy as np

from .arrays import column, flat, name_of, put_column
from .quadq import Layer, Mesh
from .quadq.arrays import Array
from .quadq.carrier import Carrier
from .quadq.mesh import NONE
from .quadq.surface import least_in_class
from .versions import has

ITEMS = {"POINT": "vertices", "EDGE": "edges", "FACE": "polygons", "CORNER": "loops"}
"""The collection of a mesh behind each domain."""
KINDS: dict[str, tuple[str, int, Any, bool]] = {
    "FLOAT": ("value", 1, np.float32, True),
    "FLOAT_VECTOR": ("vector", 3, np.float32, True),
    "FLOAT2": ("vector", 2, np.float32, True),
    "FLOAT_COLOR": ("color", 4, np.float32, True),
    "BYTE_COLOR": ("color", 4, np.float32, True),
    "INT": ("value", 1, np.int32, False),
    "INT8": ("value", 1, np.int32, False),
    "BOOLEAN": ("value", 1, bool, False),
    "INT16_2D": ("value", 2, np.int32, False),
    "INT32_2D": ("value", 2, np.int32, False),
    "QUATERNION": ("value", 4, np.float32, False),
    "FLOAT4X4": ("value", 16, np.float32, False),
    "STRING": ("value", 1, object, False),
}
"""Of each type of attribute: the property, how many numbers, their type, and whether values are mixed."""
BUILT_IN = (
    ("materials", "FACE", "material_index", np.int32),
    ("smoothing", "FACE", "use_smooth", bool),
    ("freestyle marks of faces", "FACE", "use_freestyle_mark", bool),
    ("sharp edges", "EDGE", "use_edge_sharp", bool),
    ("seams", "EDGE", "use_seam", bool),
    ("creases", "EDGE", "crease", np.float32),
    ("bevel weights of edges", "EDGE", "bevel_weight", np.float32),
    ("freestyle marks", "EDGE", "use_freestyle_mark", bool),
    ("bevel weights of vertices", "POINT", "bevel_weight", np.float32),
)
"""What has a property of its own: words, domain, property and type. From 4.0 on some are attributes."""
TYPES = {"POINT": "MeshVertex", "EDGE": "MeshEdge", "FACE": "MeshPolygon"}
SKIPPED = ("position", "material_index", "sharp_face", "sharp_edge", "uv_seam", "custom_normal")
"""Attributes that have a property of their own in each version that has them."""
FREESTYLE = {"freestyle_edge": "MeshEdge", "freestyle_face": "MeshPolygon"}
"""Those that have one before 5.0, by the type that has it."""
INNER = (".sculpt_mask", ".sculpt_face_set")
"""Of the attributes that Blender hides, those that somebody made by hand."""
UV_MAP = "UV map "
"""How the words of a UV map begin."""
SAME = 1e-5
"""Places in a UV map that differ by no more are one. Blender's own tools take a tenth of a thousandth."""
ALWAYS = ("materials", "smoothing")
"""What comes over also where nothing else is carried."""


@dataclass(frozen=True)
class Table:
    """A value for each vertex, edge, face or corner."""

    words: str
    """What it is, for people."""
    domain: str
    values: Array
    """(items,) or (items, width). Edges are in the order of the package's mesh, and the rest in Blender's."""
    put: Callable[[Any, Array], None]
    """Gives a new mesh of Blender such values."""
    is_mixed: bool
    """Whether values at vertices and corners are mixed, as numbers can be, or taken from the nearest."""

    @property
    def is_marked(self) -> Array:
        """(items,) bool: which have a value that is not nothing."""
        return np.asarray(np.any(flat(self.values) != 0, axis=1))

    def carried(self, carrier: Carrier, layers: dict[str, Layer]) -> Table:
        """The same for the remesh. Values of corners that are mixed came over as a layer, by the words."""
        if self.domain == "CORNER" and self.is_mixed:
            layer = layers[self.words]
            values = layer.values[layer.rows] if len(layer.values) else np.zeros((len(layer.rows), 1))
        elif self.domain == "POINT" and self.is_mixed:
            values = carrier.mixed(flat(self.values).astype(float))
        elif self.domain == "EDGE":
            values = np.zeros((len(carrier.new.edges.ends), *self.values.shape[1:]), dtype=self.values.dtype)
            along = carrier.followed.of_new
            values[along != NONE] = self.values[along[along != NONE]]
        else:
            nearest = {"POINT": "points", "FACE": "faces", "CORNER": "corners"}[self.domain]
            values = self.values[getattr(carrier, nearest)]
        return replace(self, values=values if values.dtype != float else values.astype(np.float32))

    def kept(self, carrier: Carrier) -> int:
        """How many of its marked edges a new edge follows."""
        return int(carrier.followed.kept(self.is_marked).sum())

    def layer(self, loops: Array, mesh: Mesh) -> Layer:
        """Its values at the corners of a mesh, which are these loops. Those of a UV map that differ by rounding alone
        in faces beside each other are one."""
        values = flat(self.values)[loops].astype(float)
        rows = np.arange(len(loops))
        return Layer(values, _united(values, mesh) if self.words.startswith(UV_MAP) else rows)


def built_in_tables(data: Any, mesh: Mesh) -> list[Table]:
    """What the mesh of Blender has that is no attribute. Tables without any mark are left out."""
    found = []
    for words, domain, name, dtype in BUILT_IN:
        if has(TYPES[domain], name):
            items = ITEMS[domain]
            values = column(getattr(data, items), name, dtype)
            found.append(Table(words, domain, values, _putter(items, name), dtype is np.float32))
    creases = getattr(data, "vertex_creases", None)
    if creases is not None and len(creases):
        values = column(creases[0].data, "value", np.float32)
        found.append(Table("creases of vertices", "POINT", values, _put_vertex_creases, True))
    for faces in getattr(data, "face_maps", ()):
        values = column(faces.data, "value", np.int32)
        name = name_of(faces)
        found.append(Table(f"face map {name}", "FACE", values, _face_map_putter(name), False))
    ordered = [_in_order(it, data, mesh) for it in found]
    return [it for it in ordered if it.words in ALWAYS or it.is_marked.any()]


def attribute_tables(data: Any, mesh: Mesh) -> tuple[list[Table], list[str]]:
    """The attributes of a mesh of Blender, and the names of those whose type is not known."""
    found, strange = [], []
    maps = set(map(name_of, data.uv_layers))
    for it in data.attributes:
        name = name_of(it)
        is_hidden = name.startswith(".") and name not in INNER
        is_told = name in SKIPPED or (name in FREESTYLE and has(FREESTYLE[name], "use_freestyle_mark"))
        if is_told or name in maps or is_hidden:
            continue
        if it.data_type not in KINDS or it.domain not in ITEMS:
            strange.append(name)
            continue
        key, width, dtype, is_mixed = KINDS[it.data_type]
        if dtype is object:
            values = np.array([one.value for one in it.data], dtype=object)
        else:
            values = column(it.data, key, dtype, width)
        put = _attribute_putter(name, it.data_type, it.domain)
        found.append(_in_order(Table(f"attribute {name}", it.domain, values, put, is_mixed), data, mesh))
    return found, strange


def uv_tables(data: Any) -> list[Table]:
    """The UV maps of a mesh of Blender."""
    return [Table(UV_MAP + name, "CORNER", column(it.data, "uv", np.float32, 2), _uv_putter(name), True)
            for name, it in zip(map(name_of, data.uv_layers), data.uv_layers)]


def _united(values: Array, mesh: Mesh) -> Array:
    """(corners,) int64: the row of each corner, where those of two faces beside each other that have about the same
    value at a vertex have one."""
    edges, after = mesh.edges, mesh.next_corners()
    inner = edges.uses == 2
    inner &= (edges.rising != NONE) & (edges.falling != NONE)
    rising, falling = edges.rising[inner], edges.falling[inner]
    one, other = np.concatenate([rising, after[rising]]), np.concatenate([after[falling], falling])
    apart = np.abs(values[one] - values[other]).max(axis=1, initial=0.0)
    near = apart <= SAME
    if not np.any(apart[near]):
        # Equal values need no common row.
        return np.arange(len(values))
    return least_in_class(len(values), one[near], other[near])


def _in_order(table: Table, data: Any, mesh: Mesh) -> Table:
    """A table of edges in the order of the package's mesh; those without faces are not there."""
    if table.domain != "EDGE":
        return table
    at = mesh.edges.numbers_of(np.sort(ends_of(data), axis=1))
    values = np.zeros((len(mesh.edges.ends), *table.values.shape[1:]), dtype=table.values.dtype)
    values[at[at != NONE]] = table.values[at != NONE]
    return replace(table, values=values)


def ends_of(data: Any) -> Array:
    """(edges, 2) int64: the vertices of edges."""
    return column(data.edges, "vertices", np.int32, 2).astype(np.int64)


def _putter(items: str, name: str) -> Callable[[Any, Array], None]:
    def put(data: Any, values: Array) -> None:
        if items == "edges" and has("Mesh", f"use_customdata_edge_{name.split('_')[0]}"):
            setattr(data, f"use_customdata_edge_{name.split('_')[0]}", True)
        put_column(getattr(data, items), name, values.ravel())
    return put


def _put_vertex_creases(data: Any, values: Array) -> None:
    if not len(data.vertex_creases):
        owner = bpy.data.objects.new(name_of(data), data)
        with bpy.context.temp_override(object=owner, mesh=data):
            bpy.ops.mesh.customdata_crease_vertex_add()
        bpy.data.objects.remove(owner)
    if len(data.vertex_creases):
        put_column(data.vertex_creases[0].data, "value", values.ravel())


def _face_map_putter(name: str) -> Callable[[Any, Array], None]:
    def put(data: Any, values: Array) -> None:
        put_column(data.face_maps.new(name=name).data, "value", values)
    return put


def _attribute_putter(name: str, kind: str, domain: str) -> Callable[[Any, Array], None]:
    def put(data: Any, values: Array) -> None:
        new = data.attributes.new(name=name, type=kind, domain=domain)
        key, _, dtype, _ = KINDS[kind]
        if dtype is object:
            for it, value in zip(new.data, values):
                it.value = value
        else:
            put_column(new.data, key, values)
    return put


def _uv_putter(name: str) -> Callable[[Any, Array], None]:
    def put(data: Any, values: Array) -> None:
        new: Optional[Any] = data.uv_layers.new(name=name, do_init=False)
        if new is not None:
            put_column(new.data, "uv", values)
    return put
