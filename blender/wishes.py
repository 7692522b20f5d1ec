"""What is wished of a remesh: as properties of Blender, which dialog and panel share, and as the package has it."""

from __future__ import annotations

import math
import pathlib
from dataclasses import dataclass
from typing import Any, Optional

import numpy as np
from bpy.props import BoolProperty, EnumProperty, FloatProperty, IntProperty, StringProperty

from .meshes import KEPT, Taken
from .objects import chosen
from .painted import names_of
from .quadq.features import mark_features
from .quadq.targets import as_scale


def names_painted(context: Any, typed: str) -> list[str]:
    """The names of what is painted on the selected meshes that have such letters."""
    found = dict.fromkeys(name for it in chosen(context) for name in names_of(it))
    return [it for it in found if typed.lower() in it.lower()]


PROPERTIES: dict[str, Any] = {
    "wish": EnumProperty(
        name="Wish", default="FACES", items=[
            ("FACES", "Faces", "How many faces each object is to have"),
            ("RATIO", "Ratio", "How many faces there are to be, as a part of those that there are"),
            ("EDGE", "Edge Length", "How long edges are to be"),
            ("WITHIN", "Distance", "How far the new mesh may be from the old one: the coarsest is looked for"),
            ("SCALE", "Scale", "How long edges of patches are to be, in faces, as a part of what they are")]),
    "faces": IntProperty(name="Faces", default=5000, min=1, description="How many faces each object is to have"),
    "ratio": FloatProperty(
        name="Ratio", default=0.5, min=0.0001, max=1000.0, soft_min=0.01, soft_max=4.0,
        description="How many faces there are to be, as a part of those that there are now"),
    "edge": FloatProperty(
        name="Edge Length", default=0.1, min=1e-6, subtype="DISTANCE", description="How long edges are to be"),
    "within": FloatProperty(
        name="Distance", default=0.01, min=1e-6, subtype="DISTANCE",
        description="How far the new mesh may be from the old one, and the old one from it"),
    "scale": FloatProperty(
        name="Scale", default=0.5, min=0.001, max=1000.0, soft_min=0.1, soft_max=4.0,
        description="How long edges of patches are to be, in faces, as a part of what they are: 1/2 gives about a "
                    "quarter of the faces"),
    "selected": BoolProperty(
        name="Selected Faces Alone",
        description="Of an object in edit mode remesh the selected faces alone, as far as their rows allow. The number "
                    "of faces or the length of edges is for these, and their border stays a line of edges"),
    "density": StringProperty(
        name="Density", search=lambda _it, context, typed: names_painted(context, typed),
        description="A vertex group or a colour attribute: where it is painted faces are denser"),
    "times": FloatProperty(
        name="Times as Dense", default=4.0, min=0.01, max=100.0, soft_min=0.25, soft_max=16.0,
        description="How many times as dense faces are where the vertex group or the colour is at its full"),
    "keep_sharp": BoolProperty(
        name="Sharp Edges", default=True,
        description="Keep the edges that are marked sharp; where none is, those whose faces meet at an angle"),
    "keep_islands": BoolProperty(
        name="UV Islands", default=True,
        description="Keep the borders of the islands of the active UV map, so that no face is torn"),
    "keep_materials": BoolProperty(name="Materials", default=True, description="Keep the edges between materials"),
    "keep_angle": BoolProperty(
        name="All by Angle", description="Keep the edges whose faces meet at more than the angle, whatever is marked"),
    "angle": FloatProperty(
        name="Angle", default=math.radians(30), min=0.0, max=math.pi, subtype="ANGLE",
        description="Edges whose faces meet at more than this are sharp"),
    "keep_seams": BoolProperty(name="Seams", description="Keep the edges that are marked as seams"),
    "keep_creases": BoolProperty(name="Creases", description="Keep the edges that have a crease"),
    "keep_bevels": BoolProperty(name="Bevel Weights", description="Keep the edges that have a bevel weight"),
    "keep_freestyle": BoolProperty(name="Freestyle", description="Keep the edges that have a freestyle mark"),
    "corners": BoolProperty(
        name="Corners", default=True,
        description="Keep the corners of the boundary and of kept edges too, at the price of some more patches"),
    "carry": BoolProperty(
        name="Carry Over", default=True,
        description="Keep UV maps, colours, attributes, vertex groups, shape keys and normals. Materials, smoothing "
                    "and marks of edges come over always"),
    "subdivide": BoolProperty(
        name="Subdivide", description="Divide all faces into quads first, so that triangles and polygons can be taken"),
    "look": EnumProperty(
        name="Modifiers", default="MESH", items=[
            ("MESH", "Leave", "Remesh the mesh as it is. The modifiers stay, and work on the new mesh"),
            ("LOOK", "Take as It Looks", "Remesh what the modifiers make of it, in the rest pose. They stay, but "
                                         "are switched off; armatures stay on")]),
    "replace": BoolProperty(
        name="Replace", description="Change the object's mesh, for all objects that share it, instead of making a new "
                                    "object and hiding the old one"),
    "coarse": BoolProperty(
        name="Merge Patches", description="Remesh over fewer and larger patches"),
    "floor": EnumProperty(
        name="Floor", default="auto", description="The least number of faces along an edge of a patch",
        items=[(it, it.title(), "") for it in ("auto", "1", "2", "3")]),
    "mirror": EnumProperty(
        name="Symmetry", default="AUTO", items=[
            ("AUTO", "Where It Is There", "Keep a mesh symmetric that is its own mirror image about X, Y or Z = 0"),
            ("NONE", "None", "Do not care for symmetry"),
            *((it, f"Mirror {it}", f"Remesh the half where {it} is above 0, and mirror it with all that it carries")
              for it in "XYZ")]),
    "relax": IntProperty(
        name="Relax", min=0, max=100, soft_max=20,
        description="How many times points are moved along the old surface, where no face becomes worse by it"),
    "seams": BoolProperty(name="Seams at Patches", description="Mark the borders of patches as seams"),
    "proof": BoolProperty(
        name="Write Proof",
        description="Keep the old and the new text of each part in a folder beside the .blend file, where the program "
                    "can judge them again"),
}
KEEP_FIRST = ("sharp", "islands", "materials")
KEEP_MORE = ("angle", *(it for it in KEPT if it != "sharp"))


@dataclass(frozen=True)
class Wishes:
    """The values of `PROPERTIES`."""

    wish: str
    faces: int
    ratio: float
    edge: float
    within: float
    scale: float
    selected: bool
    density: str
    times: float
    keep_sharp: bool
    keep_islands: bool
    keep_materials: bool
    keep_angle: bool
    angle: float
    keep_seams: bool
    keep_creases: bool
    keep_bevels: bool
    keep_freestyle: bool
    corners: bool
    carry: bool
    subdivide: bool
    look: str
    replace: bool
    coarse: bool
    floor: str
    mirror: str
    relax: int
    seams: bool
    proof: bool
    size: float = 1.0
    """How many times as long as in the object's own space an edge is in the scene."""
    folder: Optional[pathlib.Path] = None
    """Where proofs are kept."""

    @staticmethod
    def of(properties: Any) -> Wishes:
        return Wishes(**{name: getattr(properties, name) for name in PROPERTIES})

    @property
    def axis(self) -> Optional[int]:
        """The axis across which the half above 0 is mirrored with what it carries."""
        return "XYZ".index(self.mirror) if self.mirror in ("X", "Y", "Z") else None

    def wished_faces(self, now: int) -> Optional[int]:
        """How many faces an object of so many is to have, where that is wished."""
        return {"FACES": self.faces, "RATIO": max(1, round(self.ratio * now))}.get(self.wish)

    def kinds(self) -> list[str]:
        """The kinds of marked edges that are kept."""
        return [it for it in KEPT if getattr(self, f"keep_{it}")]

    def for_package(self, old: Taken) -> dict[str, Any]:
        """The same for the package, of a mesh whose marked edges of these kinds are its lines."""
        mesh = old.mesh
        region = None if old.selected is None else np.flatnonzero(old.selected)
        wishes: dict[str, dict[str, Any]] = {
            "EDGE": {"edge": f"{self.edge / self.size:.9g}"}, "WITHIN": {"within": self.within / self.size},
            "SCALE": {"scale": as_scale(self.scale)}}
        faces = self.wished_faces(mesh.face_count if region is None else len(region))
        by_angle = self.keep_angle or (self.keep_sharp and not old.marked("sharp").any())
        kinds = {"lines": bool(mesh.lines), "materials": self.keep_materials, "seams": self.keep_islands}
        keep = [kind for kind, is_asked in kinds.items() if is_asked]
        sharp = math.degrees(self.angle) if by_angle else None
        if (keep or sharp) and not len(mark_features(mesh, sharp, kinds=keep, corners=self.corners).edges):
            # With nothing to keep `remesh` may do the same, which `check` judges.
            keep, sharp = [], None
        return dict(
            wishes.get(self.wish, {"faces": faces}), floor=self.floor, subdivide=self.subdivide, relax=self.relax,
            corners=self.corners, keep=keep, sharp=sharp, coarse=self.coarse, folder=self.folder, region=region,
            density=None if old.painted is None else 1 + (self.times - 1) * np.clip(old.painted, 0, 1),
            mirror=None if self.axis is None else self.mirror.lower(),
            symmetry="auto" if self.mirror == "AUTO" else "off")


def draw_wish(layout: Any, it: Any, columns: int = 4) -> None:
    """How fine it is to be, with the ways to say that in so many columns."""
    flow = layout.grid_flow(row_major=True, columns=columns, even_columns=True, align=True)
    flow.use_property_split = False
    for name in ("FACES", "RATIO", "EDGE", "WITHIN"):
        flow.prop_enum(it, "wish", name)
    layout.prop(it, it.wish.lower())
    layout.prop(it, "density")
    if it.density:
        layout.prop(it, "times")


def draw_keep(layout: Any, it: Any) -> None:
    """What is kept, of what is often used."""
    column = layout.column(heading="Keep")
    for name in KEEP_FIRST:
        column.prop(it, f"keep_{name}")
    layout.prop(it, "carry")
    layout.prop(it, "subdivide")


def draw_more(layout: Any, it: Any) -> None:
    """What is seldom used."""
    row = layout.row()
    row.use_property_split = False
    row.prop_enum(it, "wish", "SCALE")
    column = layout.column(heading="Keep")
    for name in KEEP_MORE:
        column.prop(it, f"keep_{name}")
    column.prop(it, "angle")
    column.prop(it, "corners")
    for name in ("mirror", "relax", "coarse", "floor", "seams"):
        layout.prop(it, name)
