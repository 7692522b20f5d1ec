"""What the program and the package say, in Blender's words."""

from __future__ import annotations

from dataclasses import dataclass, field
from typing import Any, Iterator

import numpy as np

from .faults import Place, place_of
from .meshes import Made
from .quadq import Refusal
from .quadq.losses import followed
from .quadq.notices import Notice
from .quadq.quality import scaled_jacobians
from .work import IMAGE, Fault

ADVICE = {
    "polygons": "the selected faces are no quads. Turn on Subdivide, or join triangles with Face > Tris to Quads",
    "edge": "the selected faces run the same way along an edge. Mesh > Normals > Recalculate Outside turns them; "
            "else a face is there twice, or three faces meet",
    "fans": "two parts touch in the selected vertex alone. Mesh > Split gives each its own",
    "repeated": "the selected face has a vertex twice. Mesh > Clean Up > Degenerate Dissolve removes it",
    "plane": "the selected faces cross the mirror plane, or lie in it",
    "number": "the selected vertex lies at no place that is a number. Mesh > Delete > Vertices removes it",
    "image": "with its mirror image the half would be no surface: what of it lies in the plane has to be its boundary",
    6: "the mesh is too large for the program. Separate it with P, and remesh the parts",
    9: "the patches are too tangled. Cut the object into smaller ones",
    10: "the new mesh would have too many faces: a mesh can have 2,097,152 for each part that hangs together. Take a "
        "smaller number or ratio, or longer edges",
    11: "an edge would be there twice. Take the floor Auto or 3",
    13: "the disk is full, or cannot be written to: no proof was kept, and nothing was changed",
    14: "the memory does not suffice: close other programs, or remesh the object in parts",
    17: "the edges are too short for an object of this size. Take longer ones",
}
SIGNS = (("plane", "mirror plane"), ("polygons", "corners"), ("edge", "edge "), ("fans", "two fans"),
         ("repeated", "repeated"))
MEANINGS = (
    ("over a seam of the texture or a border of names",
     "over the border of a UV island or a material: Keep > UV Islands and Materials leave none"),
    ("outside of the region", "outside of the selected faces"),
    ("--sharp 30 keeps them", "Keep > All by Angle keeps them"),
    ("--sharp 30 or more faces bring them nearer", "Keep > All by Angle or more faces bring them nearer"),
    ("try --sharp 30 or more faces", "try Keep > All by Angle, or more faces"),
    *((f"--symmetry {it} keeps that, where the mirror plane is at 0 and no face crosses it",
       f"that can be kept where {it.upper()} = 0 is its plane, edges lie in it, and Symmetry is on") for it in "xyz"),
)
"""Words of the package, and what they are in Blender."""
HANDLED = ("scaled", "not-carried", "loose", "lines")
"""What is usual here, or told in Blender's own words: objects are brought to one size, and what is not carried over is
named."""
LOW = 0.2
"""Faces with a scaled Jacobian below are shown where the quality fell."""


@dataclass(frozen=True)
class Message:
    """Something that is said of an object, and where."""

    level: str
    """INFO, WARNING or ERROR."""
    words: str
    places: list[Place] = field(default_factory=list)
    offers_subdivide: bool = False


def words_of(said: Refusal) -> str:
    """What a refusal means."""
    if "no faces" in said.line:
        return "the object has no faces"
    if "no number" in said.line:
        return ADVICE["number"]
    if IMAGE in said.line:
        return ADVICE["image"]
    for word, sign in SIGNS:
        if sign in said.line and said.status in (4, 7):
            return ADVICE[word]
    return ADVICE.get(said.status, said.line)


def fault_message(name: str, fault: Fault, is_look: bool) -> Message:
    """Why an object is not remeshed. Of a mesh as it looks no place is shown: the object's own has other numbers."""
    said = fault.refusal
    if said is None:
        return Message("ERROR", f"{name}: {fault.words}")
    words = words_of(said)
    if is_look:
        words = words.replace("the selected", "in the mesh as it looks some")
        return Message("ERROR", f"{name}: {words}", offers_subdivide=said.status == 4 and "no faces" not in said.line)
    return Message("ERROR", f"{name}: {words}", place_of(name, said.faces, said.vertices),
                   said.status == 4 and "no faces" not in said.line)


def in_blender(words: str) -> str:
    """A warning of the package."""
    for theirs, ours in MEANINGS:
        words = words.replace(theirs, ours)
    return words


def made_messages(name: str, old_name: str, made: Made) -> Iterator[Message]:
    """What came of an object. `old_name` is that of the object with the old mesh, or nothing where it is gone."""
    report = made.result.report
    symmetric = f", symmetric along {report.symmetry.upper()}" if report.symmetry else ""
    judged = "check" if report.is_checked else "map"
    yield Message("INFO", f"{name}: faces {report.before.faces} -> {report.after.faces}, parts {report.parts}, "
                  f"accepted by quadq {judged}{symmetric}, greatest distance {report.greatest_distance:.3g}")
    for notice in report.notices:
        if notice.kind not in HANDLED:
            yield Message("WARNING", f"{name}: {in_blender(notice.words)}", list(_places(name, old_name, notice, made)))
    if made.lost:
        yield Message("WARNING", f"{name}: not carried over: {', '.join(made.lost)}")


def _places(name: str, old_name: str, notice: Notice, made: Made) -> Iterator[Place]:
    """What a warning means, on the new mesh or on the old one."""
    mesh = made.result.mesh
    if notice.kind in ("inverted", "mean-quality", "least-quality"):
        quality = scaled_jacobians(mesh)
        limit = 0.0 if notice.kind == "inverted" else max(LOW, float(quality.min()))
        yield from place_of(name, np.flatnonzero(quality <= limit).tolist(), ())
    elif notice.kind == "over-seams":
        over = made.result.over_seams
        yield from place_of(name, () if over is None else np.flatnonzero(over).tolist(), ())
    elif notice.kind == "sharp" and old_name:
        carrier = made.result.carrier
        if carrier is not None and not carrier.is_divided:
            edges, is_followed = followed(carrier.old, mesh, made.result.report.after.mean_edge)
            yield from place_of(old_name, (), np.unique(edges[~is_followed]).tolist())


def tell(operator: Any, messages: list[Message]) -> None:
    """Says all of it in Blender's Info."""
    for it in messages:
        operator.report({it.level}, it.words)
