#!/usr/bin/env python3
"""Marks the feature edges of a quad mesh by `l` lines, which modelling programs show and `quadq crease` keeps.

usage: tools/mark_features.py IN.obj >OUT.obj

Writes IN.obj as it is with one line `l A B` behind it for each marked edge between two faces. An edge is marked where

  its faces meet at more than --angle degrees (30 if not given; 180 marks none),
  --groups   `usemtl`, `g` or `o` differs between its faces,
  --seams    its faces name other texture coordinates at one of its ends,
  --normals  its faces name other normals at one of its ends, and are not both flat shaded.

So that corners keep their places, two kinds of edges are marked besides, unless --no-corners is given:

  at a boundary vertex with two faces whose boundary turns by more than the angle, the edge between the two;
  at an inner vertex with four faces where a marked line goes straight on from face to face and yet turns by more than
  the angle, one edge beside it.

A line on standard error says how many edges were marked, and why. The mesh is taken to be one that quadq accepts.
"""

import argparse
import math
import sys
from collections import Counter
from dataclasses import dataclass, field
from typing import Dict, Iterator, List, NamedTuple, Optional, Tuple, Union

from obj_text import Corner, end_of, read_obj

Vector = Tuple[float, float, float]
Edge = Tuple[int, int]


class Face(NamedTuple):
    corners: List[Corner]
    """In the order of the file."""
    names: Tuple[str, str, str]
    """The material, group and object that the face belongs to."""


@dataclass
class Mesh:
    """The parts of an OBJ text that tell where features are. Lengths are in the unit of the file."""

    points: List[Vector] = field(default_factory=list)
    textures: List[Tuple[float, ...]] = field(default_factory=list)
    normals: List[Tuple[float, ...]] = field(default_factory=list)
    faces: List[Face] = field(default_factory=list)


def read_mesh(text: Union[bytes, str]) -> Mesh:
    """What a text has. Raises an `ObjError` where the program refuses its lines, but for faces that are no quads."""
    obj = read_obj(text, polygons=True)
    places = [obj.place(it) for it in range(len(obj.points))]
    names = ((material, group, thing) for thing, group, material, _ in obj.names)
    return Mesh(places, obj.textures, obj.normals, [Face(*it) for it in zip(obj.faces, names)])


def minus(a: Vector, b: Vector) -> Vector:
    return a[0] - b[0], a[1] - b[1], a[2] - b[2]


def cross(a: Vector, b: Vector) -> Vector:
    return a[1] * b[2] - a[2] * b[1], a[2] * b[0] - a[0] * b[2], a[0] * b[1] - a[1] * b[0]


def angle_between(a: Vector, b: Vector) -> float:
    """In degrees, and 0 where one of them has no direction."""
    turned = cross(a, b)
    # A zero that is added last makes one without a sign of a negative one, which would be half a turn.
    along = a[0] * b[0] + a[1] * b[1] + a[2] * b[2] + 0.0
    return math.degrees(math.atan2(math.hypot(*turned), along))


class Features:
    """The marked edges of a mesh, each with the reason that was found first."""

    def __init__(self, mesh: Mesh) -> None:
        self.mesh = mesh
        self.why: Dict[Edge, str] = {}
        # Each dart, an edge in the direction of its face, with that face and its place there.
        self.darts: Dict[Edge, Tuple[int, int]] = {}
        self.valence: Counter = Counter()
        for at, face in enumerate(mesh.faces):
            for side, corner in enumerate(face.corners):
                after = face.corners[(side + 1) % len(face.corners)]
                self.darts[corner.vertex, after.vertex] = at, side
                self.valence[corner.vertex] += 1
        self.facing = [self.normal_of(face) for face in mesh.faces]

    def normal_of(self, face: Face) -> Vector:
        """Twice the area of the quad, in its direction: the cross product of its diagonals."""
        a, b, c, d = (self.mesh.points[face.corners[i % len(face.corners)].vertex] for i in range(4))
        return cross(minus(c, a), minus(d, b))

    def inner_edges(self) -> Iterator[Tuple[Edge, int, int]]:
        """Each edge between two faces once, with these faces."""
        for (start, end), (face, _) in self.darts.items():
            if start < end and (end, start) in self.darts:
                yield (start, end), face, self.darts[end, start][0]

    def mark(self, edge: Edge, why: str) -> None:
        start, end = edge
        self.why.setdefault((min(start, end), max(start, end)), why)

    def is_marked(self, start: int, end: int) -> bool:
        return (min(start, end), max(start, end)) in self.why

    def mark_angles(self, angle: float) -> None:
        for edge, one, other in self.inner_edges():
            if angle_between(self.facing[one], self.facing[other]) > angle:
                self.mark(edge, "by angle")

    def mark_groups(self) -> None:
        for edge, one, other in self.inner_edges():
            if self.mesh.faces[one].names != self.mesh.faces[other].names:
                self.mark(edge, "between groups")

    def mark_seams(self) -> None:
        textures = self.mesh.textures
        for edge, one, other in self.inner_edges():
            if self.names_differ(edge, one, other, lambda it: it.texture is not None and textures[it.texture]):
                self.mark(edge, "at seams")

    def mark_normals(self) -> None:
        normals = self.mesh.normals

        def value(corner: Corner):
            return corner.normal is not None and normals[corner.normal]

        def is_flat(face: int) -> bool:
            return len({value(it) for it in self.mesh.faces[face].corners}) == 1

        for edge, one, other in self.inner_edges():
            if not (is_flat(one) and is_flat(other)) and self.names_differ(edge, one, other, value):
                self.mark(edge, "by normals")

    def names_differ(self, edge: Edge, one: int, other: int, value) -> bool:
        """Whether the two faces of an edge have other values at one of its ends."""

        def at(face: int, vertex: int):
            return next(value(it) for it in self.mesh.faces[face].corners if it.vertex == vertex)

        return any(at(one, vertex) != at(other, vertex) for vertex in edge)

    def turn_at(self, before: int, vertex: int, after: int) -> float:
        points = self.mesh.points
        return angle_between(minus(points[vertex], points[before]), minus(points[after], points[vertex]))

    def mark_boundary_corners(self, angle: float) -> None:
        """Where the boundary turns at a vertex with two faces, the edge between them."""
        for (vertex, after), (face, side) in list(self.darts.items()):
            if (after, vertex) in self.darts or self.valence[vertex] != 2:
                continue
            corners = self.mesh.faces[face].corners
            inner = corners[side - 1].vertex
            if (vertex, inner) not in self.darts:
                continue
            other, place = self.darts[vertex, inner]
            before = self.mesh.faces[other].corners[place - 1].vertex
            if self.turn_at(before, vertex, after) > angle:
                self.mark((vertex, inner), "at corners of the boundary")

    def around(self, vertex: int, first: int) -> Optional[List[int]]:
        """The ends of the edges at an inner vertex, in turn, or None at the boundary."""
        ends, end = [], first
        while True:
            ends.append(end)
            if (vertex, end) not in self.darts:
                return None
            face, side = self.darts[vertex, end]
            end = self.mesh.faces[face].corners[side - 1].vertex
            if end == first or len(ends) > self.valence[vertex]:
                return ends

    def mark_turns(self, angle: float) -> None:
        """Where a line goes straight on over an inner vertex of four faces and yet turns, an edge beside it."""
        lines = {vertex: edge[edge[0] == vertex] for edge in list(self.why) for vertex in edge}
        for vertex, end in sorted(lines.items()):
            ends = self.around(vertex, end) if self.valence[vertex] == 4 else None
            if ends is None or len(ends) != 4:
                continue
            marked = [self.is_marked(vertex, it) for it in ends]
            if marked == [True, False, True, False] and self.turn_at(ends[0], vertex, ends[2]) > angle:
                self.mark((vertex, ends[1]), "at turns of lines")


def find_features(mesh: Mesh, wishes: argparse.Namespace) -> Dict[Edge, str]:
    features = Features(mesh)
    features.mark_angles(wishes.angle)
    if wishes.groups:
        features.mark_groups()
    if wishes.seams:
        features.mark_seams()
    if wishes.normals:
        features.mark_normals()
    if wishes.corners:
        features.mark_boundary_corners(wishes.angle)
        features.mark_turns(wishes.angle)
    return features.why


def summary(why: Dict[Edge, str]) -> str:
    counts = Counter(why.values())
    told = ", ".join(f"{count} {reason}" for reason, count in counts.items())
    return f"marked {len(why)} edges" + (f": {told}" if told else "")


def parse(words: List[str]) -> argparse.Namespace:
    parser = argparse.ArgumentParser(description=__doc__, formatter_class=argparse.RawDescriptionHelpFormatter)
    parser.add_argument("mesh", metavar="IN.obj")
    parser.add_argument("--angle", type=float, default=30.0, metavar="DEGREES")
    parser.add_argument("--groups", action="store_true")
    parser.add_argument("--seams", action="store_true")
    parser.add_argument("--normals", action="store_true")
    parser.add_argument("--no-corners", dest="corners", action="store_false")
    return parser.parse_args(words)


def main() -> None:
    wishes = parse(sys.argv[1:])
    try:
        with open(wishes.mesh, "rb") as file:
            text = file.read()
        why = find_features(read_mesh(text), wishes)
    except (ValueError, OSError) as error:
        sys.exit(f"mark_features: {error}")
    out = sys.stdout.buffer
    out.write(text + end_of(text))
    out.writelines(f"l {start + 1} {end + 1}\n".encode() for start, end in sorted(why))
    out.flush()
    print(f"mark_features: {summary(why)}", file=sys.stderr)


if __name__ == "__main__":
    main()
