#!/usr/bin/env python3
"""Draws a quad mesh with its cut into patches as an SVG on standard output.

usage: tools/draw_graph.py MESH.obj LAYOUT.txt [--before LAYOUT.txt | --written OUT.obj] [--from X,Y,Z] [--up y|z]
       [--wide PIXELS]

LAYOUT.txt is what `quadq layout` writes for the mesh: with `--keep none --patches traced` its motorcycle graph. Patches
have colours that differ between neighbours, the edges of the cut are thick, those of `l` lines are red, and irregular
vertices are marked: singular ones violet, corners blue, reflex ones orange. The mesh is seen from the direction that is
given, with z upward, or y, and has an outline where it turns away. It is taken to be a mesh that quadq accepts.

With --before the edges of another layout of the mesh that are not in this one are dashed, as those that left when
patches were merged. With --written the picture is that of OUT.obj, which quadq wrote for the mesh over this cut, with
the patches that it has.
"""

import argparse
import collections
import math
import pathlib
import sys

HERE = pathlib.Path(__file__).resolve().parent
sys.path[:0] = [str(HERE), str(HERE.parent / "share/quadq")]
from layout_text import edge_of, edges_along, patches_of, read_layout  # noqa: E402
from obj_text import read_obj  # noqa: E402

COLOURS = ["#bcd7ee", "#f9d9b4", "#c9e6c3", "#f3c4c9", "#dccbe8", "#f5eeb0", "#bfe3e0", "#e3d3c3"]
MARKS = {"singular": "#7b2d8b", "corner": "#1f5fa8", "reflex": "#e67e22"}
FEATURE = "#d62728"
MARGIN = 12
# An edge of the cut is thick where each of its faces is turned to the eye by so much: nearer to the outline it would be
# a stub.
SLIM = 0.22


def read_mesh(path):
    """The places of vertices, the faces over them, and the edges that `l` lines name. Exits where the program refuses
    the lines."""
    try:
        obj = read_obj(pathlib.Path(path).read_bytes())
    except (ValueError, OSError) as error:
        sys.exit(f"draw_graph: {error}")
    faces = [[it.vertex for it in face] for face in obj.faces]
    lines = {edge for line in obj.lines for edge in edges_along(line)}
    return [obj.place(it) for it in range(len(obj.points))], faces, lines


def read_cut(path):
    """The cut of a layout text."""
    try:
        return read_layout(pathlib.Path(path).read_text(encoding="utf-8"))
    except (ValueError, OSError) as error:
        sys.exit(f"draw_graph: {error}")


def read_lengths(path):
    """The lengths of the arcs of the last certificate in a text that the program wrote."""
    lengths = []
    for line in pathlib.Path(path).read_text(encoding="utf-8").splitlines():
        if line.startswith(("#f ", "#r ")):
            lengths = []
        elif line.startswith("#x "):
            lengths.append(int(line[3:]))
    return lengths


def patches_written(faces, sizes):
    """For each face of a written mesh the number of its patch, and the edges round the patches."""
    patch, graph = [], set()
    for number, (width, height) in enumerate(sizes):
        for at in range(width * height):
            face = faces[len(patch)]
            row, column = divmod(at, width)
            for side, is_border in enumerate([row == 0, column + 1 == width, row + 1 == height, column == 0]):
                if is_border:
                    graph.add(tuple(sorted((face[side], face[(side + 1) % 4]))))
            patch.append(number)
    return patch, graph


def marks_of(faces):
    """The marks of the irregular vertices of a mesh."""
    count = collections.Counter(vertex for face in faces for vertex in face)
    darts = {dart for face in faces for dart in zip(face, face[1:] + face[:1])}
    rim = {vertex for dart in darts if dart[::-1] not in darts for vertex in dart}
    inner = {vertex: MARKS["singular"] for vertex in count if vertex not in rim and count[vertex] != 4}
    return inner | {vertex: MARKS["corner" if count[vertex] == 1 else "reflex"] for vertex in rim if count[vertex] != 2}


def colours_of(neighbours):
    """The number of a colour for each patch: of those that no neighbour has, the one that is used least."""
    colours, uses = {}, [0] * len(COLOURS)
    for patch in sorted(range(len(neighbours)), key=lambda it: -len(neighbours[it])):
        taken = {colours.get(it) for it in neighbours[patch]}
        free = [it for it in range(len(COLOURS)) if it not in taken] or range(len(COLOURS))
        colours[patch] = min(free, key=uses.__getitem__)
        uses[colours[patch]] += 1
    return colours


def seen_from(places, direction):
    """For each place what is to the right, upward and near, seen from the direction."""
    size = math.hypot(*direction)
    x, y, z = (it / size for it in direction)
    flat = math.hypot(x, y)
    right = (-y / flat, x / flat, 0) if flat > 1e-9 else (1, 0, 0)
    up = (y * right[2] - z * right[1], z * right[0] - x * right[2], x * right[1] - y * right[0])
    axes = (right, up, (x, y, z))
    return [tuple(sum(a * b for a, b in zip(axis, place)) for axis in axes) for place in places]


def facing(corners):
    """The cosine between a face's normal and the direction to the eye: below 0 it is seen from its back."""
    first, second, third, fourth = corners
    one, other = ([b - a for a, b in zip(*ends)] for ends in ((first, third), (second, fourth)))
    normal = [one[i - 2] * other[i - 1] - one[i - 1] * other[i - 2] for i in range(3)]
    return normal[2] / (math.hypot(*normal) or 1)


def kinds_of(faces, turns, lines_of):
    """How each edge that is no thin one is drawn: as one of an `l` line; of the cut, or gone from it, where its faces
    are turned to the eye; or of the outline."""
    beside = collections.defaultdict(list)
    for corners, turn in zip(faces, turns):
        for ends in zip(corners, corners[1:] + corners[:1]):
            beside[edge_of(*ends)].append(turn)
    kinds = {}
    for edge, around in beside.items():
        kind = next((it for it, edges in lines_of.items() if edge in edges), None)
        is_outline = len(around) == 2 and min(around) <= 0 < max(around)
        is_clear = len(around) == 1 or not is_outline and min(map(abs, around)) > SLIM
        if kind and (kind == "l" or is_clear):
            kinds[edge] = kind
        elif is_outline:
            kinds[edge] = "o"
    return kinds


def draw(mesh, marks, graph, colours, wide, gone=frozenset(), lines=frozenset()):
    """The SVG of the faces from the farthest to the nearest, each with its edges that are no thin ones and its marks.
    Faces of a closed mesh that are turned away are left out."""
    places, faces = mesh
    used = [places[it] for it in {vertex for face in faces for vertex in face}]
    left, low = (min(it[i] for it in used) for i in (0, 1))
    spans = [max(it[i] for it in used) - least for i, least in ((0, left), (1, low))]
    scale = (wide - 2 * MARGIN) / (spans[0] or 1)
    high = round(spans[1] * scale) + 2 * MARGIN
    where = [f"{MARGIN + (x - left) * scale:.1f},{high - MARGIN - (y - low) * scale:.1f}" for x, y, _ in places]
    darts = {dart for face in faces for dart in zip(face, face[1:] + face[:1])}
    is_closed = all(dart[::-1] in darts for dart in darts)
    turns = [facing([places[it] for it in face]) for face in faces]
    lines_of = {"l": lines, "g": graph, "d": gone}
    kinds, drawn = kinds_of(faces, turns, lines_of), head_of(wide, high, lines_of)
    for face in sorted(range(len(faces)), key=lambda it: sum(places[v][2] for v in faces[it])):
        if not is_closed or turns[face] > 0:
            drawn += face_lines(faces[face], colours[face], where, kinds)
            drawn += [dot(where[it], marks[it], wide) for it in faces[face] if it in marks]
    return "\n".join([*drawn, "</svg>"])


def face_lines(corners, colour, where, kinds):
    """A face and its edges that are no thin ones."""
    ends = zip(corners, corners[1:] + corners[:1])
    edges = [(kinds.get(edge_of(*it)), *it) for it in ends]
    face = f'<path class="c{colour}" d="M{" ".join(where[it] for it in corners)}z"/>'
    return [face, *(f'<path class="{kind}" d="M{where[a]} {where[b]}"/>' for kind, a, b in edges if kind)]


def dot(place, colour, wide):
    x, y = place.split(",")
    return f'<circle cx="{x}" cy="{y}" r="{max(2.2, wide / 160):.1f}" fill="{colour}"/>'


def head_of(wide, high, lines_of):
    """The first lines of the SVG, with a style for each kind of line that there is."""
    styles = [f".c{at}{{fill:{colour};stroke:#8a8a8a;stroke-width:.5}}" for at, colour in enumerate(COLOURS)]
    styles.append(f".g{{stroke:#222;stroke-width:{max(1.4, wide / 280):.1f}}}.o{{stroke:#555;stroke-width:.9}}")
    if lines_of["d"]:
        styles.append(f".d{{stroke:#222;stroke-width:1;stroke-dasharray:{wide / 160:.1f}}}")
    if lines_of["l"]:
        styles.append(f".l{{stroke:{FEATURE};stroke-width:{max(2, wide / 200):.1f}}}")
    view = f'width="{wide}" height="{high}" viewBox="0 0 {wide} {high}"'
    first = f'<svg xmlns="http://www.w3.org/2000/svg" {view} stroke-linejoin="round" stroke-linecap="round">'
    return [first, "<style>", *styles, "</style>", f'<rect width="{wide}" height="{high}" fill="white"/>']


def parse():
    parser = argparse.ArgumentParser(description=__doc__, formatter_class=argparse.RawDescriptionHelpFormatter)
    parser.add_argument("mesh")
    parser.add_argument("layout")
    more = parser.add_mutually_exclusive_group()
    more.add_argument("--before", help="another layout, whose edges are dashed where this one does not have them")
    more.add_argument("--written", help="draws what quadq wrote for the mesh, with its patches")
    parser.add_argument("--from", dest="direction", default="1,-2,1.4", help="the direction that it is seen from")
    parser.add_argument("--up", choices="yz", default="z", help="the coordinate that points upward")
    parser.add_argument("--wide", type=int, default=640)
    return parser.parse_args()


def main():
    words = parse()
    places, faces, lines = read_mesh(words.mesh)
    if not faces:
        sys.exit("draw_graph: the mesh has no faces")
    cut = read_cut(words.layout)
    graph, marks = cut.edges(), {vertex: MARKS[word] for vertex, word in cut.irregular.items()}
    gone = read_cut(words.before).edges() - graph if words.before else set()
    patch, neighbours = patches_of(faces, graph)
    colours = colours_of(neighbours)
    if words.written:
        try:
            sizes = cut.sizes(read_lengths(words.written))
        except ValueError as error:
            sys.exit(f"draw_graph: {error}")
        places, faces, lines = read_mesh(words.written)
        marks = marks_of(faces)
        patch, graph = patches_written(faces, sizes)
    direction = tuple(map(float, words.direction.split(",")))
    if words.up == "y":
        *places, direction = [(x, -z, y) for x, y, z in [*places, direction]]
    seen = seen_from(places, direction)
    print(draw((seen, faces), marks, graph, [colours[it] for it in patch], words.wide, gone, lines))


if __name__ == "__main__":
    main()
