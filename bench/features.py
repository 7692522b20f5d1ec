#!/usr/bin/env python3
"""Measures how far the feature edges of meshes are from those of their remeshes, with `quadq remesh` and with
`tools/mark_features.py` and `quadq crease`, and how many patches the marks cost.

usage: bench/features.py [--angle DEGREES] [--scales P/Q,..] MESH.obj..

Feature edges are those on the boundary and those whose faces meet at more than the angle, 30 degrees if not given. From
five places of each the nearest edge of the new mesh is looked for: where a feature is a line of the new mesh, that is
near. Distances are in thousandths of the diagonal of the mesh. Where floor 1 doubles an edge, the floor is 3. It needs
numpy (Debian: python3-numpy). QUADQ may name the program, which is dist/quadq else.
"""
import argparse
import pathlib
import subprocess
import sys
import tempfile

import numpy as np

from measuring import ROOT, name_of, program

sys.path.insert(0, f"{ROOT}/tools")
import mark_features  # noqa: E402
from layout_text import read_layout  # noqa: E402

PLACES = np.linspace(0, 1, 5)
AT_A_TIME = 400
"""How many places are looked up together: it bounds the memory."""
DOUBLED = 11
LAYOUT = ["layout", "--keep", "lines", "--patches", "traced"]
HEAD = "| mesh | faces | angle | scale | `remesh`: faces | mean | greatest | `crease`: faces | mean | greatest |"
COST_HEAD = "| mesh | angle | marks | patches | with marks | with corners | arcs | with marks | with corners |"


def parse():
    parser = argparse.ArgumentParser(description=__doc__, formatter_class=argparse.RawDescriptionHelpFormatter)
    parser.add_argument("meshes", nargs="+", type=pathlib.Path, metavar="MESH.obj")
    parser.add_argument("--angle", default="30", metavar="DEGREES")
    parser.add_argument("--scales", default="2/3,1/2", metavar="P/Q,..")
    return parser.parse_args()


def marked(mesh, out, angle, *words):
    """Writes a mesh with its marks."""
    with open(out, "wb") as target:
        tool = [sys.executable, f"{ROOT}/tools/mark_features.py", "--angle", angle, *words, mesh]
        subprocess.run(tool, stdout=target, stderr=subprocess.DEVNULL, check=True)


def written(command, mesh, out, scale):
    """Writes what a command makes of a mesh at a scale."""
    for floor in ("1", "3"):
        words = [program(), command, "--scale", scale, "--floor", floor, "--weight", "plain"]
        with open(mesh, "rb") as text, open(out, "wb") as target:
            status = subprocess.run(words, stdin=text, stdout=target, stderr=subprocess.DEVNULL).returncode
        if status != DOUBLED:
            break
    if status != 0:
        sys.exit(f"{command} of {mesh} ended with {status}")


def features_of(path):
    """The marks of a mesh, with its darts, and its points as (points, 3)."""
    mesh = mark_features.read_mesh(path.read_bytes())
    return mark_features.Features(mesh), np.array(mesh.points)


def segments_of(edges, points):
    """(edges, 2, 3): the ends of edges."""
    return points[np.array(sorted(edges), dtype=np.int64).reshape(-1, 2)]


def distances(places, edges):
    """(places,): from each of (places, 3) to the nearest of the edges (edges, 2, 3)."""
    start, along = edges[:, 0], edges[:, 1] - edges[:, 0]
    square = np.maximum(np.einsum("ei,ei->e", along, along), 1e-300)
    found = []
    for some in np.array_split(places, -(-len(places) // AT_A_TIME)):
        part = np.clip(np.einsum("pei,ei->pe", some[:, None] - start, along) / square, 0, 1)
        found.append(np.linalg.norm(some[:, None] - start - part[:, :, None] * along, axis=2).min(axis=1))
    return np.concatenate(found)


def measure(old, new, angle):
    """The mean and the greatest distance of the feature edges of a mesh from the edges of another, in thousandths of
    the diagonal."""
    found, points = features_of(old)
    found.mark_angles(float(angle))
    edges = segments_of(set(found.why) | {dart for dart in found.darts if dart[::-1] not in found.darts}, points)
    if not len(edges):
        return ["none", "none"]
    other, new_points = features_of(new)
    places = (edges[:, :1] + PLACES[:, None] * (edges[:, 1:] - edges[:, :1])).reshape(-1, 3)
    weights = np.repeat(np.linalg.norm(edges[:, 1] - edges[:, 0], axis=1), len(PLACES))
    used = points[sorted({vertex for dart in found.darts for vertex in dart})]
    off = 1000 * distances(places, segments_of(other.darts, new_points)) / np.linalg.norm(np.ptp(used, axis=0))
    return [f"{np.average(off, weights=weights):.2f}", f"{off.max():.2f}"]


def count_faces(path):
    with open(path, "rb") as lines:
        return sum(line.startswith(b"f ") for line in lines)


def costs(mesh, angle, room):
    """A row: how many patches and arcs the cut has without marks, with them, and with those of corners too."""
    cells, marks = [], []
    for words in (["180", "--no-corners"], [angle, "--no-corners"], [angle]):
        marked(mesh, room / "marked.obj", *words)
        text = (room / "marked.obj").read_bytes()
        ran = subprocess.run([program(), *LAYOUT], input=text, capture_output=True, check=True)
        cut = read_layout(ran.stdout.decode())
        cells.append((len(cut.sides), len(cut.arcs)))
        marks.append(text.count(b"\nl "))
    patches, arcs = zip(*cells)
    return [name_of(mesh), angle, f"{marks[1]} + {marks[2] - marks[1]}", *patches, *arcs]


def show_head(head):
    print(head)
    print("|" + "---|" * (head.count("|") - 1))


def main():
    words = parse()
    rows = []
    with tempfile.TemporaryDirectory() as folder:
        room = pathlib.Path(folder)
        show_head(HEAD)
        for mesh in words.meshes:
            marked(mesh, room / "marked.obj", words.angle)
            for scale in words.scales.split(","):
                row = [name_of(mesh), count_faces(mesh), words.angle, scale]
                for command, source in (("remesh", mesh), ("crease", room / "marked.obj")):
                    new = room / f"{command}.obj"
                    written(command, source, new, scale)
                    row += [count_faces(new), *measure(mesh, new, words.angle)]
                print("|", " | ".join(map(str, row)), "|", flush=True)
            rows.append(costs(mesh, words.angle, room))
    print()
    show_head(COST_HEAD)
    for row in rows:
        print("|", " | ".join(map(str, row)), "|")


main()
