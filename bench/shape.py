#!/usr/bin/env python3
"""Compares what meshes become at 1/2, 1/4, 1/8 and 1/16 of their faces: by one scale, by shape, and by QuadriFlow and
Decimate (un-subdivide) of Blender.

usage: bench/shape.py [--no-blender] [--make FOLDER] [--rows FILE.csv] [MESH.obj..]

It prints a row a mesh and a number, of each way, and behind them the same as a table in Markdown: faces, the mean and
the greatest distance of both meshes, in thousandths of the diagonal of the box; the least and the mean scaled Jacobian;
inverted faces; irregular vertices. Between them stands how often a number is met within a hundredth, and how many
numbers a cut allows (the fewest faces that it has, with all arcs as short as may be, are no more); and how often shape
has no more inverted faces, or a smaller greatest distance, than scale. With --make three more meshes are made by
Blender and gmsh: a ball from a cube, Suzanne subdivided twice, and a bent pipe. It wants numpy, a program with `fit`,
which QUADQ may name, and Blender.
"""
import argparse
import csv
import os
import pathlib
import subprocess
import sys
import tempfile

import numpy as np

from measuring import ROOT, name_of

sys.path.insert(0, f"{ROOT}/python")
import quadq  # noqa: E402
from quadq.mesh import Mesh  # noqa: E402
from quadq.surface import irregular_counts  # noqa: E402

SHARES = (2, 4, 8, 16)
ITERATIONS = {2: 1, 4: 2, 8: 3, 16: 4}
"""How often Decimate takes out each second line."""
SECONDS = 600
PIPE = """
r = 0.5; Point(1) = {0, 0, 0}; Point(2) = {r, 0, 0}; Point(3) = {0, r, 0}; Point(4) = {-r, 0, 0};
Point(5) = {0, -r, 0}; Circle(1) = {2, 1, 3}; Circle(2) = {3, 1, 4}; Circle(3) = {4, 1, 5}; Circle(4) = {5, 1, 2};
Transfinite Curve {1:4} = 13;
bend() = Extrude { {0, 1, 0}, {2, 0, 0}, Pi/2 } { Curve{1:4}; Layers{32}; Recombine; };
Extrude {4, 0, 0} { Curve{bend(0), bend(4), bend(8), bend(12)}; Layers{32}; Recombine; }
"""
"""A pipe of gmsh, bent by a right angle and then straight."""
HEAD = ("mesh", "way", "wished", "faces", "mean", "greatest", "least J", "mean J", "inverted", "irregular")
FORM = "{:<26} {:<10} {:>7} {:>7} {:>8} {:>9} {:>7} {:>7} {:>8} {:>9}"


def measured(old, new, wished):
    """The figures of a new mesh beside those of the old one."""
    quads = new if new.is_quads() else quadq.subdivide(new)
    diagonal = float(np.linalg.norm(np.ptp(old.points[old.used], axis=0)))
    ways = quadq.distance_between(quads, old), quadq.distance_between(old, quads)
    shapes = quadq.scaled_jacobians(new.faces_of(np.flatnonzero(new.sides == 4))[0])
    return [wished, new.face_count, round(500 * sum(it.mean for it in ways) / diagonal, 4),
            round(1000 * max(it.greatest for it in ways) / diagonal, 3), round(float(shapes.min(initial=1)), 3),
            round(float(shapes.mean()), 3), int((shapes < 0).sum()), sum(irregular_counts(quads))]


def made(folder):
    """The paths of the meshes that are made."""
    folder.mkdir(parents=True, exist_ok=True)
    script = ["blender", "--background", "--factory-startup", "--python", f"{ROOT}/bench/blender_meshes.py", "--"]
    subprocess.run([*script, folder], stdout=subprocess.DEVNULL, stderr=subprocess.DEVNULL, check=True)
    (folder / "pipe.geo").write_text(PIPE)
    subprocess.run(["gmsh", "-2", "-v", "1", "pipe.geo", "-o", "pipe.msh"], cwd=folder, stdout=subprocess.DEVNULL,
                   check=True)
    quadq.write(str(folder / "pipe.obj"), quadq.read(str(folder / "pipe.msh")))
    return [folder / f"{name}.obj" for name in ("ball", "monkey", "pipe")]


def least_faces(old):
    """The fewest faces that a cut of the mesh has, traced or merged, with all arcs at the floor."""
    found = []
    for coarse in (False, True):
        try:
            found.append(quadq.remesh(old, scale="1/1000", coarse=coarse).mesh.face_count)
        except quadq.Refusal as said:
            print(f"the fewest faces: {said}", file=sys.stderr)
    return min(found, default=0)


def by_quadq(old, wished, mode):
    try:
        return quadq.remesh(old, faces=wished, mode=mode).mesh
    except quadq.Refusal as said:
        print(f"quadq {mode} at {wished}: {said}", file=sys.stderr)
        return None


def by_blender(mesh, counts, folder):
    """The meshes that Blender makes, by way and wished number."""
    words = ["blender", "--background", "--factory-startup", "--python", f"{ROOT}/bench/remeshers.py", "--", mesh,
             folder, ",".join(map(str, counts.values())), ",".join(map(str, ITERATIONS.values()))]
    try:
        subprocess.run(words, stdout=subprocess.DEVNULL, stderr=subprocess.DEVNULL, timeout=SECONDS, check=False)
    except subprocess.TimeoutExpired:
        print(f"Blender took more than {SECONDS} s for {mesh}", file=sys.stderr)
    found = {}
    for share, count in counts.items():
        for way, path in (("quadriflow", f"quadriflow-{count}"), ("decimate", f"decimate-{ITERATIONS[share]}")):
            if os.path.exists(f"{folder}/{path}.obj"):
                found[way, share] = quadq.read(f"{folder}/{path}.obj", polygons=True)
    return found


def rows_of(path, with_blender):
    old = quadq.read(str(path))
    counts = {share: max(1, round(old.face_count / share)) for share in SHARES}
    with tempfile.TemporaryDirectory() as folder:
        others = by_blender(str(path), counts, folder) if with_blender else {}
    for share, wished in counts.items():
        made = {mode: by_quadq(old, wished, mode) for mode in ("scale", "shape")}
        made.update({way: others[way, share] for way in ("quadriflow", "decimate") if (way, share) in others})
        for way, new in made.items():
            if isinstance(new, Mesh) and new.face_count:
                yield [name_of(path), way, *measured(old, new, wished)]


def is_met(row):
    """Whether the number of faces is met within a hundredth."""
    return abs(row[3] - row[2]) <= 0.01 * row[2]


def summary(rows, least):
    """How shape does beside scale, and how often numbers are met; the fewest faces that each mesh can have are known.
    """
    possible = [it[0:1] + it[2:3] for it in rows if is_met(it) or least[it[0]] <= 1.01 * it[2]]
    by_way = {}
    for it in rows:
        by_way.setdefault(it[1], {})[it[0], it[2]] = it
    for way, some in by_way.items():
        allowed = sum(it[0:1] + it[2:3] in possible for it in some.values())
        print(f"{way}: {sum(map(is_met, some.values()))} of {len(some)} within a hundredth; a cut allows {allowed}")
    both = [(it, by_way["shape"][key]) for key, it in by_way.get("scale", {}).items() if key in by_way.get("shape", {})]
    changed = [(a, b) for a, b in both if a[5] > 0 and a[0:1] + a[2:3] in possible]
    print(f"shape is nearer in {sum(b[5] < a[5] for a, b in changed)} of the {len(changed)} rows that a cut allows and "
          "where one scale is not exact")
    print(f"shape: inverted no more in {sum(b[8] <= a[8] for a, b in both)}, nearer or as near at most in "
          f"{sum(b[5] <= a[5] for a, b in both)}, on average in {sum(b[4] <= a[4] for a, b in both)} of {len(both)}")


def show_table(rows):
    """The rows in Markdown, a column a way."""
    ways = ("scale", "shape", "quadriflow", "decimate")
    cells = {}
    for name, way, wished, faces, mean, greatest, least, jacobian, inverted, irregular in rows:
        cells.setdefault((name, wished), {})[way] = (
            f"{faces}; {mean:.3g}, {greatest:.3g}; {least:.2f}, {jacobian:.2f}; {inverted}; {irregular}")
    print("| mesh, wished | one scale | `--faces` | QuadriFlow | Decimate |\n|---|---|---|---|---|")
    for (name, wished), by_way in cells.items():
        print(f"| {name}, {wished} |", " | ".join(by_way.get(way, "-") for way in ways), "|")


def main():
    parser = argparse.ArgumentParser(usage=__doc__.partition("usage: ")[2].partition("\n")[0])
    parser.add_argument("meshes", nargs="*", type=pathlib.Path)
    parser.add_argument("--make", type=pathlib.Path, metavar="FOLDER")
    parser.add_argument("--no-blender", action="store_true")
    parser.add_argument("--rows", type=pathlib.Path)
    asked = parser.parse_args()
    print(FORM.format(*HEAD))
    rows, least = [], {}
    for mesh in [*asked.meshes, *(made(asked.make) if asked.make else [])]:
        least[name_of(mesh)] = least_faces(quadq.read(str(mesh)))
        for row in rows_of(mesh, not asked.no_blender):
            rows.append(row)
            print(FORM.format(*map(str, row)), flush=True)
    summary(rows, least)
    show_table(rows)
    if asked.rows:
        with asked.rows.open("w", newline="") as file:
            csv.writer(file).writerows([HEAD, *rows])


if __name__ == "__main__":
    main()
