#!/usr/bin/env python3
"""Draws what `quadq remesh` and `quadq crease` make of a mesh, beside each other. In each mesh the edges are red whose
faces meet at more than an angle, as tools/mark_features.py marks them, and no other thing is red; with --kept those
that `crease` was to keep, and no other thing.

usage: docs/pictures/draw_features.py MESH.obj SCALE [--angle DEGREES] [--by K] [--three] [--kept]
           [OPTIONS of tools/draw_graph.py] >picture.svg

With --three the mesh itself stands first, and with --by each of its edges is divided in K before. QUADQ may name the
program; if not, it is dist/quadq. docs/pictures/features_block.svg is examples/boss.obj at 2/3 with `--by 4 --up y
--from 1,1.3,1 --wide 560`.
"""

import argparse
import os
import pathlib
import re
import subprocess
import sys
import tempfile

ROOT = pathlib.Path(__file__).resolve().parent.parent.parent
PROGRAM = os.environ.get("QUADQ", str(ROOT / "dist/quadq"))
GAP = 16


def ran(words, out, source=None):
    """Runs a command into a file."""
    with open(out, "wb") as target, open(source or os.devnull, "rb") as text:
        subprocess.run(list(map(str, words)), stdin=text, stdout=target, stderr=subprocess.DEVNULL, check=True)


def tool(name, *words):
    return [sys.executable, ROOT / "tools" / name, *words]


def bent(mesh, angle, room):
    """The mesh with `l` lines at the edges that bend, and at no other."""
    plain, marked = room / "plain.obj", room / f"bent_{mesh.name}"
    plain.write_text("".join(it for it in mesh.read_text().splitlines(True) if not it.startswith("l ")))
    ran(tool("mark_features.py", "--angle", angle, "--no-corners", plain), marked)
    return marked


def panels(words, options, room):
    """The SVGs, from left to right."""
    mesh, marked, svg = room / "mesh.obj", room / "marked.obj", room / "out.svg"
    traced, creased = room / "traced.txt", room / "creased.txt"
    asked = ["--scale", words.scale, "--floor", words.floor, "--weight", "plain"]
    ran([PROGRAM, "refine", "--by", words.by], mesh, words.mesh)
    ran(tool("mark_features.py", "--angle", words.angle, mesh), marked)
    for kept, cut, source in (("none", traced, mesh), ("lines", creased, marked)):
        ran([PROGRAM, "layout", "--keep", kept, "--patches", "traced"], cut, source)
    ran([PROGRAM, "remesh", *asked], room / "remesh.obj", mesh)
    ran([PROGRAM, "crease", *asked], room / "crease.obj", marked)
    shown = {it: it if words.kept else bent(it, words.angle, room) for it in room.glob("*.obj")}
    pictures = [[shown[marked], traced]] if words.three else []
    for old, cut, made in ((mesh, traced, room / "remesh.obj"), (marked, creased, room / "crease.obj")):
        pictures.append([old, cut, "--written", shown[made]])
    for picture in pictures:
        ran(tool("draw_graph.py", *picture, *options), svg)
        yield svg.read_text()


def main():
    parser = argparse.ArgumentParser(description=__doc__, formatter_class=argparse.RawDescriptionHelpFormatter)
    parser.add_argument("mesh", type=pathlib.Path)
    parser.add_argument("scale")
    parser.add_argument("--angle", default="30", metavar="DEGREES")
    parser.add_argument("--by", default="1", metavar="K")
    parser.add_argument("--floor", default="1")
    parser.add_argument("--three", action="store_true")
    parser.add_argument("--kept", action="store_true")
    words, options = parser.parse_known_args()
    with tempfile.TemporaryDirectory() as room:
        drawn = list(panels(words, options, pathlib.Path(room)))
    sizes = [tuple(map(int, re.search(r'width="(\d+)" height="(\d+)"', it).groups())) for it in drawn]
    wide, high = sum(it[0] for it in sizes) + GAP * (len(sizes) - 1), max(it[1] for it in sizes)
    print(f'<svg xmlns="http://www.w3.org/2000/svg" width="{wide}" height="{high}" viewBox="0 0 {wide} {high}">')
    print(f'<rect width="{wide}" height="{high}" fill="white"/>')
    left = 0
    for svg, size in zip(drawn, sizes):
        print(svg.replace("<svg ", f'<svg x="{left}" ', 1))
        left += size[0] + GAP
    print("</svg>")


main()
