#!/usr/bin/env python3
"""Draws meshes of examples/ with their patches, alone or beside what quadq makes of them.

usage: docs/pictures/draw_anew.py [NAME..]

It writes those of the SVGs below that are named, or all of them, beside this file. QUADQ may name the program; if not,
it is dist/quadq.
"""

import os
import pathlib
import re
import subprocess
import sys
import tempfile

ROOT = pathlib.Path(__file__).resolve().parent.parent.parent
PROGRAM = os.environ.get("QUADQ", str(ROOT / "dist/quadq"))
GAP = 20
ASIDE = ["--from", "0.5,-1.6,1.3", "--wide", "420"]
# Each picture of one mesh: its patches, those before if it shows both, and how it is seen.
ALONE = {
    "letter_q": ("letter_q", "traced", None, ["--from", "0.5,-1.6,1.3", "--wide", "480"]),
    "merged": ("letter_q", "merged", "traced", ["--wide", "420"]),
    "mug_patches": ("mug", "traced", None, ["--from", "0.75,1,1.9", "--up", "y", "--wide", "520"]),
}
# Each picture of a mesh beside what a command makes of it.
BESIDE = {
    "refined": ("notched_square", ["refine", "--by", "3"]),
    "remeshed": ("letter_q", ["remesh", "--scale", "1/2", "--floor", "auto", "--weight", "plain"]),
}


def ran(words, mesh):
    return subprocess.run([PROGRAM, *words], input=mesh, capture_output=True, check=True).stdout


def drawn(mesh, patches, before, options):
    """The SVG of a mesh with a cut."""
    with tempfile.TemporaryDirectory() as room:
        files = {"mesh.obj": mesh}
        files |= {it: ran(["layout", "--keep", "none", "--patches", it], mesh) for it in (patches, before) if it}
        for name, text in files.items():
            (pathlib.Path(room) / name).write_bytes(text)
        words = [sys.executable, str(ROOT / "tools/draw_graph.py"), "mesh.obj", patches, *options]
        words += ["--before", before] if before else []
        return subprocess.run(words, capture_output=True, text=True, check=True, cwd=room).stdout


def beside(mesh, command):
    """The SVG of a mesh with that of what a command makes of it."""
    both = [drawn(text, "traced", None, ASIDE) for text in (mesh, ran(command, mesh))]
    sizes = [tuple(map(int, re.search(r'width="(\d+)" height="(\d+)"', it).groups())) for it in both]
    wide, high = sum(it[0] for it in sizes) + GAP, max(it[1] for it in sizes)
    lines = [f'<svg xmlns="http://www.w3.org/2000/svg" width="{wide}" height="{high}" viewBox="0 0 {wide} {high}">']
    lines.append(f'<rect width="{wide}" height="{high}" fill="white"/>')
    lines += [svg.replace("<svg ", f'<svg x="{at}" ', 1) for at, svg in zip((0, sizes[0][0] + GAP), both)]
    return "\n".join([*lines, "</svg>", ""])


def main():
    for name in sys.argv[1:] or [*ALONE, *BESIDE]:
        example, *how = (ALONE | BESIDE)[name]
        mesh = (ROOT / f"examples/{example}.obj").read_bytes()
        svg = beside(mesh, *how) if name in BESIDE else drawn(mesh, *how)
        (ROOT / f"docs/pictures/{name}.svg").write_text(svg)


main()
