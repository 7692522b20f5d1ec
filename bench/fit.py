#!/usr/bin/env python3
"""Measures `quadq fit` beside `remesh`, `crease`, `coarse` and `size`, which are points of it, by turns in one run, and
`layout` beside `graph`, `grids` beside `blocks`, and `fit` with wished spacing beside even: seconds of the processor,
the least of some runs, and their ratio. `fit` has to write what the other command writes, but for the head line; else
the script ends with an error.

usage: bench/fit.py [FILE.obj..]

It measures a cube and a grid with holes of a million faces, and a terrain of voxels, which bench/meshes.cpp makes (with
g++), and these files. The feature edges are marked by tools/mark_features.py. QUADQ may name the program.
"""
import pathlib
import subprocess
import sys
import tempfile

from measuring import ROOT, count_lines, name_of, program, taken

ROUNDS = 5
MESHES = {
    "a cube of 400 by 400 faces a side": ["cube", "400"],
    "a grid with a hole every 64 faces": ["holes", "1024", "1024"],
    "a terrain of voxels, 64 by 64 columns": ["voxels", "64"],
}
SCALED = ["--scale", "1/2", "--floor", "1", "--weight", "plain"]


def fit(keep, patches, aim, spacing="even"):
    """The words of a point of `fit`."""
    return ["fit", "--keep", keep, "--patches", patches, "--aim", aim, *SCALED[2:], "--spacing", spacing]


TRACED = ["--keep", "none", "--patches", "traced"]
PAIRS = {
    "remesh": (["remesh", *SCALED], fit("none", "traced", "scale:1/2")),
    "crease": (["crease", *SCALED], fit("lines", "traced", "scale:1/2")),
    "coarse": (["coarse", *SCALED], fit("none", "merged", "scale:1/2")),
    "size": (["size", "--edge", "2.5", "--floor", "1"], fit("none", "traced", "edge:2.5")),
    "layout": (["graph"], ["layout", *TRACED]),
    "grids": (["blocks", "--by", "1"], ["grids", *TRACED, "--by", "1"]),
    "spacing": (fit("none", "traced", "edge:2.5"), fit("none", "traced", "edge:2.5", "wished")),
}
OTHER_TEXTS = {"layout", "grids", "spacing"}


def body(path):
    """A text without its head line."""
    return path.read_bytes().partition(b"\n")[2]


def cell(name, mesh, room):
    """The seconds of both words of a pair, and their ratio."""
    outs = [room / "one", room / "other"]
    rounds = [[taken([program(), *words], mesh, out) for words, out in zip(PAIRS[name], outs, strict=True)]
              for _ in range(ROUNDS)]
    first = rounds[0]
    if {run[3] for run in first} != {0}:
        return f"status {first[0][3]}, {first[1][3]}"
    if name not in OTHER_TEXTS and body(outs[0]) != body(outs[1]):
        sys.exit(f"{mesh}: {name} and fit differ")
    one, other = (min(run[1] for run in runs) for runs in zip(*rounds, strict=True))
    return f"{one:.3f}, {other:.3f}; {other / max(one, 1e-9):.2f}"


def made(room):
    """The meshes that are made, by their names."""
    maker = room / "meshes"
    subprocess.run(["g++", "-O2", "-std=c++20", "-o", maker, f"{ROOT}/bench/meshes.cpp"], check=True)
    for name, words in MESHES.items():
        path = room / f"{words[0]}.obj"
        with path.open("wb") as out:
            subprocess.run([maker, *words], stdout=out, check=True)
        yield name, path


def marked(mesh, room):
    """The mesh with its feature edges marked."""
    path = room / "marked.obj"
    with path.open("wb") as out:
        subprocess.run([sys.executable, f"{ROOT}/tools/mark_features.py", mesh], stdout=out, check=True)
    return path


def main():
    """Prints a row a mesh."""
    print("| mesh | faces |", " | ".join(f"`{name}`" for name in PAIRS), "|")
    print("|" + "---|" * (2 + len(PAIRS)))
    with tempfile.TemporaryDirectory() as folder:
        room = pathlib.Path(folder)
        files = [(name_of(path), path) for path in map(pathlib.Path, sys.argv[1:])]
        for name, path in [*made(room), *files]:
            source = marked(path, room)
            cells = (cell(pair, source, room) for pair in PAIRS)
            print("|", name, "|", count_lines(path, b"f"), "|", " | ".join(cells), "|", flush=True)


if __name__ == "__main__":
    main()
