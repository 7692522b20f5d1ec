#!/usr/bin/env python3
"""Compares `quadq remesh` and `quadq coarse` at half the scale and floor 1 on meshes: patches and arcs, faces of the
new mesh and the deviation of its lengths.

usage: bench/coarse.py [--times] MESH.obj..

With --times it prints instead the time of `graph`, and that of `remesh` and `coarse` at half the scale and at scale
1/1, where no length is looked for, so that the rest is seen: seconds of the processor, the least of some runs by turns,
on these meshes and on a terrain of voxels that bench/meshes.cpp makes (with g++). It wants a calm machine. QUADQ may
name the program, which is dist/quadq else.
"""
import pathlib
import subprocess
import sys
import tempfile

from measuring import ROOT, count_lines, name_of, program, run, taken

sys.path.insert(0, f"{ROOT}/tools")
from draw_graph import read_cut, read_lengths  # noqa: E402

ROUNDS = 5
COLUMNS = 258
"""Of the terrain: it has some 200,000 faces."""
OPTIONS = ["--scale", "1/2", "--floor", "1", "--weight", "plain"]
HEAD = "| mesh | faces | patches | arcs | new faces | deviation |"
SAME = ["--scale", "1/1", *OPTIONS[2:]]
RUNS = (["graph"], ["remesh", *OPTIONS], ["coarse", *OPTIONS], ["remesh", *SAME], ["coarse", *SAME])
TIMES_HEAD = "| mesh | faces | `graph` s | MB | `remesh` 1/2 s | MB | `coarse` 1/2 s | MB | `remesh` 1/1 s | MB " \
             "| `coarse` 1/1 s | MB | by `graph` |"


def told(command, patches, mesh, room):
    """Cells: patches, arcs, and, where a mesh was written, its faces and the deviation of its lengths; or None for a
    mesh that quadq does not take."""
    layout, out = room / "layout.txt", room / "out.obj"
    if run([program(), "layout", "--keep", "none", "--patches", patches], mesh, layout)[2] != 0:
        return None
    cut = read_cut(layout)
    old = cut.old_lengths()
    status = run([program(), command, *OPTIONS], mesh, out)[2]
    if status != 0:
        return [len(cut.sides), len(old), f"status {status}", f"status {status}"]
    deviation = sum(abs(2 * new - length) for new, length in zip(read_lengths(out), old, strict=True))
    return [len(cut.sides), len(old), count_lines(out, b"f "), deviation]


def row(mesh, room):
    """What merging changes, or None for a mesh that quadq does not take."""
    before, after = told("remesh", "traced", mesh, room), told("coarse", "merged", mesh, room)
    if before is None or after is None:
        return None
    pairs = zip(before, after)
    return [name_of(mesh), count_lines(mesh, b"f "), *(f"{a} to {b}" if a != b else a for a, b in pairs)]


def timed(name, mesh, room):
    """The least seconds of the processor and megabytes of each run, and the last time by the first."""
    runs = [[taken([program(), *words], mesh, room / "out")[1:] for words in RUNS] for _ in range(ROUNDS)]
    if runs[0][0][2] != 0:
        return None
    least = [tuple(map(min, zip(*turns))) for turns in zip(*runs)]
    cells = [cell for seconds, megabytes, status in least
             for cell in (f"{seconds:.3f}" + (f" (status {status})" if status else ""), f"{megabytes:.0f}")]
    return [name, count_lines(mesh, b"f"), *cells, f"{least[-1][0] / max(least[0][0], 1e-9):.1f}"]


def terrain(room):
    """A mesh where each inner vertex is irregular."""
    maker, mesh = room / "meshes", room / "terrain.obj"
    subprocess.run(["g++", "-O2", "-std=c++20", "-o", maker, f"{ROOT}/bench/meshes.cpp"], check=True)
    with open(mesh, "wb") as out:
        subprocess.run([maker, "voxels", str(COLUMNS)], stdout=out, check=True)
    return mesh


def main():
    are_timed = "--times" in sys.argv
    meshes = [pathlib.Path(it) for it in sys.argv[1:] if it != "--times"] or sys.exit(__doc__)
    head = TIMES_HEAD if are_timed else HEAD
    print(head)
    print("|" + "---|" * (head.count("|") - 1))
    with tempfile.TemporaryDirectory() as folder:
        room = pathlib.Path(folder)
        rows = (timed(name_of(it), it, room) if are_timed else row(it, room) for it in meshes)
        for cells in rows:
            if cells is not None:
                print("|", " | ".join(map(str, cells)), "|", flush=True)
        if are_timed:
            print("|", " | ".join(map(str, timed("terrain of voxels", terrain(room), room))), "|")


main()
