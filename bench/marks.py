#!/usr/bin/env python3
"""Measures `quadq crease` of meshes with two million corners of `l` lines beside `quadq remesh` of the same meshes
without such lines: seconds of the processor, the least of some runs by turns, and peak memory.

usage: bench/marks.py [FOLDER]     FOLDER keeps the texts; QUADQ may name the program, which is dist/quadq else
"""
import pathlib
import sys
import tempfile

from measuring import program, taken

ROUNDS = 3
SIDE = 1024
"""Faces of a row of the grid, and of a column: it has as many faces as quadq reads."""
FAN = 1 << 19
"""Faces of the fan."""
CORNERS = 2_000_000
SETTINGS = ["--scale", "1/2", "--floor", "1", "--weight", "plain"]


def grid(out):
    wide = SIDE + 1
    for y in range(wide):
        out.writelines(f"v {x} {y} 0\n" for x in range(wide))
    for y in range(SIDE):
        row = range(y * wide + 1, y * wide + wide)
        out.writelines(f"f {it} {it + 1} {it + wide + 1} {it + wide}\n" for it in row)


def whole_rows(out):
    """Lines along every second row of the grid, from rim to rim, again and again."""
    wide, left, y = SIDE + 1, CORNERS, 2
    while left > 0:
        out.write("l " + " ".join(map(str, range(y * wide + 1, y * wide + wide + 1))) + "\n")
        left -= wide
        y = y + 2 if y + 2 < SIDE else 2


def single_edges(out):
    """A line for each edge of the rows of the grid, until there are enough."""
    wide, left, y = SIDE + 1, CORNERS, 1
    while left > 0:
        row = range(y * wide + 1, y * wide + wide)
        out.writelines(f"l {it} {it + 1}\n" for it in row)
        left -= 2 * SIDE
        y += 1


def fan(out):
    """Faces around one vertex. Each has its outer corner for itself; remesh and crease refuse so many as tangled."""
    out.write("v 0 0 0\n" * (2 * FAN + 1))
    out.writelines(f"f 1 {2 * it + 2} {2 * it + 3} {2 * ((it + 1) % FAN) + 2}\n" for it in range(FAN))


def spokes(out):
    """A line for each edge at the middle of the fan, again and again."""
    for at in range(CORNERS // 2):
        out.write(f"l 1 {2 * (at % FAN) + 2}\n")


def made(path, *parts):
    """Writes a text of these parts."""
    with open(path, "w") as out:
        for part in parts:
            part(out)
    return path


def row(mesh, lines, room):
    """The least seconds and megabytes of both commands, and the status with which they end."""
    plain = made(room / f"{mesh.__name__}.obj", mesh)
    marked = made(room / f"{mesh.__name__}_{lines.__name__}.obj", mesh, lines)
    runs = [taken([program(), command, *SETTINGS], text, room / "out")[1:]
            for _ in range(ROUNDS) for command, text in (("remesh", plain), ("crease", marked))]
    (remesh, remesh_mb, _), (crease, crease_mb, _) = (tuple(map(min, zip(*runs[at::2]))) for at in (0, 1))
    status = "/".join(sorted({str(it[2]) for it in runs}))
    names = [it.__name__.replace("_", " ") for it in (mesh, lines)]
    return [*names, status, f"{remesh:.2f}", f"{remesh_mb:.0f}", f"{crease:.2f}", f"{crease_mb:.0f}",
            f"{crease / remesh:.2f}"]


def main():
    print("| mesh | lines | status | `remesh` s | MB | `crease` s | MB | time ratio |")
    print("|---|---|---|---|---|---|---|---|")
    with tempfile.TemporaryDirectory() as folder:
        room = pathlib.Path(sys.argv[1] if len(sys.argv) > 1 else folder)
        for mesh, lines in ((grid, whole_rows), (grid, single_edges), (fan, spokes)):
            print("|", " | ".join(row(mesh, lines, room)), "|", flush=True)


main()
