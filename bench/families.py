#!/usr/bin/env python3
"""Measures quadq on families of meshes on which its solver or the merging of patches has the most to do, at three
sizes each, so that a family whose time or memory grows faster than its meshes is seen.

usage: bench/families.py [--against PROGRAM] [NAME..]     NAME: these families alone
       bench/families.py --memory                         the bound of memory, on the meshes that come nearest to it

Seconds are of the processor, the least of some runs, and the exponent is that of the time between the two larger sizes:
1 where twice the faces take twice the time. With --against another program runs by turns with quadq, and a last column
has quadq's seconds by its own. QUADQ may name the program, which is dist/quadq else. The meshes are those of
bench/meshes.cpp (with g++).

The bound of memory is by the faces and by the tangle, which status 9 tells where it is too great: sixteen times the sum
of the squares of how many arcs meet each direction of each patch. With --memory the status is 1 where a run passes it.
"""
import argparse
import math
import os
import subprocess
import sys
import tempfile
from typing import NamedTuple

from measuring import ROOT, count_lines, program, taken

ROUNDS = 3


class Family(NamedTuple):
    """Meshes of three sizes, and what is done with them."""
    mesh: str
    sizes: tuple[str, str, str]
    words: str


FAMILIES = {
    "floors": Family("torus {} 20", ("126", "252", "500"), "remesh --scale 1/1 --floor 3 --weight length"),
    "lengths": Family("torus {} 4", ("126", "252", "357"), "size --edge 130 --floor 1"),
    "hills": Family("hills {}", ("80", "112", "160"), "coarse --scale 1/2 --floor 1 --weight plain"),
    "hills by length": Family("hills {}", ("56", "80", "112"), "coarse --scale 1/2 --floor 1 --weight length"),
    "combs": Family("comb {}", ("10667", "42667", "85333"), "coarse --scale 1/2 --floor 1 --weight plain"),
    "combs, cut alone": Family("comb {}", ("10667", "42667", "85333"), "graph"),
    "fans": Family("fan {}", ("60000", "120000", "240000"), "remesh --scale 7/1 --floor auto --weight length"),
}
# What takes the most memory by its faces and its tangle.
HEAVIEST = [
    ("fan 240000", "remesh --scale 7/1 --floor auto --weight length"),
    ("steps 8000", "remesh --scale 1/1 --floor 3 --weight plain"),
    ("voxels 100", "remesh --scale 7/2 --floor 1 --weight plain"),
    ("plate 684", "remesh --scale 1/1 --floor 3 --weight plain"),
    ("hills 112", "remesh --scale 7/2 --floor 2 --weight length"),
    ("torus 126 4", "size --edge 30 --floor 1"),
    ("torus 252 4", "size --edge 130 --floor 1"),
    ("torus 252 20", "remesh --scale 1/1 --floor 3 --weight length"),
    ("holes 1024 1024", "remesh --scale 1/2 --floor auto --weight plain"),
]
# The bound: so many megabytes, and bytes for each face and for each of the tangle.
AT_FIRST, A_FACE, A_TANGLE = 16, 250, 48
HEAD = "| family | faces | new faces | seconds | exponent | s a million faces | MB | bytes a face |"


def made(words, room):
    """The path of a mesh that bench/meshes.cpp writes."""
    path = f"{room}/{words.replace(' ', '_')}.obj"
    if not os.path.exists(path):
        with open(path, "wb") as out:
            subprocess.run([f"{room}/meshes", *words.split()], stdout=out, check=True)
    return path


def least(programs, words, mesh, out):
    """The least seconds and the megabytes of each program, by turns, and the status of the first."""
    best = [(math.inf, 0.0)] * len(programs)
    status = 0
    for _ in range(ROUNDS):
        for number, path in enumerate(programs):
            _, seconds, megabytes, ended = taken([path, *words.split()], mesh, out)
            best[number] = min(best[number], (seconds, megabytes))
            status = ended if number == 0 else status
    return best, status


def rows(name, programs, room):
    """The rows of a family, smallest mesh first."""
    family, before = FAMILIES[name], None
    for size in family.sizes:
        mesh = made(family.mesh.format(size), room)
        best, status = least(programs, family.words, mesh, f"{room}/out")
        faces, (seconds, megabytes) = count_lines(mesh, b"f "), best[0]
        new_faces = count_lines(f"{room}/out", b"f ") if status == 0 else f"status {status}"
        grown = math.log(seconds / before[1]) / math.log(faces / before[0]) if before and before[1] else None
        before = (faces, seconds)
        cells = [name, f"{faces:,}", f"{new_faces:,}" if status == 0 else new_faces, f"{seconds:.2f}",
                 "" if grown is None else f"{grown:.2f}", f"{seconds / faces * 1e6:.1f}", f"{megabytes:.0f}",
                 f"{megabytes * 2**20 / faces:.0f}"]
        if len(best) > 1:
            cells.append(f"{seconds / best[1][0]:.2f}")
        yield "| " + " | ".join(cells) + " |"


def tangle_of(text):
    """Sixteen times the sum of the squares of how many arcs meet each direction of each patch of a graph text."""
    squares = many = 0
    for line in text.splitlines():
        word, _, arcs = line.partition(b" ")
        if word in (b"south", b"east"):
            many = len(arcs.split())
        elif word in (b"north", b"west"):
            squares += (many + len(arcs.split())) ** 2
    return 16 * squares


def hold_memory(quadq, room):
    """Whether each of the heaviest runs keeps the bound of memory."""
    print("| mesh | faces | tangle | MB | the bound |\n|---|---|---|---|---|")
    is_kept = True
    for name, words in HEAVIEST:
        mesh = made(name, room)
        with open(mesh, "rb") as text:
            graph = subprocess.run([quadq, "graph"], stdin=text, stdout=subprocess.PIPE, check=True).stdout
        faces, tangle = count_lines(mesh, b"f "), tangle_of(graph)
        _, _, megabytes, _ = taken([quadq, *words.split()], mesh, f"{room}/out")
        most = AT_FIRST + (A_FACE * faces + A_TANGLE * tangle) / 2**20
        is_kept = is_kept and megabytes <= most
        print(f"| {name}, `{words}` | {faces:,} | {tangle:,} | {megabytes:.0f} | {most:.0f} |", flush=True)
    return is_kept


def main():
    parser = argparse.ArgumentParser(description=__doc__, formatter_class=argparse.RawDescriptionHelpFormatter)
    parser.add_argument("--against")
    parser.add_argument("--memory", action="store_true")
    parser.add_argument("names", nargs="*", metavar="NAME", help=", ".join(FAMILIES))
    chosen = parser.parse_args()
    programs = [program()] + ([chosen.against] if chosen.against else [])
    with tempfile.TemporaryDirectory() as room:
        subprocess.run(["g++", "-O2", "-std=c++20", "-o", f"{room}/meshes", f"{ROOT}/bench/meshes.cpp"], check=True)
        if chosen.memory:
            sys.exit(0 if hold_memory(programs[0], room) else 1)
        print(HEAD + (" by the other |" if chosen.against else ""))
        print("|---" * (9 if chosen.against else 8) + "|")
        for name in chosen.names or FAMILIES:
            for row in rows(name, programs, room):
                print(row, flush=True)


if __name__ == "__main__":
    main()
