#!/usr/bin/env python3
"""Measures `quadq refine` against plain C++: wall time and peak memory of a run, their ratios, and the bytes of memory
for each new face. Where Blender is installed, its simple scheme divides the first mesh too."""
import os
import shutil
import subprocess
import tempfile

from measuring import best, count_lines, measured, program

HERE = os.path.dirname(os.path.realpath(__file__))
ROUNDS = 5
# Each mesh as the words of the script that makes it, and the multiple.
MESHES = [
    ("a grid of 500 by 500, as Blender writes it", ["grid.py", "500", "blender"], 2),
    ("a cube of 41 by 41 faces a side", ["meshes", "cube", "41"], 10),
    ("a grid of 100 by 100", ["grid.py", "100"], 10),
    ("a terrain of voxels, 41 by 41 columns", ["meshes", "voxels", "41"], 10),
]


def show_blender(text, room):
    """A row for Blender, which reads the mesh, divides each face in four and writes it."""
    blender = shutil.which("blender")
    if blender is None:
        print("Blender is not installed")
        return
    words = [blender, "--background", "--factory-startup", "--python-exit-code", "1"]
    words += ["--python", f"{HERE}/subdivide.py", "--", text, f"{room}/divided.obj"]
    seconds, megabytes = measured(words, text, f"{room}/told")
    faces = count_lines(f"{room}/divided.obj", b"f")
    print(f"{'the same in Blender':<44}{2:>4}{faces:>11}{seconds:>9.3f}{megabytes:>6.0f}")


def main():
    with tempfile.TemporaryDirectory() as room:
        for name in ("refine", "meshes"):
            command = ["g++", "-O2", "-std=c++20", "-o", f"{room}/{name}", f"{HERE}/{name}.cpp"]
            subprocess.run(command, check=True)
        head = f"{'mesh':<44}{'by':>4}{'new faces':>11}{'quadq s':>9}{'MB':>6}{'C++ s':>8}"
        head += f"{'MB':>6}{'time':>7}{'memory':>8}"
        print(f"{head}{'bytes a face':>14}")
        for title, words, by in MESHES:
            text = f"{room}/mesh.obj"
            with open(text, "wb") as out:
                maker = f"{HERE}/{words[0]}" if words[0].endswith(".py") else f"{room}/{words[0]}"
                subprocess.run([maker, *words[1:]], stdout=out, check=True)
            programs = [
                ("quadq", [program(), "refine", "--by", str(by)]),
                ("plain C++", [f"{room}/refine", str(by)]),
            ]
            least, outputs = best(programs, text, room, ROUNDS)
            (ours, ours_mb), (peer, peer_mb) = least["quadq"], least["plain C++"]
            faces = count_lines(f"{room}/out", b"f")
            row = f"{title:<44}{by:>4}{faces:>11}{ours:>9.3f}{ours_mb:>6.0f}{peer:>8.3f}{peer_mb:>6.0f}"
            row += f"{ours / peer:>7.2f}{ours_mb / peer_mb:>8.2f}{ours_mb * 2**20 / faces:>14.0f}"
            print(row if len(set(outputs.values())) == 1 else f"{row}  OTHER BYTES")
            if by == 2:
                show_blender(text, room)


main()
