#!/usr/bin/env python3
"""Measures `quadq graph` on four meshes against plain C++: wall time and peak memory of a run, their ratios, and the
time with twice the faces by the time before."""
import os
import subprocess
import tempfile

from measuring import best, count_lines, program

HERE = os.path.dirname(os.path.realpath(__file__))
ROUNDS = 5
# Each mesh with half its faces, and whole.
MESHES = [
    ("holes", ["1024", "512"], ["1024", "1024"]),
    ("cube", ["283"], ["400"]),
    ("voxels", ["182"], ["258"]),
    ("grid", ["1024", "512"], ["1024", "1024"]),
]


def main():
    with tempfile.TemporaryDirectory() as room:
        for name in ("graph", "meshes"):
            command = ["g++", "-O2", "-std=c++20", "-o", f"{room}/{name}", f"{HERE}/{name}.cpp"]
            subprocess.run(command, check=True)
        programs = [("quadq", [program(), "graph"]), ("plain C++", [f"{room}/graph"])]
        head = f"{'mesh':<8}{'faces':>9}{'quadq s':>9}{'MB':>6}{'C++ s':>8}{'MB':>6}{'time':>7}{'memory':>8}"
        print(f"{head}{'doubled':>9}")
        for mesh, half, whole in MESHES:
            before = None
            for size in (half, whole):
                text = f"{room}/mesh.obj"
                with open(text, "wb") as out:
                    subprocess.run([f"{room}/meshes", mesh, *size], stdout=out, check=True)
                faces = count_lines(text, b"f")
                least, outputs = best(programs, text, room, ROUNDS)
                (ours, ours_mb), (peer, peer_mb) = least["quadq"], least["plain C++"]
                row = f"{mesh:<8}{faces:>9}{ours:>9.3f}{ours_mb:>6.0f}{peer:>8.3f}{peer_mb:>6.0f}"
                row += f"{ours / peer:>7.2f}{ours_mb / peer_mb:>8.2f}"
                row += f"{ours / before:>9.2f}" if before else ""
                print(row if len(set(outputs.values())) == 1 else f"{row}  OTHER BYTES")
                before = ours


main()
