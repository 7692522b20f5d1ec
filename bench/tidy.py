#!/usr/bin/env python3
"""Measures `quadq tidy` on a grid of 1,048,576 faces against its peers: wall time and peak memory, as ratios."""
import os
import subprocess
import tempfile

from measuring import best, measured, program

HERE = os.path.dirname(os.path.realpath(__file__))
ROUNDS = 7


def table(title, programs, text, room):
    """One row a program: the best of some rounds, taken by turns, and the ratios of the first to each."""
    least, outputs = best(programs, text, room, ROUNDS)
    print(f"{title}, {os.path.getsize(text) / 1e6:.0f} MB, best of {ROUNDS}")
    print(f"{'program':<28}{'seconds':>9}{'MB':>7}{'time ratio':>12}{'memory ratio':>14}")
    ours = least[programs[0][0]]
    for name, _ in programs:
        seconds, megabytes = least[name]
        print(f"{name:<28}{seconds:>9.3f}{megabytes:>7.0f}{ours[0] / seconds:>12.2f}{ours[1] / megabytes:>14.2f}")
    same = outputs[programs[0][0]] == outputs[programs[1][0]]
    print("the first two wrote the same bytes" if same else "THE FIRST TWO WROTE OTHER BYTES")
    print()


def openmesh(program, text, room):
    """One run of OpenMesh on the last grid, where Debian's libopenmesh-dev is there to build it."""
    libraries = ["-lOpenMeshCore", "-lOpenMeshTools"]
    built = subprocess.run(["g++", "-O2", "-o", program, f"{HERE}/openmesh.cpp", *libraries], capture_output=True)
    if built.returncode != 0:
        print("OpenMesh: not measured, since Debian's libopenmesh-dev is not installed")
        return
    seconds, megabytes = measured([program, text, f"{room}/openmesh.obj"], text, f"{room}/out")
    print(f"{'OpenMesh, one run':<28}{seconds:>9.3f}{megabytes:>7.0f}")


def main():
    quadq = [program(), "tidy"]
    with tempfile.TemporaryDirectory() as room:
        peer = f"{room}/tidy"
        subprocess.run(["g++", "-O2", "-std=c++20", "-o", peer, f"{HERE}/tidy.cpp"], check=True)
        programs = [("quadq tidy", quadq), ("plain C++", [peer]), ("plain C++, no mesh check", [peer, "unchecked"])]
        for title, style in [("plain lines", []), ("as Blender writes it", ["blender"])]:
            grid = f"{room}/grid.obj"
            with open(grid, "wb") as out:
                subprocess.run([f"{HERE}/grid.py", "1024", *style], stdout=out, check=True)
            table(f"grid of 1,048,576 faces, {title}", programs, grid, room)
        openmesh(f"{room}/openmesh", grid, room)


main()
