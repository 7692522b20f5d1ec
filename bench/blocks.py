#!/usr/bin/env python3
"""Measures `quadq blocks` beside `quadq refine` with the same number: the points that it writes, seconds of the
processor and peak memory of a run, the least of five by turns, their ratios, and the nanoseconds for each byte of
output."""
import os
import subprocess
import tempfile

from measuring import program, taken

HERE = os.path.dirname(os.path.realpath(__file__))
ROUNDS = 5
# Each mesh as the words of the script that makes it, and the number.
MESHES = [
    ("a grid of 500 by 500, as Blender writes it", ["grid.py", "500", "blender"], 2),
    ("a cube of 41 by 41 faces a side", ["meshes", "cube", "41"], 10),
    ("a grid of 100 by 100", ["grid.py", "100"], 14),
    ("a terrain of voxels, 41 by 41 columns", ["meshes", "voxels", "41"], 10),
    ("a terrain of voxels, 100 by 100 columns", ["meshes", "voxels", "100"], 1),
]


def count_points(path):
    """How many lines of a text of blocks are points."""
    with open(path, "rb") as lines:
        return sum(line[:1] in b"-0123456789" for line in lines)


def least_of_both(by, text, room):
    """The least seconds of the processor and megabytes of both commands, and how many bytes each wrote."""
    runs = {"blocks": [], "refine": []}
    for _ in range(ROUNDS):
        for command, figures in runs.items():
            _, seconds, megabytes, status = taken([program(), command, "--by", str(by)], text, f"{room}/{command}")
            if status != 0:
                raise SystemExit(f"{command} ended with {status}")
            figures.append((seconds, megabytes))
    return [
        (min(it[0] for it in figures), min(it[1] for it in figures), os.path.getsize(f"{room}/{command}"))
        for command, figures in runs.items()
    ]


def main():
    with tempfile.TemporaryDirectory() as room:
        subprocess.run(["g++", "-O2", "-std=c++20", "-o", f"{room}/meshes", f"{HERE}/meshes.cpp"], check=True)
        head = f"{'mesh':<44}{'by':>4}{'blocks':>9}{'points':>10}{'blocks s':>10}{'MB':>6}{'refine s':>10}"
        print(f"{head}{'MB':>6}{'time':>7}{'memory':>8}{'ns a byte':>11}{'of refine':>11}")
        for title, words, by in MESHES:
            text = f"{room}/mesh.obj"
            with open(text, "wb") as out:
                maker = f"{HERE}/{words[0]}" if words[0].endswith(".py") else f"{room}/{words[0]}"
                subprocess.run([maker, *words[1:]], stdout=out, check=True)
            (ours, ours_mb, ours_size), (peer, peer_mb, peer_size) = least_of_both(by, text, room)
            with open(f"{room}/blocks", encoding="ascii") as told:
                blocks = [next(told), next(told)][1].split()[1]
            row = f"{title:<44}{by:>4}{blocks:>9}{count_points(f'{room}/blocks'):>10}{ours:>10.3f}{ours_mb:>6.0f}"
            row += f"{peer:>10.3f}{peer_mb:>6.0f}{ours / peer:>7.2f}{ours_mb / peer_mb:>8.2f}"
            print(f"{row}{ours * 1e9 / ours_size:>11.1f}{peer * 1e9 / peer_size:>11.1f}", flush=True)


main()
