#!/usr/bin/env python3
"""Reads the `l` lines of what `quadq crease` wrote as marks again. At scale 1/1 a second run has to have the same
marked arcs as the first, and at each scale the same marked edges.

usage: bench/crease_twice.py [--angle DEGREES] MESH.obj..

Arcs and edges are compared by the places of their vertices. Of each mesh it prints how many edges are marked, how many
arcs they are and what differs; a mesh that quadq refuses is passed over. The status is 1 where something differs.
QUADQ may name the program, which is dist/quadq else.
"""
import argparse
import collections
import os
import pathlib
import subprocess
import sys

from measuring import ROOT, name_of, program, run

SCALES = ["1/1", "1/2", "3/2"]
DOUBLED = 11


def lines_of(text):
    """The `l` lines of a text, each as the places of its vertices."""
    rows = text.decode().splitlines()
    places = [row[2:] for row in rows if row.startswith("v ")]
    return [[places[int(it) - 1] for it in row.split()[1:]] for row in rows if row.startswith("l ")]


def arcs_of(lines):
    """How often there is each line, whatever its direction."""
    return collections.Counter(min(tuple(line), tuple(line[::-1])) for line in lines)


def edges_of(lines):
    """How often there is each edge of the lines."""
    return collections.Counter(tuple(sorted(pair)) for line in lines for pair in zip(line, line[1:]))


def creased(text, scale):
    """What `crease` writes, with floor 1 or, where that doubles an edge, 3; or None where it refuses the mesh."""
    for floor in ("1", "3"):
        words = [program(), "crease", "--scale", scale, "--floor", floor, "--weight", "plain"]
        ran = subprocess.run(words, input=text, capture_output=True)
        if ran.returncode != DOUBLED:
            break
    return ran.stdout if ran.returncode == 0 else None


def difference(text, scale):
    """What differs between the marks that a run at a scale writes and those that a second one, at scale 1/1, makes of
    them; and the lines of the first."""
    first = creased(text, scale)
    if first is None:
        return "refused", []
    second = creased(first, "1/1")
    if second is None:
        return "refused as it was written", lines_of(first)
    old, new = lines_of(first), lines_of(second)
    if edges_of(old) != edges_of(new):
        return "edges", old
    return "arcs" if scale == "1/1" and arcs_of(old) != arcs_of(new) else "same", old


def main():
    parser = argparse.ArgumentParser(description=__doc__, formatter_class=argparse.RawDescriptionHelpFormatter)
    parser.add_argument("meshes", nargs="+", type=pathlib.Path, metavar="MESH.obj")
    parser.add_argument("--angle", default="30", metavar="DEGREES")
    words = parser.parse_args()
    differ = 0
    print(f"{'mesh':<32}{'edges':>8}{'arcs':>8}  " + "  ".join(f"{it:<8}" for it in SCALES))
    for mesh in words.meshes:
        if run([program(), "tidy"], mesh, os.devnull)[2] != 0:
            continue
        tool = [sys.executable, f"{ROOT}/tools/mark_features.py", "--angle", words.angle, mesh]
        marked = subprocess.run(tool, capture_output=True, check=True).stdout
        found = [difference(marked, scale) for scale in SCALES]
        lines = found[0][1]
        told = "  ".join(f"{it:<8}" for it, _ in found)
        print(f"{name_of(mesh):<32}{sum(len(it) - 1 for it in lines):>8}{len(lines):>8}  {told}", flush=True)
        differ += any(it not in ("same", "refused") for it, _ in found)
    sys.exit(differ > 0)


main()
