#!/usr/bin/env python3
"""Counts what tools/carry.py leaves of the texture of meshes: at half and at one and a half times the scale, where each
edge is divided in two and in three, and at half the scale with the seams marked.

usage: bench/carrying.py MESH.obj..

A face is torn where a side of it in the texture is more than four times as long, for its length in space, as the
longest stretch among the old faces of its box. Meshes that quadq refuses, or that name no texture coordinates, are
passed over. The status is 1, and standard error says why, where one of these does not hold:

  no face is torn;
  `refine` carries no corner on, keeps all names, and has so many times the seam edges, which are as long together;
  after `crease` on marked seams no face lies over a seam of the texture or a border of names, and no name is lost.

The program is that of the variable QUADQ, or dist/quadq.
"""

import math
import pathlib
import subprocess
import sys
import tempfile
import time

from measuring import ROOT, name_of, program

sys.path.insert(0, f"{ROOT}/tools")
import carry  # noqa: E402
from carrying import Surface, read_map, side  # noqa: E402
from obj_text import read_obj  # noqa: E402

TORN = 4
DOUBLED = 11
COMMANDS = [
    "remesh --scale 1/2 --floor auto --weight plain",
    "remesh --scale 3/2 --floor auto --weight plain",
    "refine --by 2",
    "refine --by 3",
    "crease --scale 1/2 --floor 1 --weight plain",
]
MARK = [sys.executable, f"{ROOT}/tools/mark_features.py", "--angle", "180", "--no-corners", "--seams", "--groups"]
HEAD = "| mesh | faces | command | new faces | over a seam | torn | seam edges before | after | names before | after " \
       "| s |"


class Textured:
    """A mesh with its places and its texture."""

    def __init__(self, text):
        self.old = carry.read_old(text)
        obj = read_obj(text)
        self.places = [obj.place(it) for it in range(len(obj.points))]
        self.surface = Surface(self.old.corners)
        self.seams = [dart for dart, is_seam in enumerate(self.old.texture.seams(self.surface))
                      if is_seam and dart < self.surface.twins[dart]]

    def stretch(self, face):
        """The greatest length of a side of a face in the texture by that in space."""
        return max((self.stretch_of(dart) for dart in range(4 * face, 4 * face + 4)), default=0)

    def stretch_of(self, dart):
        after, layer = side(dart, 1), self.old.texture
        if layer.rows[dart] is None or layer.rows[after] is None:
            return 0
        there = math.dist(layer.values[layer.rows[dart]], layer.values[layer.rows[after]])
        here = self.length_of(dart)
        return there / here if here else math.inf * there if there else 0

    def length_of(self, dart):
        return math.dist(*(self.places[self.old.corners[it]] for it in (dart, side(dart, 1))))

    def names(self):
        """The different names of its faces."""
        return set(self.old.names)


def output_of(words, text):
    """What the program writes, or None where it refuses. Where `crease` doubles an edge its floor is 3."""
    ran = subprocess.run([program(), *words], input=text, capture_output=True, check=False)
    if ran.returncode == DOUBLED and words[0] == "crease":
        return output_of([*words[:4], "3", *words[5:]], text)
    return ran.stdout if ran.returncode == 0 else None


def faults_of(words, old, new, carried, torn):
    """Which of the things that are said above do not hold."""
    is_over = carried.over_seams[0] or carried.over_borders
    if torn:
        yield f"{torn} faces are torn"
    if words[0] == "crease" and is_over:
        yield "faces lie over seams"
    if words[0] in ("crease", "refine") and {it[carry.BORDERS] for it in old.names()} != {
            it[carry.BORDERS] for it in new.names()}:
        yield "names are lost"
    if words[0] == "refine":
        if any(carried.over_seams):
            yield "corners are carried on"
        if len(new.seams) != int(words[2]) * len(old.seams):
            yield f"of {len(old.seams)} seam edges there are {len(new.seams)}"
        before, after = (sum(map(it.length_of, it.seams)) for it in (old, new))
        if not math.isclose(before, after, rel_tol=1e-5, abs_tol=1e-6 * len(new.seams)):
            yield f"seams were {before} long, and are {after}"


def row(mesh, words, room):
    """The cells of a table for one mesh and one command, and what does not hold there."""
    marked, out, given = room / "marked.obj", room / "out.obj", room / "map.txt"
    text = mesh.read_bytes()
    if words[0] == "crease":
        text = subprocess.run([*MARK, mesh], capture_output=True, check=True).stdout
    marked.write_bytes(text)
    written = output_of(words, text)
    if written is None:
        return ["refused", *[""] * 7], []
    out.write_bytes(written)
    text_of_map = output_of(["map"], text + b"\n" + written)
    if text_of_map is None:
        return ["no map", *[""] * 7], ["the program gives no map"]
    given.write_bytes(text_of_map)
    start = time.perf_counter()
    ran = subprocess.run([f"{ROOT}/tools/carry.py", marked, out, given], capture_output=True, check=True)
    seconds = time.perf_counter() - start
    old, new = (Textured(it) for it in (text, ran.stdout))
    told = read_map(given.read_text())
    carried = carry.carried_over(old.old, carry.read_new(out.read_text()), told)
    torn = 0
    for face, cell in enumerate(told.cells):
        most = max(old.stretch(dart // 4) for dart in old.surface.box(cell).values())
        torn += new.stretch(face) > TORN * most
    cells = [len(told.cells), len(carried.over_seams[0]), torn, len(old.seams), len(new.seams), len(old.names()),
             len(new.names()), f"{seconds:.2f}"]
    return cells, list(faults_of(words, old, new, carried, torn))


def main():
    faults = 0
    print(HEAD + "\n|" + "---|" * (HEAD.count("|") - 1))
    with tempfile.TemporaryDirectory() as room:
        for mesh in map(pathlib.Path, sys.argv[1:] or sys.exit(__doc__)):
            text = mesh.read_bytes()
            if output_of(["tidy"], text) is None or b"\nvt " not in text:
                continue
            for words in map(str.split, COMMANDS):
                cells, wrong = row(mesh, words, pathlib.Path(room))
                told = [name_of(mesh), text.count(b"\nf "), " ".join(words[:3]), *cells]
                print("|", " | ".join(map(str, told)), "|", flush=True)
                for fault in wrong:
                    print(f"carrying: {name_of(mesh)}, {' '.join(words)}: {fault}", file=sys.stderr)
                faults += len(wrong)
    return int(faults > 0)


sys.exit(main())
