#!/usr/bin/env python3
"""Judges maps by the meshes that they are of: walks over the old faces as each line says, and looks where it comes to.

usage: bench/mapping.py [--random N] [--seed S] [MESH.obj..]
       bench/mapping.py --times [MESH.obj..]

Of each mesh, and of N that are made by chance, the maps of texts of all commands that remesh are judged:

  the place that is computed from each `vertex`, `edge` and `face` line is the `v` line, digit by digit;
  each corner of a `cell` line, walked to from its old face over the sides of faces, lies where the vertex of its `f`
  line does; where that is on an arc, which is divided evenly, it may be off by what a parameter loses that is rounded;
  the mean of these corners, rounded down, lies in the old face.

Besides, `quadq map` has to write what tools/make_map.py does, byte for byte. Each difference is named on standard
error, and the status is 1 where there is one.

With --times it prints the time of `map` beside that of `check` of the same pair: seconds of the processor and
megabytes, the least of some runs by turns, on these meshes and on some that bench/meshes.cpp makes (with g++). It wants
a calm machine. QUADQ may name the program, which is dist/quadq else.
"""
import argparse
import collections
import pathlib
import random
import subprocess
import sys
import tempfile
from decimal import ROUND_HALF_UP, Decimal

from measuring import ROOT, count_lines, name_of, program, taken
from random_meshes import random_text

sys.path.insert(0, f"{ROOT}/tools")
from layout_text import cut_options  # noqa: E402
from make_map import map_of  # noqa: E402
from obj_text import read_obj  # noqa: E402

ONE = 1 << 32
REFUSED = {3, 5, 9, 10, 11, 16, 17}
"""What a command may answer of a mesh that is accepted: its `l` lines, or what is wished, may be wrong."""
SETTINGS = [
    ("remesh", "--scale 1/2 --floor auto --weight plain"),
    ("remesh", "--scale 1/3 --floor auto --weight length"),
    ("remesh", "--scale 3/2 --floor 2 --weight plain"),
    ("crease", "--scale 2/3 --floor 1 --weight plain"),
    ("crease", "--scale 3/2 --floor 3 --weight plain"),
    ("coarse", "--scale 1/2 --floor 1 --weight plain"),
    ("coarse", "--scale 3/2 --floor 3 --weight length"),
    ("size", "--edge {edge} --floor 1"),
    ("size", "--edge {edge} --floor 3"),
    ("fit", "--keep lines --patches merged --aim scale:1/2 --floor 1 --weight plain --spacing even"),
    ("fit", "--keep none --patches conforming --aim scale:2/3 --floor 2 --weight length --spacing even"),
    ("refine", "--by 2"),
]
HEAD = "| mesh | scale | faces | new faces | `check` s | MB | `map` s | MB | time ratio | MB written | ns a byte |"
ROUNDS = 5
MADE = [
    ("a cube of 300 by 300 faces a side", ["cube", "300"]),
    ("a grid of 768 by 768 with a hole every 64 faces", ["holes", "768", "768"]),
    ("a plate of 342 by 342 with holes", ["plate", "342"]),
    ("a terrain of voxels, 100 by 100 columns", ["voxels", "100"]),
]
"""What bench/meshes.cpp makes."""


class Fault(Exception):
    """What is wrong with a map."""


class Old:
    """The old mesh: places in millionths, and faces, with the face and the corner where each dart begins."""

    def __init__(self, text):
        obj = read_obj(text)
        self.places = [[millionths(it.decode()) for it in words[:3]] for words in obj.points]
        self.faces = [[it.vertex + 1 for it in face] for face in obj.faces]
        self.begins = {(start, face[corner - 3]): (at, corner)
                       for at, face in enumerate(self.faces) for corner, start in enumerate(face)}

    def place(self, vertex):
        return self.places[vertex - 1]

    def corners(self, at):
        """The four vertices of a face, from the given corner on."""
        face, corner = at
        return [self.faces[face][(corner + i) % 4] for i in range(4)]

    def beyond(self, at, way):
        """The next face over the given side, 0 for south, counted from the given corner, with its own such corner."""
        four = self.corners(at)
        face, corner = self.begins[four[(way + 1) % 4], four[way]]
        return face, (corner - way - 2) % 4

    def walk(self, at, east, north):
        """The face where one comes to, and what is left in it."""
        for far, ways in ((east, (1, 3)), (north, (2, 0))):
            steps = cells_over(far)
            for _ in range(abs(steps)):
                at = self.beyond(at, ways[steps < 0])
        return at, east - cells_over(east) * ONE, north - cells_over(north) * ONE

    def mixed(self, at, east, north):
        """The mean of the corners of a face, weighed so, rounded, halves up."""
        weights = ((ONE - east) * (ONE - north), east * (ONE - north), east * north, (ONE - east) * north)
        columns = zip(*map(self.place, self.corners(at)))
        return [(sum(map(int.__mul__, weights, column)) + (1 << 63)) >> 64 for column in columns]

    def spread(self, at):
        """How far the corners of a face are from each other along an axis."""
        return max(max(column) - min(column) for column in zip(*map(self.place, self.corners(at))))


def millionths(word):
    return int((Decimal(word) * 10**6).to_integral_value(ROUND_HALF_UP))


def cells_over(far):
    """How many whole old faces lie before a parameter, of two that it borders the nearer one."""
    return (far - 1) // ONE if far > 0 else far // ONE


def numbers_of(line, word, count):
    kind, *words = line.split(" ")
    if kind != word or len(words) != count or any(str(int(it)) != it for it in words):
        raise Fault(f"the line is {line}")
    return list(map(int, words))


def told_place(old, line):
    """The place that is computed from the line of a vertex, and whether that lies in a face."""
    kind = line.partition(" ")[0]
    if kind == "vertex":
        return old.place(*numbers_of(line, kind, 1)), False
    if kind == "edge":
        first, last, some, parts = numbers_of(line, kind, 4)
        if not 0 < some < parts or not {(first, last), (last, first)} & old.begins.keys():
            raise Fault(f"the line is {line}")
        ends = zip(old.place(first), old.place(last))
        return [p + (2 * some * (q - p) + parts) // (2 * parts) for p, q in ends], False
    face, corner, east, north = numbers_of(line, "face", 4)
    if not (0 <= east < ONE and 0 <= north < ONE):
        raise Fault(f"the line is {line}")
    return old.mixed((face - 1, corner - 1), east, north), True


def judge_cell(old, line, names, places):
    """How many corners of a new face lie exactly where its vertices do. Each vertex is its place and whether it lies
    in a face."""
    face, corner, *seen = numbers_of(line, "cell", 10)
    corners = list(zip(seen[::2], seen[1::2]))
    if any(not 0 <= sum(it) // 4 < ONE for it in zip(*corners)):
        raise Fault(f"the middle does not lie there: {line}")
    exact = 0
    for name, (east, north) in zip(names, corners):
        at, s, t = old.walk((face - 1, corner - 1), east, north)
        place, is_inside = places[name - 1]
        off = max(abs(p - q) for p, q in zip(old.mixed(at, s, t), place))
        if off > (0 if is_inside else 1 + old.spread(at) // ONE):
            raise Fault(f"vertex {name} does not lie there: {line}")
        exact += off == 0
    return exact


def plain(number):
    return f"{Decimal(number).scaleb(-6):f}".rstrip("0").rstrip(".") if number else "0"


def judge(old, new_text, given):
    """Counts lines and corners of a map. Raises a `Fault` where it is wrong."""
    written = [line[2:] for line in new_text.splitlines() if line.startswith("v ")]
    faces = [list(map(int, line.split()[1:])) for line in new_text.splitlines() if line.startswith("f ")]
    lines = given.split("\n")
    if lines[:2] != ["quadq map 1", f"vertices {len(written)} faces {len(faces)}"] or lines[-1]:
        raise Fault("the map does not begin or end as maps do")
    if len(lines) != 3 + len(written) + len(faces):
        raise Fault("the map has not a line for each vertex and each face")
    vertex_lines, cell_lines = lines[2:2 + len(written)], lines[2 + len(written):-1]
    places = [told_place(old, line) for line in vertex_lines]
    for number, ((place, _), line) in enumerate(zip(places, written), 1):
        if " ".join(map(plain, place)) != line:
            raise Fault(f"vertex {number} lies at {line}, and not so: {vertex_lines[number - 1]}")
    counts = collections.Counter(line.partition(" ")[0] for line in lines[2:-1])
    counts["corners"] = 4 * len(faces)
    counts["exact"] = sum(judge_cell(old, *it, places) for it in zip(cell_lines, faces))
    return counts


def run(words, text):
    given = text.encode(errors="surrogateescape")
    ran = subprocess.run([program(), *words], input=given, capture_output=True, check=False)
    return ran.returncode, ran.stdout.decode(), ran.stderr.decode()


def mapped(old_text, new_text):
    """The map of a pair, which has to be the script's."""
    status, given, said = run(["map"], old_text + "\n" + new_text)
    cut = run(["layout", *cut_options(new_text)], old_text)[1]
    if status != 0 or given != map_of(old_text, cut, new_text):
        raise Fault(f"quadq map ends with {status} and does not write what make_map.py does: {said}")
    return given


def marked(rng, text):
    """A text with some of its edges marked."""
    edges = sorted(edge for edge in Old(text).begins if edge[0] < edge[1])
    return text + "\n" + "".join(f"l {start} {end}\n" for start, end in edges if rng.random() < 0.03)


def an_edge(rng, old):
    """A length that some edges of a mesh have about."""
    start, end = rng.choice(sorted(old.begins))
    far = sum((p - q) ** 2 for p, q in zip(old.place(start), old.place(end))) ** 0.5 / 10**6
    return f"{min(max(rng.uniform(0.4, 2) * far, 0.000001), 99999999):.6f}"


def try_mesh(name, text, rng, counts):
    """Judges the maps of all texts that are written for a mesh, and adds up what they have. Whether all are right."""
    old = Old(text)
    edge = an_edge(rng, old) if old.faces else "1"
    is_right = True
    for command, options in SETTINGS:
        words = [command, *options.format(edge=edge).split()]
        status, new_text, said = run(words, text)
        if status in REFUSED:
            continue
        try:
            if status != 0:
                raise Fault(f"the program says {said}")
            found = judge(old, new_text, mapped(text, new_text))
        except (Fault, ValueError, LookupError) as error:
            print(f"mapping: {name}, {' '.join(words)}: {error}", file=sys.stderr)
            is_right = False
            continue
        counts[command].update(found, texts=1)
    return is_right


def meshes(asked, rng):
    """The names and texts of the meshes that quadq accepts."""
    for mesh in asked.meshes:
        text = mesh.read_bytes().decode(errors="surrogateescape")
        if run(["tidy"], text)[0] == 0:
            yield name_of(mesh), marked(rng, text)
    accepted = 0
    while accepted < asked.random:
        text = random_text(rng)
        if run(["tidy"], text)[0] == 0:
            accepted += 1
            yield f"mesh {accepted} by chance", text


def timed(name, mesh, scale, room):
    """A row: `map` beside `check` of the remesh of a mesh at a scale, or None where there is none."""
    out, pair, told = room / "out.obj", room / "pair.obj", room / "map.txt"
    words = ["remesh", "--scale", scale, "--floor", "auto", "--weight", "plain"]
    if taken([program(), *words], mesh, out)[3] != 0:
        return None
    pair.write_bytes(mesh.read_bytes() + b"\n" + out.read_bytes())
    runs = [[taken([program(), word], pair, told)[1:] for word in ("check", "map")] for _ in range(ROUNDS)]
    (check, check_mb, _), (least, mb, status) = [tuple(map(min, zip(*turns))) for turns in zip(*runs)]
    if status != 0:
        sys.exit(f"map of {name} at {scale} ended with {status}")
    size = told.stat().st_size
    faces = [count_lines(it, b"f ") for it in (mesh, out)]
    beyond = (least - check) * 1e9 / size
    return [name, scale, *(f"{it:,}" for it in faces), f"{check:.3f}", f"{check_mb:.0f}", f"{least:.3f}", f"{mb:.0f}",
            f"{least / max(check, 1e-9):.2f}", f"{size / 1e6:.1f}", f"{beyond:.1f}"]


def print_times(given):
    print(HEAD + "\n|" + "---|" * (HEAD.count("|") - 1))
    with tempfile.TemporaryDirectory() as folder:
        room = pathlib.Path(folder)
        maker = room / "meshes"
        subprocess.run(["g++", "-O2", "-std=c++20", "-o", maker, f"{ROOT}/bench/meshes.cpp"], check=True)
        named = [(name_of(it), it) for it in given]
        for number, (name, words) in enumerate(MADE):
            named.append((name, room / f"mesh{number}.obj"))
            named[-1][1].write_bytes(subprocess.run([maker, *words], capture_output=True, check=True).stdout)
        for name, mesh in named:
            for cells in filter(None, (timed(name, mesh, scale, room) for scale in ("1/2", "3/2"))):
                print("|", " | ".join(cells), "|", flush=True)


def main():
    parser = argparse.ArgumentParser(description=__doc__, formatter_class=argparse.RawDescriptionHelpFormatter)
    parser.add_argument("meshes", nargs="*", type=pathlib.Path, metavar="MESH.obj")
    parser.add_argument("--random", type=int, default=0, metavar="N")
    parser.add_argument("--seed", type=int, default=1, metavar="S")
    parser.add_argument("--times", action="store_true")
    asked = parser.parse_args()
    if asked.times:
        print_times(asked.meshes)
        return 0
    rng = random.Random(asked.seed)
    counts, tried, wrong = collections.defaultdict(collections.Counter), 0, 0
    for name, text in meshes(asked, rng):
        tried += 1
        wrong += not try_mesh(name, text, rng, counts)
    print(f"{tried} meshes, {wrong} with wrong maps")
    columns = ["texts", "vertex", "edge", "face", "cell", "corners", "exact"]
    print(f"| {'command':<8}" + "".join(f"| {it:>9} " for it in columns) + "|")
    for command, found in counts.items():
        print(f"| {command:<8}" + "".join(f"| {found[it]:>9,} " for it in columns) + "|")
    return int(wrong > 0)


sys.exit(main())
