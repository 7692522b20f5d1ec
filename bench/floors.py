#!/usr/bin/env python3
"""Compares floors that rise by need, as in `quadq fit --floor auto`, with the floor 3 for all arcs, which is what
`quadq remesh --floor auto` takes where an edge would be doubled: new faces at three scales, how many arcs rose in how
many rounds, and the seconds of the processor of `fit` by those of its first round, which are those of `fit --floor 1`.

usage: bench/floors.py [FOLDER..]

It takes the meshes of examples/, RANDOM meshes by chance, and those of the folders: files in .obj, or named `in` in a
folder each. It prints the meshes that double an edge, and ends in an error where `fit` has more faces, or others where
no edge is doubled. QUADQ may name the program, which is dist/quadq else.
"""
import pathlib
import random
import re
import subprocess
import sys
import tempfile

from measuring import ROOT, name_of, program, taken
from random_meshes import random_text

SCALES = ("1/2", "1/3", "1/10")
RANDOM, SEED, ROUNDS = 60, 7, 3
DOUBLED = 11
HEAD = "| mesh | faces | " + " | ".join(f"at {it}: 3 for all, by need | arcs, rounds" for it in SCALES) + " | time |"


def ran(words, text):
    """What the program writes, and its status."""
    done = subprocess.run([program(), *words.split()], input=text, capture_output=True)
    return done.stdout, done.returncode


def seconds(words, mesh, room):
    """The least seconds of the processor of some runs."""
    return min(taken([program(), *words.split()], mesh, room / "out")[1] for _ in range(ROUNDS))


def told(scale, mesh, room):
    """Faces by both ways, arcs, those that rose, rounds, how often longer all rounds take than the first one, and
    whether that doubles an edge; or None for a mesh that is refused."""
    by_need = f"fit --keep none --patches traced --aim scale:{scale} --weight plain --spacing even --floor"
    for_all, old = f"remesh --scale {scale} --weight plain --floor auto", mesh.read_bytes()
    (other, refused), (text, status), (_, alone) = (ran(it, old) for it in (for_all, f"{by_need} auto", f"{by_need} 1"))
    if status != 0 or refused != 0:
        return None
    rose = len(set(re.findall(rb"^#r (\d+)", text, re.M)))
    rounds = 1 + len(re.findall(rb"(?:^#r .*\n)+", text, re.M))
    faces = [len(re.findall(rb"^f ", it, re.M)) for it in (other, text)]
    if faces[1] > faces[0] or (alone != DOUBLED and (rounds > 1 or faces[1] != faces[0])):
        sys.exit(f"{mesh}: at {scale} it has {faces[1]} faces by need, and {faces[0]} with the floor 3")
    arcs, longer = len(re.findall(rb"^#x ", text, re.M)) // rounds, 1.0
    if alone == DOUBLED:
        longer = seconds(f"{by_need} auto", mesh, room) / max(seconds(f"{by_need} 1", mesh, room), 1e-6)
    return [*faces, arcs, rose, rounds, longer, alone == DOUBLED]


def row(name, count, found):
    """Cells, of what was found at each scale."""
    cells = [name, count]
    for for_all, by_need, arcs, rose, rounds, _, is_doubled in found:
        cells += [f"{for_all}, {by_need}", f"{rose} of {arcs}, {rounds}"] if is_doubled else [by_need, ""]
    slower = [it[5] for it in found if it[6]]
    return [*cells, f"{max(slower):.2f}"]


def added(found):
    """What was found at one scale of meshes that double an edge there, as if they were one."""
    some = [it for it in found if it[6]] or found[:1]
    return [*(sum(it[at] for it in some) for at in range(4)), max(it[4] for it in some), max(it[5] for it in some),
            some[0][6]]


def faces_of(mesh):
    return len(re.findall(rb"^\s*f\s", mesh.read_bytes(), re.M))


def by_chance(room):
    """Small meshes of all kinds."""
    rng = random.Random(SEED)
    for number in range(RANDOM):
        mesh = room / f"random{number}.obj"
        mesh.write_bytes(random_text(rng).encode())
        yield mesh


def main():
    named = [it for folder in sys.argv[1:] for it in sorted(pathlib.Path(folder).glob("*"))]
    named = [it / "in" if (it / "in").is_file() else it for it in named]
    meshes = [*sorted(pathlib.Path(f"{ROOT}/examples").glob("*.obj")), *named]
    print(HEAD)
    print("|---" * HEAD[2:].count("|") + "|")
    with tempfile.TemporaryDirectory() as name:
        room = pathlib.Path(name)
        taken_all, doubled, small, together = 0, 0, [], 0
        for mesh in [*(it for it in meshes if it.suffix == ".obj" or it.name == "in"), *by_chance(room)]:
            found = [told(scale, mesh, room) for scale in SCALES]
            if None in found:
                continue
            taken_all += 1
            if not any(it[6] for it in found):
                continue
            doubled += 1
            if mesh.parent == room:
                small.append(found)
                together += faces_of(mesh)
            else:
                print("|", " | ".join(map(str, row(name_of(mesh), faces_of(mesh), found))), "|", flush=True)
        if small:
            cells = row(f"{len(small)} small meshes by chance", together, [added(it) for it in zip(*small)])
            print("|", " | ".join(map(str, cells)), "|")
        print(f"\nOf {taken_all} meshes that are taken {doubled} double an edge at one of {', '.join(SCALES)}. By need "
              "no mesh has more faces than with the floor 3, and the others have the same.")


if __name__ == "__main__":
    main()
