#!/usr/bin/env python3
"""Measures `quadq remesh` at half size, and `quadq check` of what it wrote: seconds of the processor and peak memory,
beside `tidy`, which reads, checks and writes the same mesh, and `graph`, which cuts it too. All run by turns. The last
column is the time of `check` by that of `tidy` of both texts. Meshes with a long boundary are measured at four
settings, and meshes of other files where their paths are given. `check` is given 512 MiB of line feeds, too. Where
Blender is installed, its QuadriFlow makes as many faces of one mesh, in wall time.

usage: bench/remesh.py [--boundary] [FILE.obj..]     boundary: the meshes with a long boundary only
"""
import os
import shutil
import subprocess
import sys
import tempfile

from measuring import count_lines, measured, program, run, taken

HERE = os.path.dirname(os.path.realpath(__file__))
QUADQ = program()
ROUNDS = 3
# Each setting as scale and floor.
HALF = ("1/2", "auto")
SETTINGS = [("1/2", "1"), ("1/3", "1"), ("1/1", "3"), HALF]
# Each mesh as the words of the program that makes it.
MESHES = [
    ("a cube of 400 by 400 faces a side", ["cube", "400"]),
    ("a grid with a hole every 64 faces", ["holes", "1024", "1024"]),
    ("a terrain of voxels, 64 by 64 columns", ["voxels", "64"]),
]
BOUNDARY = [(f"a plate of {side} by {side} with holes", ["plate", str(side)]) for side in (171, 342, 684, 1080)]
BOUNDARY += [(f"{plates} stepped plates", ["steps", str(plates)]) for plates in (1000, 4000, 8000, 29500)]
# The mesh that QuadriFlow remeshes too.
SMALL = ("a cube of 100 by 100 faces a side", ["cube", "100"])


def best(words, source, target):
    """The least seconds and MB of some runs."""
    runs = [measured(words, source, target) for _ in range(ROUNDS)]
    return min(seconds for seconds, _ in runs), min(megabytes for _, megabytes in runs)


def best_by_turns(runs, target):
    """The least seconds of the processor and MB of each command on its text, where all run by turns; `None` where one
    is refused, as `tidy` of more faces than quadq reads."""
    rounds = [[taken(words, source, target)[1:] for words, source in runs] for _ in range(ROUNDS)]
    return [best_of(turns) for turns in zip(*rounds)]


def best_of(turns):
    """The least seconds and MB of these runs, where all end well."""
    if any(status != 0 for _, _, status in turns):
        return None
    return min(seconds for seconds, _, _ in turns), min(megabytes for _, megabytes, _ in turns)


def remesh_words(setting):
    """The command that remeshes at a setting."""
    scale, floor = setting
    return [QUADQ, "remesh", "--scale", scale, "--floor", floor, "--weight", "plain"]


def show(title, mesh, room, setting=HALF):
    """A row for a mesh."""
    new, pair = f"{room}/new.obj", f"{room}/pair.obj"
    remesh = remesh_words(setting)
    row = f"{title:<40}{' '.join(setting):>10}{count_lines(mesh, b'f'):>10}"
    _, seconds, megabytes, status = taken(remesh, mesh, new)
    if status != 0:
        print(f"{row}  refused with {status} in {seconds:.2f} s, {megabytes:.0f} MB", flush=True)
        return
    with open(pair, "wb") as both:
        for part in (mesh, new):
            with open(part, "rb") as text:
                shutil.copyfileobj(text, both)
    row += f"{count_lines(new, b'#x'):>9}{count_lines(new, b'f'):>10}"
    texts = ((["tidy"], mesh), (["graph"], mesh), (remesh[1:], mesh), (["tidy"], new), (["check"], pair))
    figures = best_by_turns([([QUADQ, *words], text) for words, text in texts], f"{room}/out")
    row += "".join("refused".rjust(15) if least is None else f"{least[0]:>9.2f}{least[1]:>6.0f}" for least in figures)
    if None not in figures:
        (tidy, _), _, _, (tidy_new, _), (check, _) = figures
        row += f"{check / (tidy + tidy_new):>8.2f}"
    print(row, flush=True)


def show_line_feeds(room):
    """What `check` takes for a text of the shortest lines, which has no head line."""
    text, size = f"{room}/lines", 2**29
    with open(text, "wb") as lines:
        for _ in range(512):
            lines.write(b"\n" * 2**20)
    _, seconds, megabytes, status = taken([QUADQ, "check"], text, f"{room}/told")
    row = f"check of 512 MiB of line feeds: status {status}, {seconds:.2f} s, {megabytes:.0f} MB"
    print(f"{row}, {megabytes * 2**20 / size:.2f} of the text")


def show_quadriflow(mesh, room):
    """A row for QuadriFlow in Blender, with as many faces as quadq makes."""
    blender = shutil.which("blender")
    if blender is None:
        print("Blender is not installed")
        return
    out, other = f"{room}/out.obj", f"{room}/other.obj"
    ours, ours_mb = best(remesh_words(HALF), mesh, out)
    faces = count_lines(out, b"f")
    script = [blender, "--background", "--factory-startup", "--python-exit-code", "1"]
    script += ["--python", f"{HERE}/quadriflow.py", "--", mesh, other, str(faces)]
    seconds, megabytes, status = run(script, mesh, f"{room}/told")
    if status != 0:
        print(f"Blender ended with {status}")
        return
    row = f"{SMALL[0]}: quadq {faces} faces, {ours:.2f} s, {ours_mb:.0f} MB; "
    row += f"QuadriFlow {count_lines(other, b'f')} faces, {seconds:.2f} s, {megabytes:.0f} MB"
    print(f"{row}; time ratio {ours / seconds:.4f}")


def main():
    only_boundary = "--boundary" in sys.argv
    with tempfile.TemporaryDirectory() as room:
        maker, mesh = f"{room}/meshes", f"{room}/mesh.obj"
        subprocess.run(["g++", "-O2", "-std=c++20", "-o", maker, f"{HERE}/meshes.cpp"], check=True)

        def make(words):
            with open(mesh, "wb") as out:
                subprocess.run([maker, *words], stdout=out, check=True)

        head = f"{'mesh':<40}{'setting':>10}{'faces':>10}{'arcs':>9}{'new':>10}"
        names = ("tidy", "graph", "remesh", "tidy new", "check")
        print(head + "".join(f"{name + ' s':>9}{'MB':>6}" for name in names) + f"{'ratio':>8}")
        for title, words in [] if only_boundary else MESHES:
            make(words)
            show(title, mesh, room)
        for title, words in BOUNDARY:
            make(words)
            for setting in SETTINGS:
                show(title, mesh, room, setting)
        for path in sys.argv[1:]:
            if path != "--boundary":
                show(os.path.basename(path), path, room)
        show_line_feeds(room)
        if not only_boundary:
            make(SMALL[1])
            show_quadriflow(mesh, room)


main()
