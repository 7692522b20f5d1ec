#!/usr/bin/env python3
"""Measures the package for Python over a million faces: how long it works beside the program.

usage: bench/front.py [--size N] [--rounds R]

The mesh is a bent sheet of N by N faces, 1,000 if not given, with two charts of texture and two materials; QUADQ may
name the program, which is dist/quadq else. Rows, each the least of R runs, 3 if not given, in seconds of the processor:

  remesh       `quadq-remesh --scale 1/2` of the file
  carry        the same with --carry
  report       the page of a remesh with merged patches, which has been made before
  features     marks of sharp edges, seams and groups: by the package, and by tools/mark_features.py

`python` is what the package takes, `program` what the runs of quadq take, `ratio` one by the other; of `features` the
script stands in place of the program. It needs numpy.
"""
import argparse
import os
import pathlib
import subprocess
import sys
import tempfile

ROOT = pathlib.Path(__file__).resolve().parent.parent
SHARP = 30.0
RUN = """
import os, sys, time
sys.path.insert(0, sys.argv[1] + "/python")
{before}
start = os.times()
{work}
end = os.times()
print("taken:", end.user + end.system - start.user - start.system,
      end.children_user + end.children_system - start.children_user - start.children_system)
"""
REMESH = "from quadq.__main__ import main", "main([sys.argv[2], sys.argv[3], '--scale', '1/2', '--quiet'])"
CARRY = REMESH[0], "main([sys.argv[2], sys.argv[3], '--scale', '1/2', '--carry', '--quiet'])"
REPORT = ("import quadq; result = quadq.remesh(quadq.read(sys.argv[2]), scale='1/2', coarse=True)",
          "open(sys.argv[3], 'w').write(quadq.result_page('sheet', result, quadq.Program()))")
FEATURES = ("import quadq; mesh = quadq.read(sys.argv[2])",
            f"quadq.find_features(mesh, {SHARP}, kinds=('groups', 'seams'))")


def write_sheet(path, size):
    """Writes the mesh."""
    import numpy as np

    across, along = (it.ravel() for it in np.meshgrid(np.arange(size + 1), np.arange(size + 1)))
    x, y = 10 * across / size, 10 * along / size
    points = np.column_stack([x, y, np.sin(x) * np.cos(y)])
    chart = np.column_stack([x / 10, y / 10])
    column, row = (it.ravel() for it in np.meshgrid(np.arange(size), np.arange(size)))
    first = row * (size + 1) + column + 1
    corners = np.column_stack([first, first + 1, first + size + 2, first + size + 1])
    texture = corners + (column >= size // 2)[:, None] * len(points)
    faces = np.stack([corners, texture], axis=2).reshape(-1, 8)
    with open(path, "w") as out:
        np.savetxt(out, points, "v %.6f %.6f %.6f")
        for it in (chart, 1 - chart):
            np.savetxt(out, it, "vt %.6f %.6f")
        for name, some in (("low", row < size // 2), ("high", row >= size // 2)):
            out.write(f"usemtl {name}\n")
            np.savetxt(out, faces[some], "f %d/%d %d/%d %d/%d %d/%d")


def taken(steps, mesh, out):
    """The seconds of the processor of the package and of what it runs."""
    script = RUN.format(before=steps[0], work=steps[1])
    ran = subprocess.run([sys.executable, "-c", script, ROOT, mesh, out], capture_output=True, text=True, check=True)
    return tuple(map(float, ran.stdout.rpartition("taken: ")[2].split()))


def by_script(mesh):
    """The seconds of the processor of the script that marks."""
    before = os.times()
    words = [sys.executable, f"{ROOT}/tools/mark_features.py", "--angle", str(SHARP), "--groups", "--seams", mesh]
    subprocess.run(words, stdout=subprocess.DEVNULL, stderr=subprocess.DEVNULL, check=True)
    after = os.times()
    return after.children_user + after.children_system - before.children_user - before.children_system


def main():
    parser = argparse.ArgumentParser(description=__doc__, formatter_class=argparse.RawDescriptionHelpFormatter)
    parser.add_argument("--size", type=int, default=1000)
    parser.add_argument("--rounds", type=int, default=3)
    asked = parser.parse_args()
    os.environ.setdefault("QUADQ", f"{ROOT}/dist/quadq")
    print("| run | python s | program s | ratio |\n|---|---|---|---|")
    with tempfile.TemporaryDirectory() as room:
        mesh, out = pathlib.Path(room) / "sheet.obj", pathlib.Path(room) / "out.obj"
        write_sheet(mesh, asked.size)
        for name, steps in (("remesh", REMESH), ("carry", CARRY), ("report", REPORT), ("features", FEATURES)):
            runs = [taken(steps, mesh, out) for _ in range(asked.rounds)]
            python, program = map(min, zip(*runs))
            program = by_script(mesh) if name == "features" else program
            ratio = f"{python / program:.2f}" if name != "features" else f"1/{program / python:.0f}"
            print(f"| {name} | {python:.2f} | {program:.2f} | {ratio} |", flush=True)


if __name__ == "__main__":
    main()
