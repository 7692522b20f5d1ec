#!/usr/bin/env python3
"""Draws examples/mug.obj before a remesh, and with a third and a sixth of its faces: mug.png beside this file.

It wants numpy and a program with `fit`, which QUADQ may name.
"""

from __future__ import annotations

import pathlib
import sys

import numpy as np

ROOT = pathlib.Path(__file__).resolve().parents[2]
sys.path.insert(0, str(ROOT / "python"))
import quadq  # noqa: E402
from quadq.canvas import Canvas  # noqa: E402
from quadq.mesh import Mesh  # noqa: E402
from quadq.pictures import PLAIN, Look, View, draw  # noqa: E402

MUG, PICTURE = ROOT / "examples/mug.obj", ROOT / "docs/pictures/mug.png"
SIZE, WISHED = (440, 420), (917, 459)


def panel(mesh: Mesh, frame: np.ndarray) -> np.ndarray:
    view = View.along(np.array((-0.15, 0.75, 1.9)))
    return draw(mesh, Look(np.tile(PLAIN, (mesh.face_count, 1))), view, SIZE, frame).pixels()


def main() -> None:
    old = quadq.read(MUG)
    results = [quadq.remesh(old, faces=it) for it in WISHED]
    for it in results:
        print(it.report.summary())
    canvas = Canvas(3 * SIZE[0], SIZE[1])
    canvas.show(np.concatenate([panel(it, old.points) for it in (old, *(it.mesh for it in results))], axis=1))
    PICTURE.write_bytes(canvas.png())


if __name__ == "__main__":
    main()
