#!/usr/bin/env python3
"""Draws a bumpy sheet of one patch before a remesh to a ninth of its faces, with points at equal parts of old edges,
and with points where they are wished, side by side.

usage: docs/pictures/draw_spacing.py OUT.png

It wants numpy and a program with `fit --spacing wished`, which QUADQ may name.
"""

from __future__ import annotations

import pathlib
import sys

import numpy as np

ROOT = pathlib.Path(__file__).resolve().parents[2]
sys.path.insert(0, str(ROOT / "python"))
import quadq  # noqa: E402
from quadq.canvas import Canvas  # noqa: E402
from quadq.layout import layout_of  # noqa: E402
from quadq.mesh import Mesh  # noqa: E402
from quadq.parts import Workshop, split  # noqa: E402
from quadq.pictures import PLAIN, Look, View, draw  # noqa: E402
from quadq.program import FIT, Wish  # noqa: E402
from quadq.trying import Trials  # noqa: E402
from quadq.wishing import Shape, by_bends  # noqa: E402

SIZE = (440, 360)
SIDE, FEWER = 48, 3
"""How many faces a side of the sheet has, and how many times fewer it gets."""


def sheet() -> Mesh:
    """A flat sheet with a bump in a corner."""
    x, y = np.meshgrid(np.linspace(0, 1, SIDE + 1), np.linspace(0, 1, SIDE + 1))
    bump = 0.22 * np.exp(-((x - 0.7) ** 2 + (y - 0.3) ** 2) / 0.012)
    at = np.arange((SIDE + 1) ** 2).reshape(SIDE + 1, SIDE + 1)
    quads = np.stack([at[:-1, :-1], at[:-1, 1:], at[1:, 1:], at[1:, :-1]], axis=-1)
    return Mesh.of_quads(np.stack([x, bump, 1 - y], axis=-1).reshape(-1, 3), quads.reshape(-1, 4))


def both(mesh: Mesh) -> list[Mesh]:
    """The mesh with the same lengths of its arcs and both spacings."""
    program = quadq.Program()
    part, = split(mesh)
    shape = Shape(part, layout_of(part, program))
    lengths = [shape.layout.old / FEWER]
    wish, shop = Wish(command=FIT, has_lines=True), Workshop(program, 1)
    return [Trials(shop, [shape], wish, along=along).at(lengths).mesh() for along in (None, by_bends)]


def panel(mesh: Mesh, frame: np.ndarray) -> np.ndarray:
    return draw(mesh, Look(np.tile(PLAIN, (mesh.face_count, 1))), View.of(frame), SIZE, frame).pixels()


def main(words: list[str]) -> int:
    if len(words) != 1:
        print(__doc__, file=sys.stderr)
        return 2
    old = sheet()
    made = both(old)
    for name, it in zip(("even", "wished"), made):
        ways = quadq.distance_between(it, old), quadq.distance_between(old, it)
        mean = sum(at.mean for at in ways) / 2
        print(f"{name}: {it.face_count} of {old.face_count} faces, mean distance {mean:.2g}, "
              f"greatest {max(at.greatest for at in ways):.2g}")
    canvas = Canvas(3 * SIZE[0], SIZE[1])
    canvas.show(np.concatenate([panel(it, old.points) for it in (old, *made)], axis=1))
    pathlib.Path(words[0]).write_bytes(canvas.png())
    return 0


if __name__ == "__main__":
    sys.exit(main(sys.argv[1:]))
