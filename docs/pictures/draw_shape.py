#!/usr/bin/env python3
"""Draws meshes before a remesh, by one scale and by shape, side by side: a bent sheet at a ninth of its faces, a long
rod at an eighth, and files at a number of faces.

usage: docs/pictures/draw_shape.py OUT.png [MESH.obj FACES]..

It wants numpy and a program with `fit`, which QUADQ may name.
"""

from __future__ import annotations

import pathlib
import sys

import numpy as np

ROOT = pathlib.Path(__file__).resolve().parents[2]
sys.path.insert(0, str(ROOT / "python"))
import quadq  # noqa: E402
from quadq.canvas import Canvas  # noqa: E402
from quadq.mesh import Mesh  # noqa: E402
from quadq.pictures import PLAIN, Look, View, draw  # noqa: E402

SIZE = (440, 360)


def grid(wide: int, high: int) -> tuple[np.ndarray, np.ndarray]:
    """Places from 0 to 1 in both directions, and the squares between them."""
    x, y = np.meshgrid(np.linspace(0, 1, wide + 1), np.linspace(0, 1, high + 1))
    at = np.arange((wide + 1) * (high + 1)).reshape(high + 1, wide + 1)
    quads = np.stack([at[:-1, :-1], at[:-1, 1:], at[1:, 1:], at[1:, :-1]], axis=-1)
    return np.stack([x.ravel(), y.ravel()], axis=1), quads.reshape(-1, 4)


def sheet() -> Mesh:
    """A sheet that is rolled at one end."""
    places, quads = grid(48, 48)
    turn = np.maximum(places[:, 0] - 0.5, 0) * 8
    along = np.minimum(places[:, 0], 0.5) + np.sin(turn) / 8
    return Mesh.of_quads(np.column_stack([along, (1 - np.cos(turn)) / 8, 1 - places[:, 1]]), quads)


def rod() -> Mesh:
    """A tube that is long and thin."""
    places, quads = grid(32, 60)
    keep = places[:, 0] < 1
    number = np.where(keep, np.cumsum(keep) - 1, 0)
    number[~keep] = number[np.flatnonzero(~keep) - 32]
    turn = 2 * np.pi * places[keep, 0]
    return Mesh.of_quads(np.column_stack([4 * places[keep, 1], np.cos(turn) / 3, np.sin(turn) / 3]), number[quads])


def panel(mesh: Mesh, frame: np.ndarray) -> np.ndarray:
    bad = quadq.scaled_jacobians(mesh) < 0
    colours = np.where(bad[:, None], [208.0, 32.0, 32.0], np.tile(PLAIN, (mesh.face_count, 1)))
    canvas = draw(mesh, Look(colours), View.of(frame), SIZE, frame)
    return canvas.pixels()


def row(mesh: Mesh, wished: int) -> np.ndarray:
    """The mesh, and what it becomes in both ways."""
    results = [quadq.remesh(mesh, faces=wished, mode=mode) for mode in ("scale", "shape")]
    for it in results:
        print(it.report.summary())
    return np.concatenate([panel(it, mesh.points) for it in (mesh, *(it.mesh for it in results))], axis=1)


def main(words: list[str]) -> int:
    if not words or len(words) % 2 != 1:
        print(__doc__, file=sys.stderr)
        return 2
    bent, long = sheet(), rod()
    rows = [row(bent, bent.face_count // 9), row(long, long.face_count // 8)]
    rows += [row(quadq.read(path), int(faces)) for path, faces in zip(words[1::2], words[2::2])]
    whole = np.concatenate(rows)
    canvas = Canvas(3 * SIZE[0], len(rows) * SIZE[1])
    canvas.show(whole)
    pathlib.Path(words[0]).write_bytes(canvas.png())
    return 0


if __name__ == "__main__":
    sys.exit(main(sys.argv[1:]))
