#!/usr/bin/env python3
"""Draws meshes side by side with a checkered texture, as a PNG on standard output.

usage: docs/pictures/draw_textured.py [--squares N] MESH.obj.. >picture.png

The texture has N by N squares, whose colours go over from one side of it to the other. Faces that name no texture
coordinates are grey. docs/pictures/carried.png is Suzanne, subdivided once, as Blender writes her, and what
tools/carry.py made for `quadq crease --scale 1/2` with her seams marked. It needs numpy.
"""

import argparse
import pathlib
import sys

import numpy as np

ROOT = pathlib.Path(__file__).resolve().parent.parent.parent
sys.path.insert(0, str(ROOT / "python"))
from quadq.canvas import Canvas  # noqa: E402
from quadq.mesh import NONE, Mesh  # noqa: E402
from quadq.obj import read_obj  # noqa: E402
from quadq.pictures import DARK, MARGIN, View  # noqa: E402

WIDE, HIGH = 420, 380
PIECES = 2_000_000
"""About so many pieces of faces are drawn, each in one colour."""
TOWARD = np.array((0.5, 0.35, 1.9))
GREY = np.array((200.0, 200.0, 200.0))


def colour_of(places: np.ndarray, squares: int) -> np.ndarray:
    """The colours (n, 3) of places (n, 2) of the texture."""
    is_dark = np.floor(places * squares).sum(axis=1) % 2 == 1
    east, north = (places % 1).T
    bright = np.stack([90 + 160 * east, 90 + 160 * north, np.full(len(places), 170.0)], axis=1)
    return np.where(is_dark[:, None], 0.6 * bright, bright)


def between(at_corners: np.ndarray, east: np.ndarray, north: np.ndarray) -> np.ndarray:
    """Values (faces, n, width) at places of faces whose corners have these (faces, 4, width)."""
    weights = np.stack([(1 - east) * (1 - north), east * (1 - north), east * north, (1 - east) * north])
    return np.einsum("kn,fkw->fnw", weights, at_corners)


def draw(canvas: Canvas, mesh: Mesh, left: float, squares: int) -> None:
    view = View.along(TOWARD).axes
    seen = mesh.points @ view.T
    low, high = seen.min(axis=0), seen.max(axis=0)
    scale = min((WIDE - 2 * MARGIN) / (high[0] - low[0]), (HIGH - 2 * MARGIN) / (high[1] - low[1]))
    at = (seen - (low + high) / 2) * scale * [1, -1, 1] + [left + WIDE / 2, HIGH / 2, 0]
    quads = at[mesh.quads]
    normals = np.cross(quads[:, 2] - quads[:, 0], quads[:, 3] - quads[:, 1])
    facing = np.abs(normals[:, 2]) / np.maximum(np.linalg.norm(normals, axis=1), 1e-12)
    fine = max(1, round((PIECES / len(quads)) ** 0.5))
    column, row = (it.reshape(-1) for it in np.meshgrid(np.arange(fine), np.arange(fine)))
    corners = [between(quads, (column + i) / fine, (row + j) / fine) for i, j in ((0, 0), (1, 0), (1, 1), (0, 1))]
    colours = np.tile(GREY, (len(quads) * len(column), 1))
    if mesh.texture is not None:
        values = mesh.texture.values[np.maximum(mesh.texture.rows, 0)].reshape(len(quads), 4, -1)[:, :, :2]
        middles = between(values, (column + 0.5) / fine, (row + 0.5) / fine)
        named = np.repeat(np.all(mesh.texture.rows.reshape(-1, 4) != NONE, axis=1), len(column))
        colours[named] = colour_of(middles.reshape(-1, 2), squares)[named]
    colours *= np.repeat(0.6 + 0.4 * facing, len(column))[:, None]
    for three in ((0, 1, 2), (0, 2, 3)):
        canvas.triangles(np.stack([corners[it].reshape(-1, 3) for it in three], axis=1), colours)
    canvas.lines(at[mesh.edges.ends] + [0.0, 0.0, 1.5], DARK, 0.5, 0.35)


def main() -> None:
    parser = argparse.ArgumentParser(description=__doc__, formatter_class=argparse.RawDescriptionHelpFormatter)
    parser.add_argument("meshes", nargs="+", metavar="MESH.obj")
    parser.add_argument("--squares", type=int, default=24)
    wishes = parser.parse_args()
    canvas = Canvas(WIDE * len(wishes.meshes), HIGH)
    for at, path in enumerate(wishes.meshes):
        draw(canvas, read_obj(pathlib.Path(path).read_text()), at * WIDE, wishes.squares)
    sys.stdout.buffer.write(canvas.png())


main()
