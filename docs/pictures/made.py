#!/usr/bin/env python3
"""Writes examples/mug.obj and examples/boss.obj, which the pictures of meshes are drawn from.

The mug is a cage of 172 faces that is subdivided twice by the rule of Catmull and Clark. It wants numpy.
"""

from __future__ import annotations

import pathlib
from collections.abc import Sequence

import numpy as np
import numpy.typing as npt

Point = tuple[float, float, float]
Cage = tuple[list[Point], list[list[int]]]
Tables = tuple[npt.NDArray[np.float64], npt.NDArray[np.int64]]
EXAMPLES = pathlib.Path(__file__).resolve().parents[2] / "examples"
AROUND = 12
LEVELS = [
    (0.94, 0.0), (1.0, 0.35), (1.0, 0.85), (1.0, 1.35), (1.0, 1.85), (1.0, 2.2),
    (0.87, 2.2), (0.87, 1.85), (0.87, 1.35), (0.87, 0.85), (0.87, 0.35), (0.84, 0.16),
]
"""How far from the axis each ring of the wall is, and how high, from the foot outside over the rim to the floor."""
SECTOR, HANDLE = 0, (55, 25, 0, -25, -55)
"""Where the handle is, and the angles at which it has a ring: 90 is up and -90 down."""


def cap(ring: int, height: float, radius: float, count: int) -> Cage:
    """Three by three faces in a ring of twelve, over four more points."""
    turns = 2 * np.pi * (np.arange(0, AROUND, 3) + 0.5) / AROUND
    inner = [(0.45 * radius * np.cos(it), height, 0.45 * radius * np.sin(it)) for it in turns]
    at, new = [ring + it for it in range(AROUND)], [count + it for it in range(4)]
    faces = []
    for side in range(4):
        corner = 3 * side
        faces.append([at[corner - 1], at[corner], at[corner + 1], new[side]])
        faces.append([at[corner + 1], at[corner + 2], new[(side + 1) % 4], new[side]])
    return inner, [*faces, new]


def cage() -> Cage:
    """The mug with few faces: the wall, the foot, the floor and the handle."""
    turns = 2 * np.pi * (np.arange(AROUND) + 0.5) / AROUND
    places = [(r * np.cos(turn), y, r * np.sin(turn)) for r, y in LEVELS for turn in turns]
    faces = []
    for level in range(len(LEVELS) - 1):
        for at in range(AROUND):
            ring, after = AROUND * level, (at + 1) % AROUND
            if not (at == SECTOR and level in (1, 3)):
                faces.append([ring + at, ring + AROUND + at, ring + AROUND + after, ring + after])
    for ring, is_foot in ((0, True), (AROUND * (len(LEVELS) - 1), False)):
        inner, more = cap(ring, LEVELS[ring // AROUND][1], LEVELS[ring // AROUND][0], len(places))
        places += inner
        faces += more if is_foot else [it[::-1] for it in more]
    return handle(places, faces)


def handle(places: list[Point], faces: list[list[int]]) -> Cage:
    """The same with a tube from one hole of the wall to the other."""
    low, high = (SECTOR, SECTOR + 1), AROUND
    before = [3 * high + low[0], 3 * high + low[1], 4 * high + low[1], 4 * high + low[0]]
    end = [2 * high + low[0], 2 * high + low[1], high + low[1], high + low[0]]
    turn = 2 * np.pi * (SECTOR + 1) / AROUND
    for angle in np.radians(HANDLE):
        ring = range(len(places), len(places) + 4)
        for thick, side in ((-0.13, 1), (-0.13, -1), (0.13, -1), (0.13, 1)):
            out, up = 1.02 + (0.72 + thick) * np.cos(angle), 1.1 + (0.62 + thick) * np.sin(angle)
            places.append(turned(out, up, 0.19 * side, turn))
        faces += joined(before, ring)
        before = list(ring)
    return places, faces + joined(before, end)


def turned(out: float, up: float, aside: float, turn: float) -> Point:
    cos, sin = np.cos(turn), np.sin(turn)
    return out * cos + aside * sin, up, out * sin - aside * cos


def joined(ring: Sequence[int], after: Sequence[int]) -> list[list[int]]:
    """The faces of a tube between two rings."""
    return [[ring[it], after[it], after[(it + 1) % 4], ring[(it + 1) % 4]] for it in range(4)]


def subdivided(places: npt.NDArray[np.float64], faces: npt.NDArray[np.int64]) -> Tables:
    """A closed mesh with four faces for each, whose points Catmull and Clark's rule gives."""
    ends = np.sort(np.stack([faces, np.roll(faces, -1, axis=1)], axis=-1).reshape(-1, 2), axis=1)
    edges, of_dart = np.unique(ends, axis=0, return_inverse=True)
    middles = places[faces].mean(axis=1)
    beside = np.zeros((len(edges), 3))
    np.add.at(beside, of_dart, np.repeat(middles, 4, axis=0))
    on_edges = (places[edges].sum(axis=1) + beside) / 4
    count = np.bincount(faces.ravel())[:, None]
    around, along = np.zeros_like(places), np.zeros_like(places)
    np.add.at(around, faces.ravel(), np.repeat(middles, 4, axis=0))
    np.add.at(along, edges.ravel(), np.repeat(places[edges].mean(axis=1), 2, axis=0))
    moved = (around / count + 2 * along / count + (count - 3) * places) / count
    dart = len(places) + of_dart.reshape(-1, 4)
    middle = np.broadcast_to(len(places) + len(edges) + np.arange(len(faces))[:, None], faces.shape)
    quads = np.stack([faces, dart, middle, np.roll(dart, 1, axis=1)], axis=-1).reshape(-1, 4)
    return np.concatenate([moved, on_edges, middles]), quads


def mug() -> Tables:
    places, faces = (np.array(it) for it in cage())
    for _ in range(2):
        places, faces = subdivided(places, faces)
    return places, faces


def boss() -> Tables:
    """A block with a smaller one on it, whose foot has a ring of faces, so that no corner of the foot is irregular."""
    steps = (-3.0, -1.2, 1.2, 3.0)
    top = [(x, 0.0, z) for z in steps for x in steps]
    foot = [(x, y, z) for y in (0.0, 0.8, 1.6) for x, z in ((-0.8, -0.8), (0.8, -0.8), (0.8, 0.8), (-0.8, 0.8))]
    low = [(x, -2.4, z) for _, _, z in top[::4] for x in steps]
    grid = [[4 * row + column, 4 * row + 4 + column, 4 * row + 5 + column, 4 * row + 1 + column]
            for row in range(3) for column in range(3)]
    border = [0, 4, 8, 12, 13, 14, 15, 11, 7, 3, 2, 1]
    rings = [[5, 6, 10, 9], *([16 + 4 * level + it for it in range(4)] for level in range(3))]
    faces = [it for it in grid if it != grid[4]]
    faces += [face for ring, after in zip(rings, rings[1:]) for face in joined(ring, after)]
    faces += [rings[-1][::-1]]
    faces += [[b, a, a + 28, b + 28] for a, b in zip(border, border[1:] + border[:1])]
    faces += [[it + 28 for it in face[::-1]] for face in grid]
    return np.array(top + foot + low), np.array(faces)


def text_of(places: npt.NDArray[np.float64], faces: npt.NDArray[np.int64]) -> str:
    lines = [f"v {x:.4g} {y:.4g} {z:.4g}" for x, y, z in places.round(4) + 0.0]
    lines += ["f " + " ".join(map(str, face)) for face in (faces + 1).tolist()]
    return "\n".join(lines) + "\n"


def main() -> None:
    for name, made in (("mug", mug()), ("boss", boss())):
        (EXAMPLES / f"{name}.obj").write_text(text_of(*made))


if __name__ == "__main__":
    main()
