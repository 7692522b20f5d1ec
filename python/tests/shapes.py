"""Small meshes that the tests share."""

import pathlib
from unittest import mock

import numpy as np

from quadq import Mesh, Program

EXAMPLES = pathlib.Path(__file__).resolve().parents[2] / "examples"


def grid(wide: int, high: int) -> Mesh:
    """A flat grid of so many squares, with a corner at the origin."""
    x, y = np.meshgrid(np.arange(wide + 1.0), np.arange(high + 1.0))
    at = np.arange((wide + 1) * (high + 1)).reshape(high + 1, wide + 1)
    quads = np.stack([at[:-1, :-1], at[:-1, 1:], at[1:, 1:], at[1:, :-1]], axis=-1)
    return Mesh.of_quads(np.stack([x, y, 0 * x], axis=-1).reshape(-1, 3), quads)


def written_by(command: str) -> str:
    """The command that writes what this one does, where no floor is asked for: `fit`, if that raises them by need."""
    return "fit" if Program().has_rounds() else command


def without_rounds():
    """A program that raises the floors of all arcs at once."""
    return mock.patch.object(Program, "has_rounds", lambda self: False)


def moved(mesh: Mesh, x: float, y: float = 0.0, z: float = 0.0) -> Mesh:
    return Mesh(mesh.points + [x, y, z], mesh.corners, mesh.starts, groups=mesh.groups)


SEEDS = pathlib.Path(__file__).resolve().parent / "seeds"
"""Texts of all forms, from which the fuzz of `tools/fuzz_texts.py` begins."""


def drum(around: int = 24, high: int = 12, is_round: bool = False) -> Mesh:
    """An open tube of so many faces, or the part of a ball that lies between two small holes."""
    turn, up = np.meshgrid(2 * np.pi * np.arange(around) / around, np.linspace(-1, 1, high + 1))
    wide = np.cos(1.4 * up) if is_round else np.ones_like(up)
    rise = np.sin(1.4 * up) if is_round else up
    places = np.stack([wide * np.cos(turn), rise, -wide * np.sin(turn)], axis=-1).reshape(-1, 3)
    at = np.arange(around * (high + 1)).reshape(high + 1, around)
    beside = np.roll(at, -1, axis=1)
    quads = np.stack([at[:-1], beside[:-1], beside[1:], at[1:]], axis=-1)
    return Mesh.of_quads(places, quads)


def plate(wide: int = 24, hole: int = 6) -> Mesh:
    """A flat plate with a square hole whose sides bulge, so that fewer faces move them."""
    mesh = grid(wide, wide)
    middle = mesh.points[mesh.quads].mean(axis=1)
    low, high = wide // 2 - hole // 2, wide // 2 + hole // 2
    inside = np.all((middle[:, :2] > low) & (middle[:, :2] < high), axis=1)
    part, _ = mesh.faces_of(np.flatnonzero(~inside))
    away = part.points[:, :2] - wide / 2
    reach = np.abs(away).max(axis=1, keepdims=True)
    length = np.linalg.norm(away, axis=1, keepdims=True)
    # Near the hole squares become circles, and not at the outer sides.
    share = np.clip((wide / 2 - reach) / (wide / 2 - hole / 2), 0, 1)
    places = part.points.copy()
    places[:, :2] = wide / 2 + away * (share * reach / length + 1 - share)
    return Mesh.of_quads(places, part.quads)
