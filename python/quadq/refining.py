"""Meshes whose edges are divided by the program, with their fields and groups."""

from __future__ import annotations

from dataclasses import replace
from typing import Optional

from .bringing import bring_over
from .conversions import MeshLike, as_mesh
from .errors import WishError
from .maps import read_map
from .mesh import Mesh
from .obj_writing import plain_text
from .parts import NO_MARKS
from .plain import written_mesh
from .program import LARGEST, Program
from .rounding import curved, rounded
from .scaling import factor_of
from .under import Made, under_of


def refine(
    mesh: MeshLike, by: int, *, round: bool = False, sharp: Optional[float] = None, program: Optional[Program] = None
) -> Mesh:
    """A mesh of quads with each edge divided in so many, with its fields and groups. New points lie between the old
    ones; with `round` on a curved surface behind the old faces, which is flat across edges whose faces meet at more
    than `sharp` degrees: where none are said, at more than 30, or where the normals of the file differ. Raises a
    `Refusal` that names the place, and a `WishError` for a number that is not from 1 to 1000."""
    if not 1 <= by <= LARGEST:
        raise WishError(f"edges are divided in 1 to {LARGEST}, and not in {by}")
    mesh = as_mesh(mesh)
    mesh.refuse_strange()
    runner = Program() if program is None else program
    factor = factor_of(mesh)
    scaled = replace(mesh, points=mesh.points * factor)
    text = plain_text(scaled)
    written = runner.answer(["refine", "--by", str(by)], text)
    fine, given = written_mesh(written), read_map(runner.map(text, written), mesh.quads)
    if round:
        fine = rounded(fine, curved(scaled, NO_MARKS, sharp), given)
    fine = replace(fine, points=fine.points / factor, libraries=mesh.libraries)
    under = under_of(given, fine, mesh)
    return bring_over(Made(fine, mesh, mesh, None, under))[0]
