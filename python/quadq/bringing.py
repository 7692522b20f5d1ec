"""What comes over to a new mesh by itself: the fields of the old one, and its groups."""

from __future__ import annotations

from dataclasses import replace

from .groups import return_groups
from .mesh import Mesh
from .results import Result
from .transfer import FACES, POINTS, brought, way_of
from .under import Made

WAYS = {"sample": "sampled", "conserve": "conserved"}


def has_more(mesh: Mesh) -> bool:
    """Whether a mesh has fields or groups."""
    return mesh.is_grouped or bool(mesh.point_fields) or bool(mesh.face_fields)


def bring_over(made: Made) -> tuple[Mesh, list[tuple[str, str]]]:
    """The new mesh with the fields of the old one, and its groups where it has some; and what of the groups is not as
    it was."""
    old, mesh = made.old, made.mesh
    said: list[tuple[str, str]] = []
    if old.is_grouped:
        mesh, said = return_groups(made.ready, mesh, made.under)
    fields = {at: {name: brought(made, it, at, way_of(it, at)) for name, it in some.items()}
              for at, some in ((POINTS, old.point_fields), (FACES, old.face_fields))}
    return replace(mesh, point_fields=fields[POINTS], face_fields=fields[FACES]), said


def brought_over(result: Result) -> Result:
    """The remesh whose mesh has the fields and groups of the old one, if it has some; what of them is not as it was
    stands in the report."""
    old = result.old
    if not has_more(old):
        return result
    mesh, said = bring_over(result.made)
    if result.report.moves and (old.point_fields or old.face_fields):
        said.append(("fields", "the fields are those of the places that points had before they were moved"))
    told = [f"{name} (points)" for name in old.point_fields]
    told += [f"{name} (faces, {WAYS[way_of(it, FACES)]})" for name, it in old.face_fields.items()]
    report = replace(result.report, dropped=(*result.report.dropped, *said), fields=", ".join(told))
    # A text of the program has no groups.
    return replace(result, mesh=mesh, report=report, text=None if old.is_grouped else result.text)
