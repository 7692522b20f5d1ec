"""What a user should know of a remesh: one list, for the command line, the report, the log and the add-on."""

from __future__ import annotations

from dataclasses import dataclass
from typing import TYPE_CHECKING, Iterator

from .floors import Floors

if TYPE_CHECKING:
    from .results import Report

UNCHANGED = 0.05
"""A part of the faces: where no more came or went, the mesh is about as it was."""
UNLIKE = 0.2
"""A part of the wished length of edges: where their mean is off by more, it is said."""
FEW_SIZED = 0.5
"""A part of the edges: where no more are about as long as is wished at their place, it is said."""
FAR = 0.01
"""A part of the diagonal: a greater distance is said."""
LESS_MEAN, LESS_LEAST = 0.1, 0.3
"""By how much the mean and the least scaled Jacobian fall where it is said."""


@dataclass(frozen=True)
class Notice:
    """Something to know."""

    kind: str
    """A name for machines."""
    words: str
    """What, how many and where, and what to do."""
    count: int = 1


def counted(count: int, thing: str, was: bool = False) -> str:
    """So many things in words; with what was done to them."""
    words = f"{count} {thing}" if count == 1 else f"{count} {thing}s"
    return words + (" was" if count == 1 else " were") * was


def why_raised(floors: Floors) -> str:
    """Why arcs have a greater floor than 1 though none was asked for, and how many; nothing where none has."""
    if not floors.raised:
        return ""
    whose = "all arcs have" if floors.raised == floors.arcs else f"{floors.raised} of {floors.arcs} arcs have"
    return f"with the floor 1 an edge would be there twice, so {whose} a floor of up to {floors.greatest}"


def why_no_shorter(floors: Floors) -> str:
    """Why arcs are no shorter."""
    if floors.raised:
        return f"{why_raised(floors)}, and arcs cannot be shorter"
    return f"arcs cannot be shorter than the floor {floors.greatest}"


def at_the_floor(floors: Floors) -> str:
    """How many arcs are as short as they can be, and why not shorter."""
    why = why_raised(floors)
    return f"{floors.short} of {floors.arcs} arcs are as short as the floor allows" + (f": {why}" if why else "")


def notices_of(report: Report) -> tuple[Notice, ...]:
    """What there is to know of a remesh, the most important first."""
    return tuple([*_of_faces(report), *_of_quality(report), *_of_shape(report), *_of_losses(report)])


def _of_faces(report: Report) -> Iterator[Notice]:
    """Whether the number of faces is what was wished."""
    after, ready, scale = report.after.faces, report.ready, report.scale
    if report.wished is not None and report.because:
        yield Notice("faces", f"{after} faces in place of {report.wished}: {report.because}")
    is_fewer = (scale is not None and scale < 1) or (report.wished is not None and report.wished <= ready)
    if is_fewer and after > ready:
        yield Notice("more-faces", f"the mesh has more faces than before, {after} in place of {ready}, at scale "
                     f"{scale}: {why_no_shorter(report.floors)}", after - ready)
    elif scale not in (None, 1) and not report.because and abs(after - ready) <= UNCHANGED * ready:
        yield Notice("unchanged", "the mesh is about as it was: its patches are hardly larger than a face, as in "
                     f"voxels and in quads made of triangles; {at_the_floor(report.floors)}")
    edge, mean = report.edge, report.after.mean_edge
    if edge is not None and report.beyond is None and abs(mean / float(edge) - 1) > UNLIKE:
        yield Notice("edges", f"edges are {mean:.4g} long on average, and not {float(edge):.4g}: opposite sides of a "
                     "patch have as many, and none has fewer than the floor")
    if report.beyond is not None and report.beyond[0]:
        changed, count = report.beyond
        yield Notice("region", f"{changed} of {count} lines of edges outside of the region have another number of "
                     "edges than before: rows of faces run on there", changed)
    if report.sized is not None and report.sized < FEW_SIZED:
        yield Notice("edges", f"{report.sized:.0%} of the edges are as long as is wished at their place, within a "
                     "fifth: opposite sides of a patch have as many edges, and none has fewer than the floor")


def _of_quality(report: Report) -> Iterator[Notice]:
    """Whether the faces are worse than they were."""
    before, after = report.before.quality, report.after.quality
    advice = "try more faces" if _keeps_sharp(report) else "try --sharp 30 or more faces"
    if after.inverted > before.inverted:
        first = f" (first: face {after.first_inverted + 1})" if after.first_inverted is not None else ""
        yield Notice("inverted", f"inverted faces: {after.inverted}, and {before.inverted} before{first}: {advice}",
                     after.inverted)
    if after.mean < before.mean - LESS_MEAN:
        yield Notice("mean-quality",
                     f"the mean scaled Jacobian is {after.mean:.3f}, and was {before.mean:.3f}: {advice}")
    if after.least < before.least - LESS_LEAST:
        yield Notice("least-quality",
                     f"the least scaled Jacobian is {after.least:.3f}, and was {before.least:.3f}: {advice}")


def _keeps_sharp(report: Report) -> bool:
    """Whether all edges stay already that --sharp 30 keeps."""
    return report.angle is not None and report.angle <= 30


def _of_shape(report: Report) -> Iterator[Notice]:
    """Whether the shape is about as it was."""
    if report.before.irregular != report.after.irregular:
        yield Notice("irregular", "irregular points were lost or made")
    lost, sharp = report.sharp
    if lost:
        advice = "more faces bring their lines nearer" if _keeps_sharp(report) else "--sharp 30 keeps them"
        yield Notice("sharp", f"{lost} of {sharp} sharp edges have no new edge along them: {advice}", lost)
    if report.diagonal and report.greatest_distance > FAR * report.diagonal:
        part = 100 * report.greatest_distance / report.diagonal
        advice = "more faces bring" if _keeps_sharp(report) else "--sharp 30 or more faces bring"
        yield Notice("distance", f"the new mesh is up to {report.greatest_distance:.4g} from the old one, {part:.2g}% "
                     f"of its diagonal: {advice} them nearer")
    for axis in report.mirrors:
        yield Notice("mirror", f"the mesh was its own mirror image along {axis}, and is not any more: --symmetry "
                     f"{axis} keeps that, where the mirror plane is at 0 and no face crosses it")


def _of_losses(report: Report) -> Iterator[Notice]:
    """What is not in the new mesh, or not as the program wrote it."""
    for kind, words in report.dropped:
        yield Notice(kind, words)
    if report.over_seams:
        yield Notice("over-seams", f"{report.over_seams} faces lie over a seam of the texture or a border of names",
                     report.over_seams)
    if report.factor != 1:
        yield Notice("scaled", f"coordinates were multiplied by {report.factor:g} for the program, which rounds to "
                     "millionths, and divided again: the file is not the program's own text")
    if report.is_round:
        yield Notice("round", "points are on a curved surface behind the old one: the certificates hold for the "
                     "numbers of edges, not for the places, and distances are those from the old polygons")
    if report.moves:
        yield Notice("relaxed", "the mesh is relaxed: the certificates hold for the numbers of edges, not for the "
                     "places", report.moves)
