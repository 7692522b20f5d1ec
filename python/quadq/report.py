"""A report of a remesh or of a refusal as one HTML file, which needs no network."""

from __future__ import annotations

import base64
from html import escape
from pathlib import Path
from typing import Any, Optional, Sequence

import numpy as np

from .canvas import Canvas
from .errors import FormatError
from .features import edges_in
from .looks import Looks, Place, places_of, shown_of
from .mesh import Mesh
from .obj import read_obj
from .pages import figure, page_of, table, viewer, words
from .pictures import PLAIN, Look, View, draw, draw_place, patch_look, place_look
from .program import Program
from .quality import scaled_jacobians
from .refusal import Refusal
from .results import Report, Result
from .scene import MOST_FACES, Shown, scene_of, step_of

SIZE = (720, 620)
SHRUNK, COARSE = 5, 17
"""So many pixels of a picture are one in the index of a batch, and colours are multiples of this there: a picture has
about 4 KB."""
MOST_ROWS = 100
ZOOMED = 12
"""Where more faces are at fault, the picture shows the whole mesh."""
IN_NOTEBOOK = 20_000
"""Of meshes with more faces, in all, a notebook shows still pictures."""
IRREGULAR = "irregular points: a triangle has fewer faces around it, a square more"
LEGEND = """<p>Each colour is a patch; an old patch and the new one made of it have the same.
<span class="swatch border"></span>borders of patches
<span class="swatch stays"></span>edges that stay, or else those where faces meet at more than 30°
<span class="swatch poor"></span>scaled Jacobian below 0.2
<span class="swatch inverted"></span>inverted faces (in still pictures without stripes)</p>"""


GRAVE = ("faces", "more-faces", "inverted", "distance")
"""Of such kinds are warnings that stand before all else."""


WHOLE = "of the whole mesh: there is no one place"
NO_PLACE = {
    "asymmetric": WHOLE, "faces": WHOLE, "mirror": WHOLE, "more-faces": WHOLE, "not-carried": WHOLE, "relaxed": WHOLE,
    "round": WHOLE, "scaled": WHOLE, "unchanged": WHOLE,
    "loose": "not shown: no face has them", "mirror-half": "not shown: these faces are gone",
    "unread": "not shown: it was not read",
}
"""Why a warning leads nowhere, by its kind."""
OTHERS = "not shown: it is not in these meshes"


def result_page(title: str, result: Result, program: Program, up: str = "y") -> str:
    """The page of a remesh that was accepted."""
    looks = Looks.of(result, program)
    report, pictures = result.report, _pictures(looks, up, SIZE)
    view, scene, places = _turned(result, looks, program, up, MOST_FACES)
    labels = (f"before: {report.before.faces} faces", f"after: {report.after.faces} faces")
    body = [
        *_verdict(report, _warnings(report, places, scene is not None)),
        *view,
        '<div class="pair">', *(figure(drawn.png(), SIZE, it) for drawn, it in zip(pictures, labels)), "</div>",
        LEGEND,
        "<h2>Before and after</h2>",
        table(("figure", "before", "after"), report.table(), "The figures before and after"),
        "<h2>What was asked and done</h2>",
        table(("", ""), report.facts(), "What was asked and done"),
        *_part_table(result),
    ]
    return page_of(title, body, scene, _small_pictures(pictures))


def notebook_view(result: Result, program: Optional[Program] = None) -> str:
    """A small page of a remesh, as a frame within another page."""
    runner = Program() if program is None else program
    looks = Looks.of(result, runner)
    view, scene, places = _turned(result, looks, runner, "y", IN_NOTEBOOK)
    labels = (f"before: {result.report.before.faces} faces", f"after: {result.report.after.faces} faces")
    size = (SIZE[0] // 2, SIZE[1] // 2)
    pictures = zip(_pictures(looks, "y", size), labels)
    still = ['<div class="pair">', *(figure(drawn.png(), size, it) for drawn, it in pictures), "</div>"]
    body = [f"<p>{words(result.report.summary())}</p>", *_warnings(result.report, places, scene is not None),
            *(view if scene else still)]
    page = page_of("quadq", body, scene)
    return (f'<iframe srcdoc="{escape(page)}" sandbox="allow-scripts" width="100%" height="780" '
            'title="Both meshes of a remesh"></iframe>')


def mesh_view(mesh: Mesh) -> str:
    """A picture of a mesh for a notebook, over a line that says what it has."""
    told = f"<p>{words(mesh.in_words())}</p>"
    if not mesh.face_count or not np.all(np.isfinite(mesh.points)):
        return told
    size = (SIZE[0] // 2, SIZE[1] // 2)
    look = Look(np.tile(PLAIN, (mesh.face_count, 1)), mesh.edges.ends[mesh.edges.uses == 1], edges_in(mesh.lines))
    return figure(draw(mesh, look, View.of(mesh.points), size).png(), size, f"a mesh of {mesh.face_count} faces") + told


def refusal_page(title: str, mesh: Mesh, refusal: Refusal, up: str = "y") -> str:
    """The page of a refusal, with a picture of the place and one of the whole mesh."""
    faces, points = refusal.faces, refusal.vertices
    body = [f'<p class="bad">Refused with status {refusal.status}: {words(str(refusal))}</p>']
    if not mesh.face_count or not (faces or points):
        return page_of(title, body)
    label = f"the whole mesh of {mesh.face_count} faces"
    whole = draw(mesh, place_look(mesh, faces, points), View.of(mesh.points, up), SIZE)
    figures = [figure(whole.png(), SIZE, label)]
    if len(faces) <= ZOOMED:
        figures.insert(0, figure(draw_place(mesh, faces, points, SIZE).png(), SIZE, "the place"))
    scene = scene_of([Shown("the mesh", mesh, at_fault=faces, dots=points)], up)
    if scene is not None:
        place = Place(0, int(faces[0]) if faces else int(mesh.face_of_corner()[mesh.corners == points[0]][0]), "plain")
        body += [f"<p>{_link(place, 'Turn to the place')}</p>", viewer([label], "points at fault: a red disc", "")]
    body += [*([] if scene else [_too_many(mesh.face_count)]), '<div class="pair">', *figures, "</div>"]
    body += ["<p>Faces at fault are red, and vertices have a red dot.</p>"]
    return page_of(title, body, scene, _small_pictures([whole]))


def refused_page(path: Path, refusal: Refusal, up: str = "y") -> str:
    """The page of a refusal of a file, without pictures where it is no OBJ text."""
    try:
        mesh = read_obj(path.read_bytes() if path.suffix.lower() == ".obj" else b"")
    except (FormatError, OSError):
        mesh = Mesh.of_quads(np.zeros((0, 3)), np.zeros((0, 4)))
    return refusal_page(path.name, mesh, refusal, up)


def _pictures(looks: Looks, up: str, size: tuple[int, int]) -> list[Canvas]:
    """What was remeshed and what became of it, with the same colours, from the same side."""
    view = View.of(looks.new.points, up)
    frame = np.concatenate([looks.old.points, looks.new.points])
    return [
        draw(mesh, patch_look(mesh, patches, looks.tints, scaled_jacobians(mesh), stay), view, size, frame)
        for mesh, patches, stay in ((looks.old, looks.painted.of_old, looks.old_stay),
                                    (looks.new, looks.new_patches, looks.new_stay))]


def _turned(
    result: Result, looks: Looks, program: Program, up: str, most: int
) -> tuple[list[str], Optional[dict[str, Any]], dict[str, Place]]:
    """The part of a page that can be turned, what it shows, and where warnings lead; or why there is none."""
    count = looks.old.face_count + looks.new.face_count
    if count > most:
        return [_too_many(count, most)], None, {}
    shown = shown_of(result, looks, program)
    scene = scene_of(shown, up)
    labels = [f"{it.label}: {it.mesh.face_count} faces" for it in shown]
    steps = max(step_of(it.mesh) for it in shown)
    unit = "in the unit of the file" + (f", measured at each {steps}th face" if steps > 1 else "")
    return [viewer(labels, IRREGULAR, unit)], scene, places_of(result, shown)


def _too_many(count: int, most: int = MOST_FACES) -> str:
    return (f"<p>{count} faces are too many to be turned here, which goes up to {most}: the pictures are still, "
            "and warnings lead to no place.</p>")


def _warnings(report: Report, places: dict[str, Place], is_turned: bool) -> list[str]:
    """Each warning as a link that turns the view to its place, or with the reason why there is none."""
    if not report.notices:
        return []
    told = [
        _link(places[it.kind], it.words) if it.kind in places else
        words(f"{it.words} ({NO_PLACE.get(it.kind, OTHERS)})" if is_turned else it.words) for it in report.notices]
    return ['<ul class="warnings">', *(f'<li class="warning">{it}</li>' for it in told), "</ul>"]


def _link(place: Place, text: str) -> str:
    return (f'<a href="#viewer" data-mesh="{place.mesh}" data-face="{place.face}" data-colours="{place.colours}">'
            f"{words(text)}</a>")


def _small_pictures(pictures: Sequence[Canvas]) -> str:
    """The pictures for the index of a batch, which reads them from the head of the page."""
    small = " ".join(base64.b64encode(it.png(SHRUNK, COARSE)).decode() for it in pictures)
    return f'<meta name="quadq-small" content="{small}">\n'


def _verdict(report: Report, warnings: list[str]) -> list[str]:
    """That the mesh was accepted, and the warnings: these come first where the shape or the number is not as wished."""
    said = (f"{_parts_in_words(report)}: no whole lengths are nearer to what was asked for, and its faces are "
            "connected as before (same Euler number, same irregular vertices).</p>")
    if any(it.kind in GRAVE for it in report.notices):
        return [*warnings, f"<p>{said}"]
    return [f'<p class="good">{said}', *warnings]


def _parts_in_words(report: Report) -> str:
    subject = "The new mesh was" if report.parts == 1 else f"Each of {report.parts} parts was"
    if report.is_checked:
        return f"{subject} accepted by <code>quadq check</code>"
    return f"{subject} written by <code>quadq {report.command}</code>, and accepted by <code>quadq map</code>"


def _part_table(result: Result) -> list[str]:
    """The parts in rows, where there are several."""
    if len(result.parts) < 2:
        return []
    rows = [
        (str(number), str(part.mesh.face_count), str(it.verdict.faces), str(it.certified.floors.max(initial=1)),
         str(it.verdict.arcs), str(it.certified.short),
         "" if it.verdict.deviation is None else str(it.verdict.deviation))
        for number, (part, it) in enumerate(zip(result.parts, result.written), 1)
    ]
    head = ("part", "faces before", "after", "greatest floor", "arcs", "arcs at the floor", "deviation")
    more = [f"<p>and {len(rows) - MOST_ROWS} more parts</p>"] if len(rows) > MOST_ROWS else []
    return ["<h2>Parts</h2>", table(head, rows[:MOST_ROWS], "The parts"), *more]
