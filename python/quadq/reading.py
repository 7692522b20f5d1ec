"""Meshes as the program reads them: what this package makes of a text is compared with what `quadq tidy` makes of it.

A refusal has the status and the words of the program, and names lines, faces and vertices of the text.
"""

from __future__ import annotations

import contextlib
import re
from dataclasses import replace
from typing import Optional

import numpy as np

from .arrays import Array
from .carried import carried
from .errors import FormatError, MeshError
from .mesh import Mesh
from .obj import Scan, Unlike, read_obj, scan, scanned_mesh, word_by_word
from .obj_writing import plain_text
from .plain import canonical, strange
from .program import Program
from .refusal import NOT_QUAD, SYNTAX, Refusal
from .scaling import is_short
from .subdivision import subdivide

NO_MANIFOLD = 7
ROUNDED = 0.5e-6 * (1 + 1e-6)
"""How far the program may round a coordinate."""
MARK = b"\xef\xbb\xbf"
UNLIKE_TEXTS = ((b"\xff\xfe", "UTF-16"), (b"\xfe\xff", "UTF-16"), (b"\x00", "no text"))
LINE = re.compile(r"line (\d+): (.*)")


def read_judged(text: bytes, program: Program, polygons: bool = False) -> Mesh:
    """The mesh of an OBJ text. Its faces, and the vertices that these have, are those that the program reads, as it
    rounds them; of a mesh of so small a unit that this shows they are as they stand. With `polygons` a mesh of any
    polygons is taken. Raises a `Refusal`."""
    refuse_other_texts(text)
    try:
        tidied = program.tidy(text)
    except Refusal as said:
        if said.status == NOT_QUAD and polygons:
            return _judged_polygons(text, program)
        raise _with_places(said, text) from said
    mesh = _compared(text, tidied)
    if not mesh.face_count:
        raise Refusal(NOT_QUAD, "no faces")
    return mesh


def judge_divided(mesh: Mesh, program: Program) -> Mesh:
    """A mesh whose polygons are divided into quads, as the program reads that. Raises a `Refusal` with places of the
    divided mesh."""
    points, quads = canonical(program.tidy(plain_text(mesh)))
    return _with_places_of(mesh, points, quads)


def refuse_other(mesh: Mesh, text: bytes, program: Program) -> None:
    """Raises a `MeshError` where a text has not the faces and the places of a mesh."""
    other = read_judged(text, program, polygons=True)
    is_same = np.array_equal(mesh.starts, other.starts) and np.array_equal(mesh.corners, other.corners)
    if not is_same or not _are_near(mesh.points[mesh.corners], other.points[other.corners]):
        raise MeshError("the text is of another mesh")


def refuse_other_texts(text: bytes) -> None:
    """Refuses what is saved in another way than as UTF-8 or as single letters."""
    for sign, name in UNLIKE_TEXTS:
        if text.startswith(sign):
            raise Refusal(SYNTAX, f"line 1: not an OBJ line of this profile: the file is {name}; save it as UTF-8")
    word = text[len(MARK):len(MARK) + 100].split(b"\n")[0].split()[:1] if text.startswith(MARK) else []
    if word and not word[0].startswith(b"#"):
        raise Refusal(SYNTAX, "line 1: not an OBJ line of this profile: a byte order mark stands before it; save the "
                      "file without one")


def _with_places(said: Refusal, text: bytes) -> Refusal:
    """A refusal of the program with the places that it names; of faces that are no quads, all of them."""
    told = Refusal.told(said.status, said.line, lambda it: it, lambda it: it)
    if said.status != NOT_QUAD:
        return told
    try:
        return Refusal(said.status, said.line, np.flatnonzero(read_obj(text).sides != 4).tolist())
    except FormatError:
        return told


def _compared(text: bytes, tidied: bytes) -> Mesh:
    points, quads = canonical(tidied)
    rough = Mesh(points, quads.reshape(-1), np.arange(0, quads.size + 1, 4))
    found: Optional[Scan] = None
    with contextlib.suppress(Unlike):
        found = scan(text)
    if found is not None and found.is_plain and not is_short(rough) and (
            (found.counts["v"], found.counts["f"]) == (len(points), len(quads))):
        return rough
    try:
        mesh = word_by_word(text) if found is None else scanned_mesh(found, text)
    except FormatError as error:
        raise strange(f"{error.line}, and the program has read the text") from error
    return _with_places_of(mesh, points, quads)


def _with_places_of(mesh: Mesh, points: Array, quads: Array) -> Mesh:
    """The mesh with the places that the program has read. Refused where that has read another one."""
    used = mesh.used
    number = np.zeros(len(mesh.points), dtype=np.int64)
    number[used] = np.arange(len(used))
    if not np.array_equal(number[mesh.corners], quads.reshape(-1)) or not mesh.is_quads():
        raise strange("the program has read other faces than this package")
    if not _are_near(mesh.points[used], points):
        raise strange("the program has read other places than this package")
    if is_short(mesh):
        return mesh
    places = mesh.points.copy()
    places[used] = points
    return replace(mesh, points=places)


def _are_near(some: Array, others: Array) -> bool:
    """Whether places are those that the program makes of others."""
    return some.shape == others.shape and bool(np.all(np.abs(some - others) <= ROUNDED + 1e-15 * np.abs(others)))


def _judged_polygons(text: bytes, program: Program) -> Mesh:
    """The mesh of a text with polygons, whose lines the program has read: polygons as quads over their corners."""
    fours, numbers = in_fours(text)
    try:
        program.tidy(fours)
    except Refusal as said:
        found = LINE.fullmatch(said.line)
        if found is not None and 0 < int(found[1]) <= len(numbers):
            raise Refusal(said.status, f"line {numbers[int(found[1]) - 1]}: {found[2]}") from said
        if said.status != NO_MANIFOLD:
            raise
    try:
        return read_obj(text)
    except FormatError as error:
        raise strange(f"{error.line}, and the program has read the text") from error


def in_fours(text: bytes) -> tuple[bytes, list[int]]:
    """A text in which each polygon stands as some faces of four corners, over all of its corners; and for each of its
    lines the number of the line in the text that it is made of."""
    tool = carried("obj_text")
    lines: list[bytes] = []
    numbers: list[int] = []
    for line in tool.logical_lines(text):
        words = line.words
        some = [b" ".join(words)] if words[:1] in ([b"v"], [b"f"]) else [b""]
        if line.size > tool.MAX_LINE:
            some = [b"#" * line.size]
        elif words[:1] == [b"f"] and len(words) > 3 and len(words) != 5:
            # The first point is there where any is.
            corners = [_short(it) for it in words[1:]] + [b"1"] * (-(len(words) - 1) % 4)
            some = [b"f " + b" ".join(corners[at:at + 4]) for at in range(0, len(corners), 4)]
        lines += some
        numbers += [line.number] * len(some)
    # No backslash of a word stands at the end of a line.
    return b"".join(it + (b" \n" if it.endswith(b"\\") else b"\n") for it in lines), numbers


def _short(corner: bytes) -> bytes:
    """A corner of the same vertex that makes no line longer, or a word that is none."""
    tool = carried("obj_text")
    found = tool.CORNER.fullmatch(corner)
    return b"%d" % tool.whole_number(found[1]) if found is not None else b"x"


def told_of_old(said: Refusal, old: Mesh) -> Refusal:
    """A refusal of a divided mesh with the places of the old one, of which `subdivide` made it."""
    if not said.faces and not said.vertices:
        return said
    if said.status == NO_MANIFOLD and (twice := _repeated(old)) is not None:
        face, vertex = twice
        return Refusal(NO_MANIFOLD, f"face {face + 1}: vertex {vertex + 1} repeated", [face], [vertex])
    owner, ends = old.face_of_corner(), old.edges.ends
    faces = list(dict.fromkeys(owner[list(said.faces)].tolist()))
    line = re.sub(r"^face \d+", lambda _: f"face {faces[0] + 1}" if faces else "a face", said.line)
    vertices = [it for it in said.vertices if it < len(old.points)]
    middles = [ends[it - len(old.points)].tolist() for it in said.vertices
               if len(old.points) <= it < len(old.points) + len(ends)]
    if line.startswith("edge ") and len(said.faces) == 2 and middles:
        vertices = _directed(list(said.vertices), vertices, middles[0])
        both = owner[list(said.faces)] + 1
        line = f"edge {vertices[0] + 1} {vertices[1] + 1}: faces {both[0]} and {both[1]}"
    elif line.startswith("vertex ") and middles:
        line, vertices = f"edge {middles[0][0] + 1} {middles[0][1] + 1}: two fans", middles[0]
    return Refusal(said.status, line, faces, vertices)


def _repeated(mesh: Mesh) -> Optional[tuple[int, int]]:
    """The first face that has a vertex twice, and that vertex."""
    keys = mesh.face_of_corner() * len(mesh.points) + mesh.corners
    found, counts = np.unique(keys, return_counts=True)
    twice = found[counts > 1]
    return None if not len(twice) else (int(twice[0] // len(mesh.points)), int(twice[0] % len(mesh.points)))


def _directed(ends: list[int], known: list[int], edge: list[int]) -> list[int]:
    """The ends of an old edge in the direction of its half between two points."""
    if not known:
        return edge
    other = edge[0] if edge[1] == known[0] else edge[1]
    return [known[0], other] if ends[0] == known[0] else [other, known[0]]


def divided(mesh: Mesh, program: Program) -> Mesh:
    """A mesh with its polygons divided into quads. Raises a `Refusal` with the places of the mesh."""
    try:
        return judge_divided(subdivide(mesh), program)
    except Refusal as said:
        raise told_of_old(Refusal.told(said.status, said.line, lambda it: it, lambda it: it), mesh) from said


def refuse_polygons(mesh: Mesh) -> None:
    """Raises a `Refusal` where a face is no quad."""
    wrong = np.flatnonzero(mesh.sides != 4)
    if len(wrong):
        others = f", and {len(wrong) - 1} more are no quads" if len(wrong) > 1 else ""
        raise Refusal(NOT_QUAD, f"face {wrong[0] + 1}: {mesh.sides[wrong[0]]} corners{others}", wrong.tolist())
