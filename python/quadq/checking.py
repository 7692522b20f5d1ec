"""Many files checked: the faults of each, and not only the first."""

from __future__ import annotations

import fnmatch
import glob
import os
from concurrent.futures import ThreadPoolExecutor
from dataclasses import dataclass, field
from pathlib import Path
from typing import Callable, Iterable, Iterator, NamedTuple, Optional, Sequence, Union

import numpy as np

from .carried import carried
from .errors import FormatError, WishError
from .files import read_whole
from .formats import read_file
from .inputs import PathLike, folder_named, refuse_folder
from .manifold import parts_at_fault
from .mesh import Mesh
from .obj import read_obj
from .obj_writing import plain_text
from .parts import Part
from .program import Program
from .reading import refuse_other_texts
from .refusal import ADVICE, NOT_QUAD, READ_FAULT, Refusal
from .running import stop_all
from .surface import part_of_face

KNOWN = (".obj", ".off", ".msh", ".vtk", ".vtu", ".ply", ".stl", ".inp")
"""What is taken of folders, if no pattern is given."""
MOST = 100
"""So many faults of a file are told; of more their number."""
NAMING = ("o", "g", "usemtl")
SOME_REFUSED = 1
"""The status where files are refused for several reasons."""


class Lines(NamedTuple):
    """The numbers of the lines of a text, for each face and each vertex."""

    of_faces: Sequence[int]
    of_vertices: Sequence[int]


@dataclass(frozen=True)
class Fault:
    """Something for which the program refuses a file. Faces and vertices count from 0."""

    status: int
    words: str
    line: Optional[int] = None
    """The number of a line of an OBJ text, from 1."""
    faces: tuple[int, ...] = ()
    vertices: tuple[int, ...] = ()
    part: str = ""
    """The name of the part in which it is, where it has one."""
    count: int = 1
    """How many faces of the part are no quads, where this is the first."""

    @property
    def advice(self) -> str:
        """What to do."""
        if self.status == NOT_QUAD:
            return "Only quads can be remeshed: --subdivide divides every face into quads first."
        return ADVICE.get(self.status, "")


@dataclass(frozen=True)
class Checked:
    """What was found of a file."""

    path: Path
    faces: int = 0
    faults: tuple[Fault, ...] = field(default=())
    more: int = 0
    """How many further faults it has."""

    @property
    def status(self) -> int:
        """That of the program for this file: 0 where it takes it."""
        return self.faults[0].status if self.faults else 0


def check(
    files: Union[PathLike, Iterable[PathLike]], *, pattern: Optional[str] = None, jobs: int = 0,
    program: Optional[Program] = None, say: Callable[[Checked], None] = lambda it: None
) -> list[Checked]:
    """Checks each file, in their order; `say` is told each in turn. Folders stand for all files below of known formats,
    or for those whose names a pattern matches; a name with `*`, `?` or `[` that no file has, for what it matches.
    Raises a `WishError` for what matches nothing."""
    given = [files] if isinstance(files, (str, os.PathLike)) else list(files)
    runner = Program() if program is None else program
    done: list[Checked] = []
    with ThreadPoolExecutor(max(1, jobs or os.cpu_count() or 1)) as pool:
        waiting = [pool.submit(check_file, it, runner) for it in files_of(given, pattern)]
        try:
            for future in waiting:
                done.append(future.result())
                say(done[-1])
        except BaseException:
            for future in waiting:
                future.cancel()
            stop_all()
            raise
    return done


def status_of(found: Sequence[Checked]) -> int:
    """0 where all files are taken, the status that those have which are not, or 1 where they have several."""
    statuses = {it.status for it in found} - {0}
    return statuses.pop() if len(statuses) == 1 else SOME_REFUSED if statuses else 0


def files_of(given: Sequence[PathLike], pattern: Optional[str]) -> list[Path]:
    """The files that these paths are, lie below or match, each once."""
    found: dict[Path, None] = {}
    for it in map(folder_named, given):
        if os.path.isdir(it):
            some = list(_files_below(it, pattern))
        elif glob.has_magic(str(it)) and not os.path.exists(it):
            some = [Path(name) for name in sorted(glob.glob(str(it), recursive=True)) if os.path.isfile(name)]
        else:
            some = [it]
        if not some:
            raise WishError(f"{it}: there are no files that could be checked")
        found.update(dict.fromkeys(some))
    return list(found)


def _files_below(folder: Path, pattern: Optional[str]) -> Iterator[Path]:
    """Hidden folders are left out."""
    for place, folders, names in os.walk(folder, onerror=refuse_folder):
        folders[:] = sorted(it for it in folders if not it.startswith("."))
        for name in sorted(names):
            if fnmatch.fnmatchcase(name, pattern) if pattern else name.lower().endswith(KNOWN):
                yield Path(place, name)


def check_file(path: Path, program: Program) -> Checked:
    """What is found of a file."""
    try:
        if path.suffix.lower() not in ("", ".obj"):
            mesh, _ = read_file(path, program, polygons=True)
            faults = list(_faults_of_mesh(mesh, program, None))
            return Checked(path, mesh.face_count, tuple(faults[:MOST]), max(len(faults) - MOST, 0))
        if not os.path.isfile(path):
            words = "no such file" if not os.path.exists(path) else "no regular file"
            raise Refusal(READ_FAULT, f"read fault: {path}: {words}")
        return check_text(path, read_whole(path, carried("obj_text").MAX_BYTES), program)
    except Refusal as said:
        return Checked(path, 0, (Fault(said.status, said.line, _line_in(said.line), said.faces, said.vertices),))


def check_text(path: Path, text: bytes, program: Program) -> Checked:
    """What is found of the text of a file. Raises a `Refusal` where it is no text, or has no faces."""
    refuse_other_texts(text)
    try:
        tidied = program.tidy(text)
    except Refusal as said:
        faults = _faults_of_text(text, said, program)
        return Checked(path, 0, tuple(faults[:MOST]), max(len(faults) - MOST, 0))
    if not tidied:
        raise Refusal(NOT_QUAD, "no faces")
    return Checked(path, tidied.count(b"\nf "))


def _faults_of_text(text: bytes, said: Refusal, program: Program) -> list[Fault]:
    """All lines that are refused, or else the first fault of each part. That which the program says stands first."""
    survey = carried("obj_text").survey(text)
    found = [Fault(it.status, it.line, _line_in(it.line)) for it in survey.errors]
    if not found:
        try:
            lines = Lines(survey.face_lines, survey.vertex_lines)
            found = list(_faults_of_mesh(read_obj(text), program, lines))
        except FormatError:
            pass
    first = next((it for it in found if it.words == said.line), Fault(said.status, said.line, _line_in(said.line)))
    return [first, *(it for it in found if it is not first)]


def _line_in(words: str) -> Optional[int]:
    """The number of the line that is named."""
    number = words[len("line "):].partition(":")[0]
    return int(number) if words.startswith("line ") and number.isdecimal() else None


def _faults_of_mesh(mesh: Mesh, program: Program, lines: Optional[Lines]) -> Iterator[Fault]:
    """The first fault of each part, in the order of their first faces."""
    parts = part_of_face(mesh)
    is_odd = mesh.sides != 4
    odd = np.flatnonzero(is_odd)
    _, first, count = np.unique(parts[odd], return_index=True, return_counts=True)
    faults = [(int(odd[it]), _odd_fault(mesh, int(odd[it]), int(many), lines)) for it, many in zip(first, count)]
    for faces in parts_at_fault(mesh, parts, is_odd):
        one, points = mesh.faces_of(faces)
        part = Part(one, plain_text(one), faces, points)
        try:
            program.tidy(part.text)
        except Refusal as said:
            told = part.refusal(said)
            faults.append((int(faces[0]), _placed(mesh, told, int(faces[0]), lines)))
    return (it for _, it in sorted(faults, key=lambda it: int(parts[it[0]])))


def _odd_fault(mesh: Mesh, face: int, count: int, lines: Optional[Lines]) -> Fault:
    corners = int(mesh.sides[face])
    line = None if lines is None else lines.of_faces[face]
    words = f"face {face + 1}: {corners} corners" if line is None else f"line {line}: face with {corners} corners"
    return Fault(NOT_QUAD, words, line, (face,), (), _name_of(mesh, face), count)


def _placed(mesh: Mesh, said: Refusal, face: int, lines: Optional[Lines]) -> Fault:
    """A refusal with the line of its face, or of its vertex."""
    line, named = None, said.faces or said.vertices
    if lines is not None and named:
        line = (lines.of_faces if said.faces else lines.of_vertices)[named[-1]]
    return Fault(said.status, said.line, line, said.faces, said.vertices, _name_of(mesh, face))


def _name_of(mesh: Mesh, face: int) -> str:
    """The name of what a face belongs to."""
    names = (it.names[it.of_face[face]] for it in (mesh.groups[word] for word in NAMING if word in mesh.groups))
    return next((it for it in names if it), "")
