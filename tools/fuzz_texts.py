#!/usr/bin/env python3
"""Spoils OBJ texts by chance, and compares what the program, the package and the scripts make of each.

usage: tools/fuzz_texts.py [--count N] [--seed S] [--keep FOLDER] [MESH.obj..]

The texts are those of python/tests/seeds and examples, or those that are named. Of each spoilt text

  the package has the vertices and faces that `quadq tidy` writes, or its status and its words, with the same line;
  the readers of `obj_text.py` and of the package say the same, word by word and by tables, and the reader that goes on
  behind a line that is refused says the same first;
  a mesh of any polygons is the one that stands there, or is refused at the line at which `obj_text.py` refuses it;
  `quadq-check` has the program's status and words before any other;
  what was read is written as a text in which the same stands, names and all;
  marked features and what is carried over are read or refused;
  of one in ten the whole way ends with a mesh or a refusal.

Anything else is named on standard error, with the text, which --keep writes into a folder; then the status is 1. It
wants numpy. QUADQ may name the program, which is dist/quadq else.
"""

from __future__ import annotations

import argparse
import collections
import pathlib
import random
import sys
import traceback
from dataclasses import dataclass, field
from typing import Iterator, Optional, Union

ROOT = pathlib.Path(__file__).resolve().parent.parent
sys.path[:0] = [str(ROOT / "tools"), str(ROOT / "python")]
import numpy as np  # noqa: E402

import carry  # noqa: E402
import mark_features  # noqa: E402
import obj_text  # noqa: E402
import quadq  # noqa: E402
from spoiling import spoilt  # noqa: E402
from quadq.checking import check_text  # noqa: E402
from quadq.obj import SURE, Unlike, scan  # noqa: E402
from quadq.plain import canonical  # noqa: E402
from quadq.reading import read_judged  # noqa: E402

WHOLE_WAY = 10
"""Of so many texts one goes the whole way."""
STARTS = (b"\xef\xbb\xbf", b"\xff\xfe", b"\xfe\xff", b"\0")
"""What the package refuses by its first bytes, whatever the program takes it for."""
Answer = Union[tuple[int, str], tuple[int, list[list[float]], list[list[int]]]]


@dataclass(frozen=True)
class Remembering(quadq.Program):
    """A program that tidies the same text once."""

    known: dict[bytes, Union[bytes, quadq.Refusal]] = field(default_factory=dict)

    def tidy(self, text: bytes) -> bytes:
        if text not in self.known:
            try:
                self.known[text] = super().tidy(text)
            except quadq.Refusal as said:
                self.known[text] = said
        found = self.known[text]
        if isinstance(found, quadq.Refusal):
            raise quadq.Refusal(found.status, found.line)
        return found


def of_program(text: bytes, program: quadq.Program) -> Answer:
    try:
        points, quads = canonical(program.tidy(text))
    except quadq.Refusal as said:
        return said.status, said.line
    return 0, points.tolist(), quads.tolist()


def of_package(text: bytes, program: quadq.Program) -> Answer:
    try:
        mesh = read_judged(text, program)
    except quadq.Refusal as said:
        return said.status, said.line
    used, corners = np.unique(mesh.corners, return_inverse=True)
    return 0, mesh.points[used].round(6).tolist(), corners.reshape(-1, 4).tolist()


def of_script(text: bytes, polygons: bool) -> Union[tuple[int, str], obj_text.Obj]:
    try:
        return obj_text.read_obj(text, polygons)
    except obj_text.ObjError as said:
        return said.status, said.line


def faults_of(text: bytes, program: quadq.Program) -> Iterator[str]:
    """What is not as it should be."""
    wanted, found = of_program(text, program), of_package(text, program)
    is_empty = wanted[0] == 0 and not wanted[-1] and found == (4, "no faces")
    if found != wanted and not is_empty and not (found[0] == 3 and text.startswith(STARTS)):
        if not (wanted[0] == found[0] == 0 and near(wanted, found)):
            yield f"the program answers {str(wanted)[:200]}, and the package {str(found)[:200]}"
    own = of_script(text, polygons=False)
    if isinstance(own, tuple) != (wanted[0] not in (0, 7)) or (isinstance(own, tuple) and own != wanted):
        yield f"the program answers {str(wanted)[:200]}, and obj_text.py {str(own)[:200]}"
    every = of_script(text, polygons=True)
    yield from differences(every, text)
    yield from of_survey(every, text)
    yield from of_polygons(every, text, program)
    yield from of_check(wanted, text, program)


def of_survey(own: Union[tuple[int, str], obj_text.Obj], text: bytes) -> Iterator[str]:
    """Where the reader that goes on behind a line that is refused differs from the one that does not."""
    found = obj_text.survey(text)
    said = [(it.status, it.line) for it in found.errors]
    if said[:1] != ([own] if isinstance(own, tuple) else []):
        yield f"obj_text.py says {str(own)[:200]}, and its survey {said[:1]}"
    if len(found.obj.faces) != len(found.face_lines):
        yield "the survey has other faces than lines of faces"


def of_polygons(own: Union[tuple[int, str], obj_text.Obj], text: bytes, program: quadq.Program) -> Iterator[str]:
    """Where a mesh of polygons is another than the one that stands there, or refused at another place."""
    try:
        mesh = read_judged(text, program, polygons=True)
    except quadq.Refusal as said:
        is_of_lines = said.status in (3, 5, 6) and not text.startswith(STARTS)
        if is_of_lines and own != (said.status, said.line):
            yield f"obj_text.py says {str(own)[:200]}, and of polygons the package {said.status} {said.line}"
        return
    if isinstance(own, tuple):
        yield f"obj_text.py says {str(own)[:200]}, and of polygons the package nothing"
    elif mesh.face_count:
        used = np.unique([it.vertex for face in own.faces for it in face])
        number = {int(it): at for at, it in enumerate(used)}
        faces = [[number[it.vertex] for it in face] for face in own.faces]
        numbers = np.searchsorted(mesh.used, mesh.corners)
        if faces != [it.tolist() for it in np.split(numbers, mesh.starts[1:-1])]:
            yield "of polygons the package has other faces than obj_text.py"


def of_check(wanted: Answer, text: bytes, program: quadq.Program) -> Iterator[str]:
    """Where `quadq-check` says another thing than the program."""
    try:
        found = check_text(pathlib.Path("text.obj"), text, program)
    except quadq.Refusal as said:
        if said.line != "no faces" and not text.startswith(STARTS):
            yield f"quadq-check refuses: {said.status} {said.line}"
        return
    first = (found.faults[0].status, found.faults[0].words) if found.faults else 0
    if first != (wanted[:2] if wanted[0] else 0) or (not first and found.faces != len(wanted[-1])):
        yield f"the program answers {str(wanted)[:200]}, and quadq-check {str(first)[:200]}"


def near(wanted: Answer, found: Answer) -> bool:
    """Whether two meshes have the same faces, and places that differ by what is rounded: a small unit is not."""
    one, other = np.array(wanted[1]), np.array(found[1])
    return wanted[2:] == found[2:] and one.shape == other.shape and bool(np.all(np.abs(one - other) <= 1e-6))


def differences(own: Union[tuple[int, str], obj_text.Obj], text: bytes) -> Iterator[str]:
    """Where the package's two ways to read differ from the script."""
    try:
        mesh: Optional[quadq.Mesh] = quadq.read_obj(text)
        said: tuple[int, str] = (0, "")
    except quadq.FormatError as error:
        mesh, said = None, (error.status, error.line)
    if isinstance(own, tuple) or mesh is None:
        if own != said:
            yield f"obj_text.py says {str(own)[:200]}, and read_obj {said}"
        return
    meshes = [("read_obj", mesh)]
    try:
        meshes.append(("the tables", scan(text).mesh()))
    except Unlike:
        pass
    for name, it in meshes:
        if told(it) != told_of(own):
            yield f"{name} and obj_text.py differ: {told(it)} and {told_of(own)}"
    # A place at the border of what is in range may be beyond it as a floating-point number.
    again = quadq.read_obj(quadq.write_obj(mesh)) if np.all(np.abs(mesh.points) < SURE) else mesh
    if told(again)[:-1] != told(mesh)[:-1]:
        yield f"what is written again differs: {told(again)} and {told(mesh)}"


def told(mesh: quadq.Mesh) -> list[object]:
    """All that a mesh has, as lists."""
    values = [list(it) for it in mesh.points.tolist()]
    faces = np.split(mesh.corners, mesh.starts[1:-1])
    layers = [[None if it is None or row < 0 else it.values[row].tolist() for row in
               (it.rows.tolist() if it is not None else [-1] * len(mesh.corners))]
              for it in (mesh.texture, mesh.normal)]
    names = [[mesh.groups[word].names[at] for at in mesh.groups[word].of_face.tolist()] if word in mesh.groups
             else [""] * mesh.face_count for word in obj_text.NAMES]
    return [values, [it.tolist() for it in faces] if mesh.face_count else [], layers, names,
            [it.tolist() for it in mesh.lines], list(mesh.libraries), list(mesh.notes)]


def told_of(obj: obj_text.Obj) -> list[object]:
    corners = [it for face in obj.faces for it in face]
    layers = []
    for values, rows in ((obj.textures, [it.texture for it in corners]), (obj.normals, [it.normal for it in corners])):
        width = max(map(len, values), default=0)
        layers.append([None if it is None else [*values[it], *[0.0] * (width - len(values[it]))] for it in rows])
    names = [[it[at] for it in obj.names] for at in range(len(obj.names[0]) if obj.names else 0)] or [[]] * 4
    return [[list(obj.place(it)) for it in range(len(obj.points))], [[it.vertex for it in face] for face in obj.faces],
            layers, names, obj.lines, obj.libraries, obj.notes]


def try_further(text: bytes, program: quadq.Program, is_whole: bool) -> None:
    """What reads the text besides. It may refuse, and nothing else."""
    try:
        carry.read_old(text)
    except ValueError:
        pass
    try:
        mark_features.find_features(mark_features.read_mesh(text), mark_features.parse(["-", "--seams", "--groups"]))
    except ValueError:
        pass
    try:
        mesh = read_judged(text, program, polygons=True)
        if is_whole and mesh.face_count < 100:
            is_plain = mesh.is_quads()
            quadq.remesh(mesh, scale="1/2", program=program, subdivide=not is_plain, carry=is_plain, jobs=1)
    except quadq.Refusal as said:
        assert said.status != 70, said


def main() -> int:
    parser = argparse.ArgumentParser(description=__doc__, formatter_class=argparse.RawDescriptionHelpFormatter)
    parser.add_argument("meshes", nargs="*", type=pathlib.Path, metavar="MESH.obj")
    parser.add_argument("--count", type=int, default=20_000)
    parser.add_argument("--seed", type=int, default=1)
    parser.add_argument("--keep", type=pathlib.Path)
    asked = parser.parse_args()
    paths = asked.meshes or [*sorted((ROOT / "python/tests/seeds").glob("*.obj")),
                             *(it for it in sorted((ROOT / "examples").glob("*.obj")) if it.stat().st_size < 10_000)]
    texts, rng, faults = [it.read_bytes() for it in paths], random.Random(asked.seed), 0
    statuses: collections.Counter[int] = collections.Counter()
    for number in range(asked.count):
        text, program = spoilt(rng.choice(texts), rng), Remembering(quadq.Program().path)
        try:
            found = list(faults_of(text, program))
            try_further(text, program, number % WHOLE_WAY == 0)
        except Exception:
            found = [traceback.format_exc()]
        statuses[of_program(text, program)[0]] += 1
        for it in found:
            print(f"fuzz_texts: text {number}: {it}\n  {text[-300:]!r}", file=sys.stderr)
        if found and asked.keep:
            asked.keep.mkdir(parents=True, exist_ok=True)
            (asked.keep / f"{asked.seed}-{number}.obj").write_bytes(text)
        faults += bool(found)
    counts = ", ".join(f"{count} with {status}" for status, count in sorted(statuses.items()))
    print(f"{asked.count} texts ({counts}): {faults} differ")
    return int(faults > 0)


if __name__ == "__main__":
    sys.exit(main())
