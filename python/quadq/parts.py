"""Connected parts of a mesh, each remeshed and checked by itself."""

from __future__ import annotations

import re
from concurrent.futures import ThreadPoolExecutor
from dataclasses import dataclass, field, replace
from pathlib import Path
from typing import Callable, Optional, Sequence, TypeVar

import numpy as np

from .arrays import Array
from .files import write_within
from .floors import Certified, certified_lengths
from .mesh import NONE, Mesh, Names, join
from .obj_writing import number_lines, plain_text
from .program import AUTO, DOUBLED, RAISED, Program, Verdict, Wish
from .plain import written_mesh
from .refusal import Refusal
from .running import stop_all
from .surface import number_in_order, part_of_face

Tell = Callable[[int], None]
"""Is told how many parts are done."""
NO_MARKS = np.zeros((0, 2), dtype=np.int64)
WISH = b"#w "
"""How a line begins that wishes the length of an edge."""
LINE = re.compile(r"line (\d+): (.*)")
KEPT = re.compile(r"part-(\d+)(?:\.remeshed)?\.obj")
FEW, SMALL, TOGETHER = 16, 1_000, 20_000
"""Where there are more than a few parts of no more than so many faces, they go through the program together, so many
faces at a time."""
DIVIDES = (5, 6, 7, 9, 10, 11, 14, 16, 17)
"""The statuses by which a mesh of several parts is refused though each of some may not be."""
Made = TypeVar("Made")


class Placed(Refusal):
    """A refusal that has the places of the whole mesh already."""


@dataclass(frozen=True)
class Part:
    """A connected part of a mesh, or many small ones, one behind the other, that go through the program together."""

    mesh: Mesh
    text: bytes
    """Its points and faces, and a line for each mark, as the program reads them."""
    faces: Array
    """The numbers of its faces in the whole mesh."""
    points: Array
    """The numbers of its points there."""
    marks: Array = field(default_factory=lambda: NO_MARKS)
    """(marks, 2) int64: the edges that are to stay, as pairs of its own points."""
    count: int = 1
    """How many connected parts it has."""
    wishes: Optional[Array] = None
    """(edges,) int64: the wishes for the lengths of its edges that its text has, or NONE at each without one."""

    def refusal(self, said: Refusal) -> Refusal:
        """What the program said of this part, with the places of the whole mesh."""
        told = LINE.fullmatch(said.line)
        if told is None:
            return Refusal.told(
                said.status, said.line, lambda it: int(self.faces[it]), lambda it: int(self.points[it]))
        at = int(told[1]) - 1
        if at < len(self.points):
            vertex = int(self.points[at])
            return Refusal(said.status, f"vertex {vertex + 1}: {told[2]}", (), [vertex])
        face = int(self.faces[min(at - len(self.points), len(self.faces) - 1)])
        return Refusal(said.status, f"face {face + 1}: {told[2]}", [face])

    def some(self, chosen: Array) -> Part:
        """Those of its connected parts that are chosen, as a table (parts,) bool says."""
        faces = np.flatnonzero(chosen[part_of_face(self.mesh)])
        one, points = self.mesh.faces_of(faces)
        at = np.minimum(np.searchsorted(points, self.marks), len(points) - 1)
        marks = at[np.all(points[at] == self.marks, axis=1)]
        part = Part(one, with_marks(plain_text(one), marks), self.faces[faces], self.points[points], marks,
                    int(chosen.sum()))
        if self.wishes is None:
            return part
        return with_wishes(part, self.wishes[self.mesh.edges.numbers_of(points[one.edges.ends])])

    def kinds(self, is_measured: bool) -> Array:
        """(parts,) int64: which of its connected parts are alike, and have alike lengths: they hang together in the
        same way, and where lengths are measured they have the same shape."""
        part_of = part_of_face(self.mesh)
        of_point = np.zeros(len(self.mesh.points), dtype=np.int64)
        of_point[self.mesh.corners] = np.repeat(part_of, self.mesh.sides)
        order = np.argsort(of_point, kind="stable")
        firsts = np.searchsorted(of_point[order], np.arange(self.count))
        rank = np.empty(len(order), dtype=np.int64)
        rank[order] = np.arange(len(order)) - firsts[of_point[order]]
        shapes = (self.mesh.points - self.mesh.points[order[firsts]][of_point])[order]
        ends = np.searchsorted(part_of, np.arange(self.count + 1))
        pieces = np.split(rank[self.mesh.corners], self.mesh.starts[ends[1:-1]])
        marks = _by_part(of_point[self.marks[:, 0]], rank[self.marks], self.count)
        place: dict[tuple[bytes, bytes, bytes], int] = {}
        looks = np.split(shapes, firsts[1:]) if is_measured else [firsts[:0]] * self.count
        keys = zip((it.tobytes() for it in pieces), (it.tobytes() for it in marks), (it.tobytes() for it in looks))
        return np.array([place.setdefault(it, len(place)) for it in keys], dtype=np.int64)


@dataclass(frozen=True)
class Written:
    """What the program wrote for a part, and what was found of it."""

    text: bytes
    verdict: Verdict
    certified: Certified
    """The lengths of its arcs, and the least that they could have."""
    command: str = "remesh"
    is_merged: bool = False
    """Whether patches were merged."""

    def mesh(self) -> Mesh:
        """What is written."""
        return written_mesh(self.text)

    @property
    def lengths(self) -> Array:
        """(arcs,) int64: the new length of each arc."""
        return self.certified.lengths


def split(mesh: Mesh, text: Optional[bytes] = None, marks: Array = NO_MARKS) -> list[Part]:
    """The connected parts of a mesh, in the order of their first faces; where there are many, small ones stand together
    in the place of the first. `text` has the mesh's points and faces, if it is at hand: where there is one part alone,
    that text is its. `marks` (marks, 2) are edges that are to stay, as pairs of points in rising order; with them the
    text has no `l` lines."""
    part_of = part_of_face(mesh)
    sizes = np.bincount(part_of)
    if len(sizes) == 1:
        whole = plain_text(mesh) if text is None else text
        every = np.arange(mesh.face_count), np.arange(len(mesh.points))
        return [Part(mesh, with_marks(whole, marks), *every, marks)]
    bundle_of = _bundles(sizes)
    count = int(bundle_of.max(initial=-1)) + 1
    of_point = np.zeros(len(mesh.points), dtype=np.int64)
    of_point[mesh.corners] = np.repeat(part_of, mesh.sides)
    in_order = np.argsort(part_of, kind="stable")
    parts = []
    for faces, own, many in zip(_by_part(bundle_of[part_of[in_order]], in_order, count),
                                _by_part(bundle_of[of_point[marks[:, 0]]], marks, count), np.bincount(bundle_of)):
        one, points = mesh.faces_of(faces)
        own = np.searchsorted(points, own)
        parts.append(Part(one, with_marks(plain_text(one), own), faces, points, own, int(many)))
    return parts


def _bundles(sizes: Array) -> Array:
    """(parts,) int64: which of parts of so many faces go through the program together, counted from 0."""
    names = np.arange(len(sizes))
    small = sizes <= SMALL
    if np.sum(small) > FEW:
        before = np.cumsum(np.where(small, sizes, 0)) - np.where(small, sizes, 0)
        _, first, of_part = np.unique(before[small] // TOGETHER, return_index=True, return_inverse=True)
        names[small] = np.flatnonzero(small)[first][of_part]
    return number_in_order(names)


def _by_part(part_of: Array, values: Array, count: int) -> list[Array]:
    """The values (n, ..) of things that lie in parts (n,), for each of so many parts."""
    ends = np.cumsum(np.bincount(part_of, minlength=count))
    return np.split(values[np.argsort(part_of, kind="stable")], ends[:-1]) if count else []


def with_marks(text: bytes, marks: Array) -> bytes:
    """A text with a line for each mark behind it, which continues no line of it."""
    return text + b"\n\n" + number_lines("l", marks + 1).encode() if len(marks) else text


def with_wishes(part: Part, wishes: Array) -> Part:
    """A part with lines in its text for the edges with a wish (edges,): whole numbers from 0, or NONE."""
    chosen = np.flatnonzero(wishes != NONE)
    table = np.column_stack([part.mesh.edges.ends[chosen] + 1, wishes[chosen]])
    text = part.text
    if text.startswith(WISH) or b"\n" + WISH in text:
        text = with_marks(plain_text(part.mesh), part.marks)
    return replace(part, text=text + b"\n\n" + number_lines("#w", table).encode(), wishes=wishes)


def _placed(part: Part, work: Callable[[Part], Made]) -> Made:
    """What the work makes of a part. A refusal has the places of the whole mesh."""
    try:
        return work(part)
    except Refusal as said:
        raise said if isinstance(said, Placed) else part.refusal(said) from said


class Workshop:
    """Runs the program over parts, some at a time."""

    def __init__(self, program: Program, jobs: int, tell: Tell = lambda _: None) -> None:
        self.program = program
        self.jobs = max(1, jobs)
        self.tell = tell

    def each(self, parts: Sequence[Part], work: Callable[[Part], Made]) -> list[Made]:
        """What the work makes of each part, in their order. The first refusal, in this order, goes to the caller."""
        done: list[Made] = []
        with ThreadPoolExecutor(self.jobs) as pool:
            waiting = [pool.submit(_placed, part, work) for part in parts]
            try:
                for future in waiting:
                    done.append(future.result())
                    self.tell(len(done))
            except BaseException as error:
                for future in waiting:
                    future.cancel()
                if not isinstance(error, Refusal):
                    stop_all()
                raise
        return done

    def remesh(self, parts: Sequence[Part], wish: Wish) -> tuple[list[Part], list[bytes]]:
        """What the command writes for each part. It is not checked yet. Small parts that do not go together are
        divided."""
        made = [it for some in self.each(parts, lambda part: self._made(part, wish)) for it in some]
        return [part for part, _ in made], [text for _, text in made]

    def _made(self, part: Part, wish: Wish) -> list[tuple[Part, bytes]]:
        if part.count == 1:
            return [(part, self.program.remesh(part.text, wish))]
        # Among many parts none gets a greater floor for the sake of another.
        is_alike = wish.floor == AUTO and not self.program.is_by_need(wish)
        try:
            return [(part, self.program.remesh(part.text, wish.at_floor(1) if is_alike else wish))]
        except Refusal as said:
            if said.status not in DIVIDES:
                raise
            is_doubled = said.status == DOUBLED
        kinds = part.kinds(wish.edge is not None)
        if is_alike and is_doubled and not kinds.max():
            return self._made(part, wish.at_floor(RAISED))
        names = kinds if kinds.max() else np.arange(part.count)
        is_first = names <= int(names.max()) // 2
        return [it for half in (is_first, ~is_first) for it in self._half(part.some(half), wish)]

    def _half(self, part: Part, wish: Wish) -> list[tuple[Part, bytes]]:
        """Of some connected parts of a part; places are those of the whole mesh."""
        try:
            return self._made(part, wish)
        except Placed:
            raise
        except Refusal as said:
            told = part.refusal(said)
            raise Placed(told.status, told.line, told.faces, told.vertices) from said

    def judge(self, parts: Sequence[Part], texts: Sequence[bytes], wish: Wish) -> list[Written]:
        """Each text with what was found of it, behind the part that it was made of."""
        text_of = {id(part): text for part, text in zip(parts, texts)}
        return self.each(parts, lambda part: self._judged(part, text_of[id(part)], wish))

    def _judged(self, part: Part, text: bytes, wish: Wish) -> Written:
        verdict = self.program.judge(part.text, text, wish)
        is_merged = wish.command == "coarse" or wish.is_merged
        return Written(text, verdict, certified_lengths(text), wish.command, is_merged)


def put_together(parts: list[Part], meshes: list[Mesh]) -> Mesh:
    """The new meshes of parts side by side. A name that all faces of an old part share is that of its new faces."""
    return join([_named(part, mesh) for part, mesh in zip(parts, meshes)])


def _named(part: Part, new: Mesh) -> Mesh:
    """The program writes its faces patch by patch, so that connected parts come in their old order."""
    old, groups = part.mesh, {}
    if part.count == 1:
        of_old = np.zeros(old.face_count, dtype=np.int64)
        of_new = np.zeros(new.face_count, dtype=np.int64)
    else:
        of_old, of_new = part_of_face(old), part_of_face(new)
    firsts = np.searchsorted(of_old, np.arange(part.count)) if old.face_count else np.zeros(0, dtype=np.int64)
    for word, it in old.groups.items():
        is_one = np.minimum.reduceat(it.of_face, firsts) == np.maximum.reduceat(it.of_face, firsts)
        if np.any(is_one):
            names = np.where(is_one, it.of_face[firsts], len(it.names))
            groups[word] = Names((*it.names, ""), names[of_new])
    return replace(new, groups=groups, libraries=old.libraries)


def keep(folder: Path, parts: list[Part], written: list[Written]) -> None:
    """Writes the old and the new text of each part into a folder, as `part-1.obj` and `part-1.remeshed.obj`, and
    removes those of further parts that an earlier run has left there."""
    for number, (part, it) in enumerate(zip(parts, written), 1):
        write_within(folder, f"part-{number}.obj", part.text)
        write_within(folder, f"part-{number}.remeshed.obj", it.text)
    for path in folder.glob("part-*.obj"):
        found = KEPT.fullmatch(path.name)
        if found is not None and int(found[1]) > len(parts):
            path.unlink()
