"""The cut of a mesh into patches, as tables: what `quadq layout` writes."""

from __future__ import annotations

from dataclasses import dataclass, replace
from functools import cached_property
from typing import Optional

import numpy as np

from .arrays import Array
from .conversions import MeshLike, as_mesh
from .errors import WishError
from .mesh import NONE, Mesh
from .obj_writing import number_lines, plain_text
from .plain import strange
from .program import USAGE, Program
from .refusal import Refusal
from .scaling import factor_of
from .surface import least_in_class, number_in_order

KEPT, CUTS = ("none", "lines"), ("traced", "merged", "conforming")
"""What `quadq layout` takes behind `--keep` and `--patches`."""
SIDES = ("south", "east", "north", "west")
COUNTED = ("singular", "corner", "reflex")
"""The words of irregular vertices: inside, and on the boundary with one face and with more than two."""
WORDS = (*SIDES, *COUNTED, "seed", "break", "arc", "marked", "patch")
LETTERS = bytes(range(ord("a"), ord("z") + 1))


@dataclass(frozen=True)
class Cut:
    """A mesh cut into rectangular patches along straight arcs. All numbers count from 0; points are those of the mesh.
    """

    euler: int
    """The Euler number of the mesh."""
    components: int
    irregular: dict[str, Array]
    """By the words singular, corner and reflex (n, 2) int64: irregular points, and how many faces each has."""
    seeds: Array
    """(n,) int64: where riders start in a component that has no irregular point."""
    breaks: Array
    """(n,) int64: where kept lines are broken, in a cut that keeps some."""
    lengths: Array
    """(arcs,) int64: how many edges each arc has."""
    along: Array
    """(points of arcs,) int64: the points along the arcs, one arc after the other, both ends of each among them."""
    is_marked: Array
    """(arcs,) bool: whether an arc goes along a kept line."""
    sizes: Array
    """(patches, 2) int64: how many faces wide and high each patch is."""
    uses: Array
    """(uses,) int64: the arcs on the south, east, north and west side of each patch, counterclockwise."""
    uses_of_sides: Array
    """(patches, 4) int64: how many of these each side has."""
    patch_of_face: Optional[Array] = None
    """(faces,) int64: the patch of each face."""

    def __repr__(self) -> str:
        return f"<quadq.Cut: {len(self.sizes)} patches, {len(self.lengths)} arcs, euler {self.euler}>"

    @cached_property
    def _lasts(self) -> Array:
        """(arcs,) int64: where the last point of each arc stands."""
        return np.asarray(np.cumsum(self.lengths + 1) - 1)

    @cached_property
    def arcs(self) -> Array:
        """(arcs, 3) int64: the points at which each begins and ends, and how many edges it has."""
        return np.column_stack([self.along[self._lasts - self.lengths], self.along[self._lasts], self.lengths])

    @cached_property
    def arc_points(self) -> tuple[Array, ...]:
        """The points along each arc."""
        return tuple(np.split(self.along, self._lasts[:-1] + 1)) if len(self.lengths) else ()

    @cached_property
    def sides(self) -> tuple[tuple[Array, ...], ...]:
        """For each patch the arcs on its south, east, north and west side, counterclockwise."""
        each = np.split(self.uses, np.cumsum(self.uses_of_sides.ravel())[:-1]) if len(self.sizes) else []
        return tuple(zip(*(each[at::len(SIDES)] for at in range(len(SIDES)))))

    @property
    def nodes(self) -> Array:
        """(nodes,) int64: the ends of arcs, in rising order. They are the first points of what is remeshed."""
        return np.asarray(np.unique(self.arcs[:, :2]))

    def side_lengths(self, lengths: Array) -> Array:
        """(patches, 4, ..): how long the sides of each patch are where the arcs have these lengths (arcs, ..)."""
        starts = np.cumsum(self.uses_of_sides.ravel()) - self.uses_of_sides.ravel()
        long = np.add.reduceat(lengths[self.uses], starts) if len(starts) else lengths[:0]
        return np.asarray(long.reshape(-1, len(SIDES), *lengths.shape[1:]))

    @cached_property
    def steps(self) -> Array:
        """(edges of arcs, 2) int64: the points between which arcs go, edge by edge, one arc after the other."""
        is_step = np.ones(len(self.along), dtype=bool)
        is_step[self._lasts] = False
        first = np.flatnonzero(is_step)
        return np.column_stack([self.along[first], self.along[first + 1]])

    def edges_along(self, mesh: Mesh) -> Array:
        """(edges of arcs,) int64: the edges of the mesh along the arcs, one arc after the other."""
        edges = mesh.edges.numbers_of(np.sort(self.steps, axis=1))
        if np.any(edges == NONE):
            raise strange("an arc goes where the mesh has no edge")
        return edges

    def arc_of_edge(self, mesh: Mesh) -> Array:
        """(edges,) int64: the arc on which each edge of the mesh lies, or NONE."""
        found = np.full(len(mesh.edges.ends), NONE)
        found[self.edges_along(mesh)] = np.repeat(np.arange(len(self.lengths)), self.lengths)
        return found

    def patches_of(self, mesh: Mesh) -> Array:
        """(faces,) int64: the patch of each face of the mesh. Patches count in the order of their first faces."""
        edges = mesh.edges
        inner = (edges.uses == 2) & (self.arc_of_edge(mesh) == NONE)
        return number_in_order(least_in_class(mesh.face_count, edges.rising[inner] // 4, edges.falling[inner] // 4))


def graph(mesh: MeshLike, *, program: Optional[Program] = None) -> Cut:
    """The motorcycle graph of a mesh of quads and its patches: its cut beside no lines, as it is traced."""
    return layout(mesh, program=program)


def layout(mesh: MeshLike, *, keep: str = "none", patches: str = "traced", program: Optional[Program] = None) -> Cut:
    """The cut of a mesh of quads beside its lines, or beside none; traced, merged or conforming. Raises a `WishError`
    where the program has no command `layout`, and a `Refusal` that names the place."""
    mesh = as_mesh(mesh)
    mesh.refuse_strange()
    runner = Program() if program is None else program
    cut = cut_of(runner, text_with_lines(_readable(mesh)), keep, patches)
    return replace(cut, patch_of_face=cut.patches_of(mesh))


def _readable(mesh: Mesh) -> Mesh:
    """A mesh of a size that the program takes: a cut is the same in any unit."""
    return replace(mesh, points=mesh.points * factor_of(mesh))


def cut_of(program: Program, text: bytes, keep: str = "none", patches: str = "traced") -> Cut:
    """The cut of the mesh that a text has; its points are the `v` lines."""
    told = answer_of_cut(program, words_of_cut("layout", keep, patches), text)
    return read_cut(told, f"quadq layout 1 keep {keep} patches {patches}")


def words_of_cut(command: str, keep: str, patches: str) -> list[str]:
    """The command with its options for a cut. Raises a `WishError` for others than there are."""
    if keep not in KEPT or patches not in CUTS:
        raise WishError(f"what is kept is {' or '.join(KEPT)}, and patches are {', '.join(CUTS)}")
    return [command, "--keep", keep, "--patches", patches]


def answer_of_cut(program: Program, words: list[str], text: bytes) -> bytes:
    """What a command over a cut writes. Raises a `WishError` where the program does not have it: the usage line names
    only some commands."""
    try:
        return program.answer(words, text)
    except Refusal as said:
        if said.status != USAGE:
            raise
        raise WishError(f"this needs the command `{words[0]}`, which this program does not have") from said


def text_with_lines(mesh: Mesh) -> bytes:
    """The points and faces, and an `l` line for each edge of a line."""
    pairs = [np.column_stack([it[:-1], it[1:]]) for it in mesh.lines]
    lines = number_lines("l", np.concatenate(pairs) + 1) if pairs else ""
    return plain_text(mesh) + lines.encode()


def read_cut(text: bytes, head: str) -> Cut:
    """The cut that a text of `layout` with this head line tells. Linear in the text."""
    first, counts, rest = (text.split(b"\n", 2) + [b""] * 3)[:3]
    told = counts.split(b" ")
    if first != head.encode() or told[6:7] != [b"euler"] or len(told) != 10:
        raise strange("the program wrote another text than was asked for")
    lines = _Lines(rest)
    counted = {word: lines.numbers(word).reshape(-1, 2) - [1, 0] for word in COUNTED}
    arcs = lines.are("arc") | lines.are("marked")
    sides = lines.are(*SIDES)
    return Cut(
        int(told[7]), int(told[9]), counted, lines.numbers("seed") - 1, lines.numbers("break") - 1,
        lines.counts[arcs] - 3, lines.numbers("arc", "marked", behind=2) - 1, lines.are("marked")[arcs],
        lines.numbers("patch", behind=1).reshape(-1, 2), lines.numbers(*SIDES) - 1,
        lines.counts[sides].reshape(-1, len(SIDES)))


class _Lines:
    """Lines of a word and whole numbers behind it, as tables."""

    def __init__(self, text: bytes) -> None:
        letters = np.frombuffer(text, dtype=np.uint8)
        ends = np.flatnonzero(letters == ord("\n"))
        starts = np.concatenate([[0], ends + 1])[:len(ends)]
        # The first two letters tell the words apart.
        names = np.full(1 << 16, NONE)
        names[[it.encode()[0] << 8 | it.encode()[1] for it in WORDS]] = range(len(WORDS))
        self.words = names[letters[starts].astype(np.int64) << 8 | letters[starts + 1]]
        """(lines,) int64: the place of the word in `WORDS`."""
        self.counts = np.diff(np.searchsorted(np.flatnonzero(letters == ord(" ")), np.append(starts, len(letters))))
        """(lines,) int64: how many numbers stand behind it."""
        self.all: Array = np.fromstring(text.translate(None, LETTERS), dtype=np.int64, sep=" ")
        if np.any(self.words == NONE) or len(self.all) != self.counts.sum():
            raise strange("a cut has other lines than cuts have")

    def are(self, *words: str) -> Array:
        """(lines,) bool: which begin with one of the words."""
        return np.isin(self.words, [WORDS.index(it) for it in words])

    def numbers(self, *words: str, behind: int = 0) -> Array:
        """(n,) int64: all numbers of the lines that begin with one of the words, but for so many first ones of each."""
        chosen = np.repeat(self.are(*words), self.counts)
        starts = (np.cumsum(self.counts) - self.counts)[self.are(*words)]
        for at in range(behind):
            chosen[starts + at] = False
        return np.asarray(self.all[chosen])
