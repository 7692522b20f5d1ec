"""The patches of a mesh as structured blocks, with their neighbours and the names of their walls."""

from __future__ import annotations

from dataclasses import dataclass, replace
from typing import Iterator, Optional, Sequence

import numpy as np

from .arrays import Array
from .conversions import MeshLike, as_mesh
from .errors import WishError
from .graphs import SIDES, Cut, answer_of_cut, cut_of, text_with_lines, words_of_cut
from .groups import edges_by_group
from .mesh import NONE, Mesh
from .plain import strange
from .program import LARGEST, Program
from .scaling import factor_of
from .surface import twins_of

SOUTH, EAST, NORTH, WEST = range(4)
WALL = "wall"
"""The name of a wall whose edges are in no group."""


def along(rows: Array, side: int) -> Array:
    """The entries of a side of a table (high + 1, wide + 1, ..), counterclockwise."""
    return np.asarray((rows[0], rows[:, -1], rows[-1, ::-1], rows[::-1, 0])[side])


@dataclass(frozen=True)
class Link:
    """What lies at a piece of a side of a block, whose points count counterclockwise round the block. All numbers count
    from 0."""

    side: int
    """Its place in `SIDES`."""
    first: int
    """The point where it begins."""
    count: int
    """How many edges it has."""
    block: int
    """The block that lies there, or NONE at a wall."""
    across: int = NONE
    """The side of that block."""
    point: int = NONE
    """Its point of that side at which the piece ends: there it runs the other way."""
    name: str = ""
    """The name of a wall."""

    @property
    def is_wall(self) -> bool:
        return self.block == NONE

    def opposite(self, at: int) -> int:
        """The point of the other block at this point of the side."""
        return self.point + self.count - (at - self.first)


@dataclass(frozen=True)
class Block:
    """A grid of points, and what lies on its sides."""

    points: Array
    """(high + 1, wide + 1, 3) float64: rows from the south, in each from west to east."""
    links: tuple[Link, ...]
    """Side after side, and along each side."""

    @property
    def wide(self) -> int:
        return self.points.shape[1] - 1

    @property
    def high(self) -> int:
        return self.points.shape[0] - 1

    def length(self, side: int) -> int:
        """How many edges a side has."""
        return self.wide if side in (SOUTH, NORTH) else self.high

    def along(self, side: int) -> Array:
        """(edges + 1, 3): the points of a side."""
        return along(self.points, side)


@dataclass(frozen=True)
class Blocks:
    """All blocks of a mesh."""

    blocks: tuple[Block, ...]
    by: int
    """In how many each edge of the mesh is divided."""

    def __len__(self) -> int:
        return len(self.blocks)

    def __iter__(self) -> Iterator[Block]:
        return iter(self.blocks)

    def __getitem__(self, at: int) -> Block:
        return self.blocks[at]

    def __repr__(self) -> str:
        faces = sum(it.wide * it.high for it in self.blocks)
        return f"<quadq.Blocks: {len(self.blocks)} blocks, {faces} faces, walls {', '.join(self.names) or 'none'}>"

    @property
    def names(self) -> tuple[str, ...]:
        """The names of walls, each once."""
        return tuple(dict.fromkeys(link.name for it in self.blocks for link in it.links if link.is_wall))

    def walls(self) -> Iterator[tuple[int, Link]]:
        """Each piece of the boundary, with the number of its block."""
        return ((at, link) for at, it in enumerate(self.blocks) for link in it.links if link.is_wall)

    def joins(self) -> Iterator[tuple[int, Link]]:
        """Each place where two sides meet, once, with the number of the block that comes first."""
        for at, it in enumerate(self.blocks):
            for link in it.links:
                if not link.is_wall and (at, link.side, link.first) <= (link.block, link.across, link.point):
                    yield at, link


def blocks(
    mesh: MeshLike, by: int = 1, *, keep: str = "none", patches: str = "traced", program: Optional[Program] = None
) -> Blocks:
    """The patches of a mesh of quads as blocks, each edge of the mesh divided in so many. Walls have the names of the
    groups of their edges. Raises a `WishError`, also where the program has no command `grids`, and a `Refusal`."""
    if not 1 <= by <= LARGEST:
        raise WishError(f"edges are divided in 1 to {LARGEST}, and not in {by}")
    mesh = as_mesh(mesh)
    mesh.refuse_strange()
    runner = Program() if program is None else program
    factor = factor_of(mesh)
    text = text_with_lines(replace(mesh, points=mesh.points * factor))
    words = [*words_of_cut("grids", keep, patches), "--by", str(by)]
    told = answer_of_cut(runner, words, text).decode()
    found = read_blocks(told, f"quadq grids 1 keep {keep} patches {patches} by {by}", by)
    named = _named(found, cut_of(runner, text, keep, patches), mesh)
    return Blocks(tuple(replace(it, points=it.points / factor) for it in named), by)


def read_blocks(text: str, head: str, by: int) -> Blocks:
    """The blocks of a text of `grids` with this head line; walls have no names yet."""
    lines = text.splitlines()
    count = lines[1].split()[1:] if len(lines) > 1 and lines[0] == head else []
    if len(count) != 1:
        raise strange("the program wrote another text than was asked for")
    found, at = [], 2
    for number in range(1, int(count[0]) + 1):
        word, *given = lines[at].split()
        wide, high = map(int, given[1:])
        end = at + 1 + (wide + 1) * (high + 1)
        points = np.array(" ".join(lines[at + 1:end]).split(), dtype=np.float64).reshape(high + 1, wide + 1, 3)
        at = end
        while at < len(lines) and lines[at].startswith(("link ", "wall ")):
            at += 1
        found.append(Block(points, tuple(_link_of(it.split()) for it in lines[end:at])))
        if word != "block" or int(given[0]) != number:
            raise strange(f"the program wrote no block {number}")
    return Blocks(tuple(found), by)


def _link_of(words: Sequence[str]) -> Link:
    """A line of a side; behind it the text of `grids` has the number of its arc, which follows from its place."""
    side, first, count = SIDES.index(words[1]), int(words[2]), int(words[3])
    if words[0] == "wall":
        return Link(side, first, count, NONE)
    return Link(side, first, count, int(words[4]) - 1, SIDES.index(words[5]), int(words[6]))


def _named(found: Blocks, cut: Cut, mesh: Mesh) -> Iterator[Block]:
    """The blocks with the names of their walls. Where names change along a wall, it is several: the lines of a side are
    those of its arcs, in their order."""
    rim = _Rim(mesh)
    for it, sides in zip(found, cut.sides):
        arcs = [arc for side in sides for arc in side.tolist()]
        if len(arcs) != len(it.links):
            raise strange("the blocks have other sides than the patches")
        links = [piece for link, arc in zip(it.links, arcs)
                 for piece in (rim.pieces(link, int(cut.arcs[arc, 0]), found.by) if link.is_wall else [link])]
        yield replace(it, links=tuple(links))


class _Rim:
    """The boundary of a mesh: the name of each of its edges, and which comes after each."""

    def __init__(self, mesh: Mesh) -> None:
        darts = np.flatnonzero(twins_of(mesh) == NONE)
        begins, ends = mesh.corners[darts], mesh.corners[mesh.next_corners()[darts]]
        self.after = dict(zip(begins.tolist(), ends.tolist()))
        names = np.zeros(len(mesh.edges.ends), dtype=np.int64)
        groups = edges_by_group(mesh)
        for at, some in reversed(list(enumerate(groups.values(), 1))):
            names[some] = at
        told = (WALL, *groups)
        of_dart = names[mesh.edges.of_corner[darts]]
        self.name_of = {begin: told[at] for begin, at in zip(begins.tolist(), of_dart.tolist())}

    def pieces(self, link: Link, start: int, by: int) -> Iterator[Link]:
        """A wall along an arc that begins at a point, in pieces of one name."""
        first, now, point = link.first, self.name_of[start], start
        for at in range(link.first + by, link.first + link.count + 1, by):
            point = self.after[point]
            after = self.name_of[point]
            is_last = at == link.first + link.count
            if after != now or is_last:
                yield Link(link.side, first, at - first, NONE, name=now)
                first, now = at, after
