#!/usr/bin/env python3
"""Says where the vertices and faces of a new mesh came from, as `quadq map` does, and by itself: tests compare the two.

usage: tools/make_map.py IN.obj LAYOUT.txt OUT.obj >MAP

OUT.obj is what `remesh`, `crease`, `coarse`, `size`, `fit` or `refine` wrote for IN.obj over the cut of LAYOUT.txt,
which `quadq layout` writes. The lengths are those of OUT.obj, whose certificate is not judged. Nothing of this is
proved; but the place that is computed for each new vertex has to be the one in OUT.obj, digit by digit.
"""

from __future__ import annotations

import argparse
import math
import pathlib
import re
import sys
from typing import Iterator, NamedTuple, Optional, Union

sys.path.insert(0, str(pathlib.Path(__file__).resolve().parent))
from carry import read, read_old  # noqa: E402
from carrying import EAST, NORTH, ONE, SOUTH, WEST, CarryError, side  # noqa: E402
from layout_text import read_layout  # noqa: E402
from obj_text import millionths, read_obj  # noqa: E402

MILLION = 1_000_000
WISHED = re.compile(r"#quadq 1 fit .* aim (\S+) .* spacing wished$", re.M)
WISH = re.compile(r"^#w (\d+) (\d+) (\d+)\r?$", re.M)
HEAD = re.compile(r"#quadq 1 (?:remesh|crease|coarse|size|fit|refine) (?:by (\d+)$)?", re.M)


class Darts:
    """The darts of a mesh, the i-th side of face f as 4 * f + i, and which of them lie on the cut."""

    def __init__(self, corners: list[int], arcs: list[list[int]]) -> None:
        self.corners = corners
        by_ends = {self.ends(dart): dart for dart in range(len(corners))}
        self.twin = [by_ends.get(self.ends(dart)[::-1]) for dart in range(len(corners))]
        pairs = {pair for arc in arcs for pair in zip(arc, arc[1:])}
        self.on = [self.ends(dart) in pairs or self.ends(dart)[::-1] in pairs for dart in range(len(corners))]

    def ends(self, dart: int) -> tuple[int, int]:
        return self.corners[dart], self.corners[side(dart, EAST)]

    def row(self, first: int) -> list[int]:
        """The darts of a row of faces, from the south dart of the first to the side of the patch."""
        darts = [first]
        while not self.on[side(darts[-1], EAST)]:
            darts.append(side(self.over(darts[-1], EAST), EAST))
        return darts

    def over(self, dart: int, way: int) -> int:
        """The dart on the other side of an edge of a face inside a patch."""
        twin = self.twin[side(dart, way)]
        assert twin is not None
        return twin

    def patches(self) -> list[list[list[int]]]:
        """The south darts of each patch, row by row, from the least of its corners. Patches count by their least
        faces."""
        found: dict[int, list[list[int]]] = {}
        seen: set[int] = set()
        for dart, is_on in enumerate(self.on):
            if is_on and self.on[side(dart, WEST)] and dart // 4 not in seen:
                rows = [self.row(dart)]
                while not self.on[side(rows[-1][0], NORTH)]:
                    rows.append([self.over(it, NORTH) for it in rows[-1]])
                faces = {it // 4 for row in rows for it in row}
                found[min(faces)] = rows
                seen |= faces
        return [found[face] for face in sorted(found)]


class Layout(NamedTuple):
    """The cut as nodes, arcs and patches."""

    darts: Darts
    nodes: list[int]
    arcs: list[list[int]]
    """The vertices along each arc."""
    patches: list[list[list[int]]]
    """The south darts of each patch, row by row."""
    uses: list[list[list[int]]]
    """For each side of each patch its arcs, one after the other."""


def layout_of(corners: list[int], text: str) -> Layout:
    """The cut that the text of a layout tells of a mesh."""
    told = read_layout(text)
    darts = Darts(corners, told.arcs)
    nodes = sorted({vertex for arc in told.arcs for vertex in (arc[0], arc[-1])})
    return Layout(darts, nodes, told.arcs, darts.patches(), told.sides)


class Spacing:
    """Where the places of each arc lie along it: evenly, or so that each new edge gets an equal part of its shares."""

    def __init__(self, layout: Layout, new: list[int], shares: Optional[list[list[int]]]) -> None:
        self.layout, self.new = layout, new
        self.shared = None if shares is None else [shared(*it) for it in zip(shares, new)]

    def along(self, arc: int, start: int, after: int) -> list[int]:
        """The parameters of an arc's places, counted from the end where these two vertices stand."""
        vertices, many = self.layout.arcs[arc], self.new[arc]
        old = len(vertices) - 1
        if self.shared is None:
            return [ONE * k * old // many for k in range(many + 1)]
        found = self.shared[arc]
        return found if vertices[:2] == [start, after] else [ONE * old - it for it in reversed(found)]

    def point(self, arc: int, k: int) -> tuple[str, tuple[int, ...]]:
        """The word and the numbers of an inner place."""
        vertices, many = self.layout.arcs[arc], self.new[arc]
        if self.shared is None:
            at, some = divmod(k * (len(vertices) - 1), many)
            rest: tuple[int, ...] = (some, many)
        else:
            at, some = divmod(self.shared[arc][k], ONE)
            rest = (some,)
        start, end = (it + 1 for it in vertices[at:at + 2])
        word = "edge" if self.shared is None else "share"
        return (word, (start, end, *rest)) if some else ("vertex", (start,))


def shared(shares: list[int], many: int) -> list[int]:
    """The parameters of so many places and of both ends, each new edge with an equal part of the shares."""
    shares = shares if any(shares) else [1] * len(shares)
    whole, found = sum(shares), [0]
    edge, before = 0, 0
    for k in range(1, many):
        while many * (before + shares[edge]) <= k * whole:
            before += shares[edge]
            edge += 1
        found.append(ONE * edge + ONE * (k * whole - many * before) // (many * shares[edge]))
    return [*found, ONE * len(shares)]


class Grid:
    """A patch with new lengths: the parameters of its grid points, in parts of `ONE` of an old edge."""

    def __init__(self, layout: Layout, patch: int, spacing: Spacing) -> None:
        south, east, north, west = layout.uses[patch]
        self.rows = rows = layout.patches[patch]
        self.wide, self.high = (sum(spacing.new[arc] for arc in it) for it in (south, west))
        ends = layout.darts.ends
        # North and west run against the parameter: it is counted from their ends.
        self.south = parameters(south, [ends(it) for it in rows[0]], spacing)
        self.east = parameters(east, [ends(side(row[-1], EAST)) for row in rows], spacing)
        self.north = parameters(north[::-1], [ends(side(it, NORTH))[::-1] for it in rows[-1]], spacing)
        self.west = parameters(west[::-1], [ends(side(row[0], WEST))[::-1] for row in rows], spacing)

    def at(self, i: int, j: int) -> tuple[int, int]:
        """The parameters of a grid point, to the east and to the north."""
        wide, high = self.wide, self.high
        return ((self.south[i] * (high - j) + self.north[i] * j) // high,
                (self.west[j] * (wide - i) + self.east[j] * i) // wide)

    def cell(self, u: int, v: int) -> tuple[int, int, int]:
        """The south dart of the old face where parameters lie, and what is left of them there."""
        column, row = min(u // ONE, len(self.rows[0]) - 1), min(v // ONE, len(self.rows) - 1)
        return self.rows[row][column], u - column * ONE, v - row * ONE


def parameters(arcs: list[int], edges: list[tuple[int, int]], spacing: Spacing) -> list[int]:
    """The parameters of the places of a side, which has these arcs and old edges."""
    found, before = [0], 0
    for arc in arcs:
        found += [ONE * before + it for it in spacing.along(arc, *edges[before])[1:]]
        before += len(spacing.layout.arcs[arc]) - 1
    return found


def vertex_lines(layout: Layout, spacing: Spacing) -> Iterator[tuple[str, tuple[int, ...]]]:
    """The word and the numbers of each new vertex: nodes, then the points of arcs, then those of patches."""
    yield from (("vertex", (it + 1,)) for it in layout.nodes)
    for arc in range(len(layout.arcs)):
        yield from (spacing.point(arc, k) for k in range(1, spacing.new[arc]))
    for patch in range(len(layout.patches)):
        grid = Grid(layout, patch, spacing)
        for j in range(1, grid.high):
            for i in range(1, grid.wide):
                dart, *rest = grid.cell(*grid.at(i, j))
                yield "face", (dart // 4 + 1, dart % 4 + 1, *rest)


def cell_lines(layout: Layout, spacing: Spacing) -> Iterator[tuple[str, tuple[int, ...]]]:
    """Those of each new face, patch by patch and row by row."""
    for patch in range(len(layout.patches)):
        grid = Grid(layout, patch, spacing)
        for j in range(grid.high):
            for i in range(grid.wide):
                corners = [grid.at(*it) for it in ((i, j), (i + 1, j), (i + 1, j + 1), (i, j + 1))]
                u, v = (sum(it) // 4 for it in zip(*corners))
                dart, east, north = grid.cell(u, v)
                seen = (it for a, b in corners for it in (a - u + east, b - v + north))
                yield "cell", (dart // 4 + 1, dart % 4 + 1, *seen)


class Written(NamedTuple):
    """What a command wrote: how often edges were divided, or the lengths of arcs, and the `v` lines."""

    by: int
    lengths: list[int]
    places: list[str]


def read_written(text: str) -> Written:
    head = HEAD.match(text)
    if head is None:
        raise CarryError("the new mesh does not begin with the line of a command that writes one")
    certificate = text[max(text.rfind("\n#f "), text.rfind("\n#r "), 0):]
    lengths = [int(it) for it in re.findall(r"^#x (\d+)$", certificate, re.M)]
    return Written(int(head[1] or 0), lengths, re.findall(r"^v (.*)$", text, re.M))


def read_places(text: Union[bytes, str]) -> list[tuple[int, ...]]:
    """The places of vertices in millionths."""
    return [tuple(map(millionths, words[:3])) for words in read_obj(text).points]


def place_at(kind: str, numbers: tuple[int, ...], corners: list[int], places: list[tuple[int, ...]]) -> list[int]:
    """The place of a new vertex in millionths, rounded, halves up."""
    if kind == "vertex":
        return list(places[numbers[0] - 1])
    if kind in ("edge", "share"):
        first, last, some, parts = (*numbers, ONE)[:4]
        ends = zip(places[first - 1], places[last - 1])
        return [p + (2 * some * (q - p) + parts) // (2 * parts) for p, q in ends]
    face, corner, east, north = numbers
    dart = 4 * (face - 1) + corner - 1
    weights = ((ONE - east) * (ONE - north), east * (ONE - north), east * north, (ONE - east) * north)
    four = (places[corners[side(dart, way)]] for way in (SOUTH, EAST, NORTH, WEST))
    return [(sum(map(int.__mul__, column, weights)) + (1 << 63)) >> 64 for column in zip(*four)]


def shares_of(
    aim: str, layout: Layout, old_text: Union[bytes, str], places: list[tuple[int, ...]]
) -> list[list[int]]:
    """The share of each old edge of each arc: alike, by its length in space, or what a line wishes for it."""
    text = old_text.decode(errors="replace") if isinstance(old_text, bytes) else old_text
    wishes = {frozenset((int(u) - 1, int(v) - 1)): int(wish) for u, v, wish in WISH.findall(text)}

    def share(start: int, end: int) -> int:
        if aim.startswith("edge:"):
            return math.isqrt(sum((p - q) ** 2 for p, q in zip(places[start], places[end])))
        return wishes.get(frozenset((start, end)), 1000) if aim == "lines" else 1

    return [[share(*it) for it in zip(arc, arc[1:])] for arc in layout.arcs]


def decimal(millionths: int) -> str:
    whole, rest = divmod(abs(millionths), MILLION)
    return ("-" if millionths < 0 else "") + f"{whole}.{rest:06}".rstrip("0").rstrip(".")


def map_of(old_text: Union[bytes, str], layout_text: str, new_text: str) -> str:
    """The map of a mesh and of what a command wrote for it over a cut. Raises a `CarryError` where it did not."""
    corners, written, places = read_old(old_text).corners, read_written(new_text), read_places(old_text)
    layout = layout_of(corners, layout_text)
    new = [written.by * (len(it) - 1) for it in layout.arcs] if written.by else written.lengths
    if len(new) != len(layout.arcs):
        raise CarryError(f"the old mesh has {len(layout.arcs)} arcs, and the new one lengths for {len(new)}")
    wished = WISHED.match(new_text)
    spacing = Spacing(layout, new, shares_of(wished[1], layout, old_text, places) if wished else None)
    vertices, cells = list(vertex_lines(layout, spacing)), list(cell_lines(layout, spacing))
    told = [" ".join(map(decimal, place_at(*it, corners, places))) for it in vertices]
    if told != written.places:
        at = next((at for at, pair in enumerate(zip(told, written.places), 1) if pair[0] != pair[1]), len(told) + 1)
        raise CarryError(f"vertex {at} of the new mesh does not lie where the map has it")
    lines = ["quadq map 1", f"vertices {len(vertices)} faces {len(cells)}"]
    lines += [" ".join((kind, *map(str, numbers))) for kind, numbers in vertices + cells]
    return "\n".join(lines) + "\n"


def main() -> None:
    parser = argparse.ArgumentParser(description=__doc__, formatter_class=argparse.RawDescriptionHelpFormatter)
    names = ("IN.obj", "LAYOUT.txt", "OUT.obj")
    for name in names:
        parser.add_argument(name)
    paths = vars(parser.parse_args())
    old, layout, new = (read(paths[name]) for name in names)
    try:
        sys.stdout.write(map_of(old, layout.decode(), new.decode()))
    except (ValueError, OSError) as error:
        sys.exit(f"make_map: {error}")


if __name__ == "__main__":
    main()
