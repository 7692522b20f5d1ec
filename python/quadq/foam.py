"""Blocks as OpenFOAM's blockMeshDict: conforming, a cell deep, with their points along curved sides."""

from __future__ import annotations

import re
from typing import Iterable, Iterator, Optional

import numpy as np

from .arrays import Array
from .blocks import WALL, Block, Blocks, along
from .conforming import told_by_corners
from .graphs import SIDES
from .thickness import extruded, folded_in, is_plane, points_as_one

NAME = "blockMeshDict"
EVEN = 1e-9
"""A part of a side: where its edges differ by no more, they are alike."""
STRAIGHT = 1e-9
"""A part of a side: one that bends by no more is straight."""
EMPTY, FRONT, BACK = "frontAndBack", "front", "back"
"""The patch of the faces between which the blocks are deep, and of those of a surface that is not flat, each."""
HEAD = """\
FoamFile
{
    version 2.0;
    format ascii;
    class dictionary;
    object blockMeshDict;
}

scale 1;
"""


def foam_text(given: Blocks, thickness: Optional[float]) -> tuple[str, tuple[str, ...]]:
    """The text, and what of the names of walls is not as it was. Without a thickness it is the mean length of edges."""
    whole = told_by_corners(given)
    deep = thickness or float(np.mean([_mean_edge(it) for it in whole]))
    grids, numbers = extruded(whole, deep), points_as_one(whole)
    corners = np.unique(np.concatenate([_corners(it) for it in numbers]))
    place = {int(it): at for at, it in enumerate(corners)}
    names, said = patch_names(whole)
    parts = [HEAD]
    parts += _list("vertices", _vertices(grids, numbers, corners))
    parts += _list("blocks", (_block_text(it, [place[at] for at in _corners(name).tolist()], len(corners))
                              for it, name in zip(whole, numbers)))
    parts += _list("edges", _edges(whole, grids, numbers, place))
    parts += _list("boundary", _patches(whole, numbers, place, names))
    parts += _list("mergePatchPairs", ())
    return "\n".join([*parts, ""]), (*said, *folded_in(whole, deep))


def _list(name: str, lines: Iterable[str]) -> list[str]:
    return [name, "(", *(f"    {it}" for it in lines), ");", ""]


def _mean_edge(block: Block) -> float:
    return float(np.linalg.norm(np.diff(block.points, axis=1), axis=2).mean())


def _corners(table: Array) -> Array:
    """The entries in the corners of a block, counterclockwise from the south-west."""
    return np.array([table[0, 0], table[0, -1], table[-1, -1], table[-1, 0]])


def _point(at: Array) -> str:
    return "(" + " ".join(map(repr, at.tolist())) + ")"


def _vertices(grids: list[Array], numbers: list[Array], corners: Array) -> Iterator[str]:
    """Those of the front layer, and behind them as many of the back one."""
    for layer in range(2):
        places = np.zeros((int(max(it.max() for it in numbers)) + 1, 3))
        for grid, name in zip(grids, numbers):
            places[name] = grid[layer]
        yield from (f"{_point(it)} // {at + layer * len(corners)}" for at, it in enumerate(places[corners]))


def _block_text(block: Block, corners: list[int], count: int) -> str:
    """A block with what grows along its twelve edges: the four to the east, the four to the north, the four that are
    deep."""
    grades = [grading(block.points[0]), grading(block.points[-1])]
    rises = [grading(block.points[:, 0]), grading(block.points[:, -1])]
    both = [grades[0], grades[1], grades[1], grades[0], rises[0], rises[1], rises[1], rises[0], *"1111"]
    points = " ".join(map(str, [*corners, *(it + count for it in corners)]))
    sizes = f"({block.wide} {block.high} 1)"
    if set(both) == {"1"}:
        return f"hex ({points}) {sizes} simpleGrading (1 1 1)"
    return f"hex ({points}) {sizes} edgeGrading ({' '.join(both)})"


def grading(points: Array) -> str:
    """How edges grow along a side (points, 3), so that the points stand where they do: a section for each edge."""
    long = np.linalg.norm(np.diff(points, axis=0), axis=1)
    if float(np.ptp(long)) <= EVEN * float(long.sum()):
        return "1"
    share = 1 / len(long)
    return "(" + " ".join(f"({it!r} {share!r} 1)" for it in (long / long.sum()).tolist()) + ")"


def _edges(whole: Blocks, grids: list[Array], numbers: list[Array], place: dict[int, int]) -> Iterator[str]:
    """The sides that are bent, each once, in both layers."""
    told = set()
    for block, grid, name in zip(whole, grids, numbers):
        ends = [place[it] for it in _corners(name).tolist()]
        for side in range(len(SIDES)):
            one, other = ends[side], ends[(side + 1) % 4]
            points = block.along(side)
            key = min(one, other), max(one, other)
            if len(points) < 3 or key in told or _is_straight(points):
                continue
            told.add(key)
            for layer, shift in enumerate((0, len(place))):
                between = along(grid[layer], side)[1:-1]
                yield f"polyLine {one + shift} {other + shift} ({' '.join(map(_point, between))})"


def _is_straight(points: Array) -> bool:
    across = points[-1] - points[0]
    long = float(np.linalg.norm(across))
    if long == 0:
        return False
    away = np.linalg.norm(np.cross(points - points[0], across / long), axis=1)
    return float(away.max()) <= STRAIGHT * long


def patch_names(whole: Blocks) -> tuple[dict[str, str], tuple[str, ...]]:
    """The patch of each name of walls: a word as OpenFOAM has them, each for one name."""
    found: dict[str, str] = {}
    for name in whole.names:
        word = re.sub(r"[^A-Za-z0-9_.-]", "_", name)
        word = word if word[:1].isalpha() else f"_{word}"
        while word in found.values() or word in (EMPTY, FRONT, BACK):
            word += "_"
        found[name] = word
    changed = [f"{name!r} is {word}" for name, word in found.items() if name != word]
    return found, (f"patches of OpenFOAM have words as names: {', '.join(changed)}",) if changed else ()


def _patches(whole: Blocks, numbers: list[Array], place: dict[int, int], names: dict[str, str]) -> Iterator[str]:
    """The walls by their names, and the faces in front and at the back."""
    count = len(place)
    ends = [[place[it] for it in _corners(name).tolist()] for name in numbers]
    faces: dict[str, list[tuple[int, ...]]] = {it: [] for it in names}
    for at, link in whole.walls():
        one, other = ends[at][link.side], ends[at][(link.side + 1) % 4]
        faces[link.name].append((one, other, other + count, one + count))
    for name, some in faces.items():
        yield from _patch(names[name], "wall" if name == WALL else "patch", some)
    front, back = [tuple(it[::-1]) for it in ends], [tuple(corner + count for corner in it) for it in ends]
    if is_plane(whole):
        yield from _patch(EMPTY, "empty", front + back)
    else:
        yield from _patch(FRONT, "patch", front)
        yield from _patch(BACK, "patch", back)


def _patch(name: str, kind: str, faces: list[tuple[int, ...]]) -> Iterator[str]:
    yield from (name, "{", f"    type {kind};", "    faces", "    (")
    yield from (f"        ({' '.join(map(str, it))})" for it in faces)
    yield from ("    );", "}")
