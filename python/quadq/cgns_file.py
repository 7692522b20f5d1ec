"""Blocks as CGNS, by the library of the system (Debian: libcgns)."""

from __future__ import annotations

import ctypes
import ctypes.util
import tempfile
from pathlib import Path
from typing import Any, Optional, Sequence

import numpy as np

from .arrays import Array
from .blocks import EAST, NORTH, SOUTH, Blocks, Link
from .errors import WishError
from .files import write_whole
from .refusal import WRITE_FAULT, Refusal
from .thickness import extruded

WRITE, STRUCTURED, DOUBLE, POINT_RANGE, BY_FAMILY, UNIT_UNKNOWN = 1, 2, 4, 4, 25, 4
"""Numbers of the library: modes, and kinds of zones, data, sets of points, boundary conditions and units."""
SIZE = ctypes.c_int
"""The library's type of sizes, where it is built as Debian's is."""
LONGEST = 32
"""Names are no longer."""


def library() -> Any:
    """The library, if it is there."""
    name = ctypes.util.find_library("cgns")
    try:
        return None if name is None else ctypes.CDLL(name)
    except OSError:
        return None


def write_cgns(path: Path, blocks: Blocks, thickness: Optional[float]) -> tuple[str, ...]:
    """Writes a zone for each block, with its walls as boundary conditions of families by their names, and its joins as
    CGNS wants them: in both zones. Returns which names were cut. Raises a `WishError` where the library is not there,
    and a `Refusal` where it fails."""
    tool = library()
    if tool is None:
        raise WishError("CGNS files are written by the library libcgns, which is not here (Debian: libcgns3.4)")
    with tempfile.TemporaryDirectory() as folder:
        place = Path(folder) / "blocks.cgns"
        writer = _Writer(tool, path.name)
        writer.write(place, blocks, extruded(blocks, thickness))
        write_whole(path, place.read_bytes())
    return tuple(f"names in CGNS have {LONGEST} letters at most: {it[:LONGEST]}" for it in blocks.names
                 if len(it) > LONGEST)


class _Writer:
    """A file that is open."""

    def __init__(self, tool: Any, name: str) -> None:
        self.tool, self.name = tool, name
        tool.cg_get_error.restype = ctypes.c_char_p
        self.file, self.base = ctypes.c_int(), ctypes.c_int()

    def call(self, function: str, *words: Any) -> None:
        if getattr(self.tool, function)(*words):
            why = self.tool.cg_get_error().decode(errors="replace")
            raise Refusal(WRITE_FAULT, f"write fault: {self.name}: {function}: {why}")

    def write(self, place: Path, blocks: Blocks, grids: list[Array]) -> None:
        deep = int(len(grids[0]) > 1)
        self.call("cg_open", str(place).encode(), WRITE, ctypes.byref(self.file))
        self.call("cg_base_write", self.file, b"Base", 2 + deep, 3, ctypes.byref(self.base))
        self.call("cg_goto", self.file, self.base, b"end")
        self.call("cg_dataclass_write", UNIT_UNKNOWN)
        for name in blocks.names:
            self.call("cg_family_write", self.file, self.base, _word(name), ctypes.byref(ctypes.c_int()))
        for at, grid in enumerate(grids):
            self._zone(blocks, at, grid, deep)
        self.call("cg_close", self.file)

    def _zone(self, blocks: Blocks, at: int, grid: Array, deep: int) -> None:
        zone, block = ctypes.c_int(), blocks[at]
        points = [block.wide + 1, block.high + 1, 2][:2 + deep]
        sizes = _sizes(*points, *(it - 1 for it in points), *[0] * len(points))
        self.call("cg_zone_write", self.file, self.base, _zone_name(at), sizes, STRUCTURED, ctypes.byref(zone))
        for axis, word in enumerate((b"CoordinateX", b"CoordinateY", b"CoordinateZ")):
            values = np.ascontiguousarray(grid[..., axis])
            self.call("cg_coord_write", self.file, self.base, zone, DOUBLE, word,
                      values.ctypes.data_as(ctypes.c_void_p), ctypes.byref(ctypes.c_int()))
        walls = 0
        for number, link in enumerate(block.links, 1):
            if not link.is_wall:
                self._join(blocks, at, zone, link, number, deep)
                continue
            walls += 1
            self.call("cg_boco_write", self.file, self.base, zone, f"Wall{number}".encode(), BY_FAMILY, POINT_RANGE,
                      SIZE(2), _range(blocks, at, _rising(link), deep),
                      ctypes.byref(ctypes.c_int()))
            self.call("cg_goto", self.file, self.base, b"Zone_t", zone, b"ZoneBC_t", 1, b"BC_t", walls, b"end")
            self.call("cg_famname_write", _word(link.name))

    def _join(self, blocks: Blocks, at: int, zone: Any, link: Link, number: int, deep: int) -> None:
        turned = (ctypes.c_int * (2 + deep))(*transform(link), *[3] * deep)
        side, first, count = _rising(link)
        self.call("cg_1to1_write", self.file, self.base, zone, f"Join{number}".encode(), _zone_name(link.block),
                  _range(blocks, at, (side, first, count), deep),
                  _range(blocks, link.block, (link.across, link.opposite(first), -count), deep), turned,
                  ctypes.byref(ctypes.c_int()))


def _rising(link: Link) -> tuple[int, int, int]:
    """A piece of a side from its end on with the lesser column or row: the side, where it begins, and how many edges
    ahead it ends."""
    rises = link.side in (SOUTH, EAST)
    return (link.side, link.first, link.count) if rises else (link.side, link.first + link.count, -link.count)


def transform(link: Link) -> tuple[int, int]:
    """The axes of the other block along which the axes of the first run, below 0 where they run against each other."""
    ways = [_way(link.side), _way(link.across)]
    # Along a join the other block runs the other way round; across it, what leads out of one leads into the other.
    found = {abs(ways[0]): -ways[1] * (1 if ways[0] > 0 else -1)}
    out = [_outward(link.side), _outward(link.across)]
    found[abs(out[0])] = -out[1] * (1 if out[0] > 0 else -1)
    return found[1], found[2]


def _way(side: int) -> int:
    """The axis along which a side runs counterclockwise, from 1, below 0 where it runs back."""
    return (1, 2, -1, -2)[side]


def _outward(side: int) -> int:
    return (-2, 1, 2, -1)[side]


def _sizes(*values: int) -> Any:
    return (SIZE * len(values))(*values)


def _range(blocks: Blocks, at: int, piece: tuple[int, int, int], deep: int) -> Any:
    """The first and the last point of a piece of a side, from 1."""
    side, first, count = piece
    block, ends = blocks[at], []
    for point in (first, first + count):
        along = point if side in (SOUTH, EAST) else block.length(side) - point
        fixed = {SOUTH: 1, EAST: block.wide + 1, NORTH: block.high + 1}.get(side, 1)
        ends.append([along + 1, fixed] if side in (SOUTH, NORTH) else [fixed, along + 1])
    layers: Sequence[Sequence[int]] = ([1], [2]) if deep else ([], [])
    return _sizes(*ends[0], *layers[0], *ends[1], *layers[1])


def _zone_name(at: int) -> bytes:
    return f"Block{at + 1}".encode()


def _word(name: str) -> bytes:
    return name[:LONGEST].encode()
