"""Files of blocks: multi-block VTK, Plot3D with a neutral map, OpenFOAM's blockMeshDict, and CGNS."""

from __future__ import annotations

import os
from pathlib import Path
from typing import Callable, Optional, Union
from xml.sax.saxutils import quoteattr

import numpy as np

from .arrays import Array
from .blocks import EAST, NORTH, SOUTH, WEST, Blocks, Link
from .cgns_file import write_cgns
from .errors import WishError
from .files import make_folder, write_whole
from .foam import NAME as FOAM
from .foam import foam_text
from .inputs import file_named
from .settings import FAR
from .thickness import extruded, folded_in

VTK, PLOT3D, CGNS = ".vtm", ".xyz", ".cgns"
FACES = {SOUTH: 5, EAST: 4, NORTH: 6, WEST: 3}
"""The numbers of sides in a neutral map."""
GRID = """<?xml version="1.0"?>
<VTKFile type="StructuredGrid" version="0.1" byte_order="LittleEndian">
  <StructuredGrid WholeExtent="{extent}">
    <FieldData>
      <DataArray type="Int64" Name="joins" NumberOfComponents="6" NumberOfTuples="{count}" format="ascii">
{joins}
      </DataArray>
    </FieldData>
    <Piece Extent="{extent}">
      <CellData Scalars="block">
        <DataArray type="Int32" Name="block" format="ascii">
{cells}
        </DataArray>
      </CellData>
      <Points>
        <DataArray type="Float64" Name="Points" NumberOfComponents="3" format="ascii">
{points}
        </DataArray>
      </Points>
    </Piece>
  </StructuredGrid>
</VTKFile>
"""
INDEX = """<?xml version="1.0"?>
<VTKFile type="vtkMultiBlockDataSet" version="1.0" byte_order="LittleEndian">
  <vtkMultiBlockDataSet>
{parts}
  </vtkMultiBlockDataSet>
</VTKFile>
"""


def write_blocks(
    path: Union[str, os.PathLike[str]], blocks: Blocks, thickness: Optional[float] = None
) -> tuple[str, ...]:
    """Writes blocks as the name says: `.vtm` with a folder of grids beside it, `.xyz` with a neutral map beside it, a
    `blockMeshDict`, or `.cgns`. With a thickness they are a cell deep; a blockMeshDict always is. Returns what is not
    as it was asked, in words. Raises a `WishError` for other names, and a `Refusal` where a file cannot be written."""
    target = file_named(path)
    writers: dict[str, Callable[[Path, Blocks, Optional[float]], tuple[str, ...]]] = {
        VTK: _write_vtk, PLOT3D: _write_plot3d, CGNS: write_cgns}
    if thickness is not None and not 0 < thickness < float(FAR):
        raise WishError(f"the thickness is a length above 0 and below {FAR:f}, and not {thickness}")
    if target.name == FOAM:
        text, said = foam_text(blocks, thickness)
        make_folder(target.parent)
        write_whole(target, text.encode())
        return said
    if target.suffix.lower() not in writers:
        raise WishError(f"{target.name} is no file of blocks: take .vtm, .xyz, .cgns, or the name {FOAM}")
    return (*writers[target.suffix.lower()](target, blocks, thickness), *folded_in(blocks, thickness))


def _numbers(table: Array) -> str:
    """Numbers in lines, the shortest decimals that are theirs."""
    return "\n".join(" ".join(map(repr, row)) for row in table.tolist())


def _write_vtk(path: Path, blocks: Blocks, thickness: Optional[float]) -> tuple[str, ...]:
    folder = path.with_suffix("")
    make_folder(folder)
    grids = extruded(blocks, thickness)
    joins: dict[int, list[tuple[int, ...]]] = {}
    for at, link in blocks.joins():
        joins.setdefault(at, []).append((link.side, link.first, link.count, link.block + 1, link.across, link.point))
    inside, rim = [], []
    for at, grid in enumerate(grids):
        name = f"block{at + 1}.vts"
        write_whole(folder / name, _grid_text(grid, at + 1, joins.get(at, [])), is_hasty=True)
        inside.append(_entry(at, f"block {at + 1}", f"{folder.name}/{name}"))
    for number, (at, link) in enumerate(blocks.walls()):
        name = f"wall{number + 1}.vts"
        write_whole(folder / name, _grid_text(side_of(grids[at], link), at + 1, []), is_hasty=True)
        rim.append(_entry(number, link.name, f"{folder.name}/{name}"))
    parts = [part for place, (label, some) in enumerate((("blocks", inside), ("walls", rim)))
             for part in (f'    <Block index="{place}" name="{label}">', *some, "    </Block>")]
    write_whole(path, INDEX.format(parts="\n".join(parts)).encode())
    return ()


def _entry(at: int, name: str, file: str) -> str:
    return f'      <DataSet index="{at}" name={quoteattr(name)} file={quoteattr(file)}/>'


def side_of(grid: Array, link: Link) -> Array:
    """The points (deep, 1, edges + 1, 3) of a piece of a side of a grid (deep, high, wide, 3)."""
    side = (grid[:, 0], grid[:, :, -1], grid[:, -1, ::-1], grid[:, ::-1, 0])[link.side]
    return np.asarray(side[:, None, link.first:link.first + link.count + 1])


def _grid_text(grid: Array, block: int, joins: list[tuple[int, ...]]) -> bytes:
    deep, high, wide = (it - 1 for it in grid.shape[:3])
    cells = max(deep, 1) * max(high, 1) * max(wide, 1)
    return GRID.format(
        extent=f"0 {wide} 0 {high} 0 {deep}", count=len(joins), joins="\n".join(" ".join(map(str, it)) for it in joins),
        cells="\n".join([str(block)] * cells), points=_numbers(grid.reshape(-1, 3))).encode()


def _write_plot3d(path: Path, blocks: Blocks, thickness: Optional[float]) -> tuple[str, ...]:
    """The points as formatted multi-block Plot3D: of blocks in a plane of one z, and not deep, in two dimensions."""
    grids = extruded(blocks, thickness)
    heights = np.concatenate([it[..., 2].ravel() for it in grids])
    is_flat = thickness is None and bool(np.all(heights == heights[:1]))
    lines = [str(len(grids))]
    lines += [" ".join(map(str, it.shape[2:0:-1] if is_flat else it.shape[2::-1])) for it in grids]
    for it in grids:
        for axis in range(2 if is_flat else 3):
            lines.append("\n".join(map(repr, it[..., axis].ravel().tolist())))
    write_whole(path, ("\n".join(lines) + "\n").encode())
    write_whole(path.with_suffix(".nmf"), neutral_map(blocks, 1 if thickness is None else 2).encode())
    return ()


def neutral_map(blocks: Blocks, deep: int) -> str:
    """The names of walls, and which sides meet, each once, as a neutral map file with grids of so many layers."""
    lines = ["# neutral map: walls by name, and joins, each once", str(len(blocks))]
    lines += [f"{at} {it.wide + 1} {it.high + 1} {deep}" for at, it in enumerate(blocks, 1)]
    lines.append("# type B1 F1 S1 E1 S2 E2 B2 F2 S1 E1 S2 E2 swap")
    for at, link in blocks.walls():
        piece = link.side, link.first, link.count
        lines.append(f"'{link.name}' {at + 1} {_range_in_map(blocks, at, piece, deep)}")
    for at, link in blocks.joins():
        piece, other = (link.side, link.first, link.count), (link.across, link.opposite(link.first), -link.count)
        lines.append(f"'ONE_TO_ONE' {at + 1} {_range_in_map(blocks, at, piece, deep)} {link.block + 1} "
                     f"{_range_in_map(blocks, link.block, other, deep)} {swap_of(link.side, link.across)}")
    return "\n".join([*lines, ""])


def _range_in_map(blocks: Blocks, at: int, piece: tuple[int, int, int], deep: int) -> str:
    """A piece of a side, from a point on over so many edges: its face, and the ranges of that. The faces of i have j
    first and then k, those of j have k first and then i."""
    side, first, count = piece
    ends = [(it if side in (SOUTH, EAST) else blocks[at].length(side) - it) + 1 for it in (first, first + count)]
    ranges = [ends, [1, deep]] if side in (EAST, WEST) else [[1, deep], ends]
    return " ".join(map(str, (FACES[side], *ranges[0], *ranges[1])))


def swap_of(side: int, across: int) -> str:
    """Whether the first range of one face is the second of the other."""
    return str(side % 2 != across % 2).upper()
