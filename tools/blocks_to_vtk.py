#!/usr/bin/env python3
"""Writes the blocks of a text of `quadq blocks` as VTK structured grids.

usage: tools/blocks_to_vtk.py BLOCKS.txt FOLDER

Writes FOLDER/block1.vts, FOLDER/block2.vts and so on, a structured grid for each block, and FOLDER/blocks.vtm, their
index, which ParaView opens as one multiblock data set. FOLDER is made where it is not there.

Points stand as in the text, row by row from the south and from west to east. Each cell has the number of its block, as
`block`. The field data `links` has a row of six numbers for each line of a side: the side (0 south, 1 east, 2 north,
3 west), its first point, its number of edges, and of what lies there the number of the block, the side and the point,
or 0, -1 and -1 where that is nothing.
"""

import sys
from pathlib import Path
from typing import Iterator, List, NamedTuple, TextIO, Tuple

SIDES = ("south", "east", "north", "west")
NOTHING = (0, -1, -1)

GRID = """<?xml version="1.0"?>
<VTKFile type="StructuredGrid" version="0.1" byte_order="LittleEndian">
  <StructuredGrid WholeExtent="0 {wide} 0 {high} 0 0">
    <FieldData>
      <DataArray type="Int64" Name="links" NumberOfComponents="6" NumberOfTuples="{many}" format="ascii">
{links}
      </DataArray>
    </FieldData>
    <Piece Extent="0 {wide} 0 {high} 0 0">
      <CellData Scalars="block">
        <DataArray type="Int32" Name="block" format="ascii">
{cells}
        </DataArray>
      </CellData>
      <Points>
        <DataArray type="Float64" Name="Points" NumberOfComponents="3" format="ascii">
{points}
        </DataArray>
      </Points>
    </Piece>
  </StructuredGrid>
</VTKFile>
"""

INDEX = """<?xml version="1.0"?>
<VTKFile type="vtkMultiBlockDataSet" version="1.0" byte_order="LittleEndian">
  <vtkMultiBlockDataSet>
{files}
  </vtkMultiBlockDataSet>
</VTKFile>
"""


class Fault(Exception):
    """A line that no text of blocks has there."""


class Block(NamedTuple):
    number: int
    wide: int
    high: int
    points: List[str]
    """Three decimals a point."""
    links: List[Tuple[int, ...]]
    """Six numbers a line of a side, as the field data has them."""


class Lines:
    """The lines of a text, with the one that comes next."""

    def __init__(self, text: TextIO) -> None:
        self.text = text
        self.number = 0
        self.words: List[str] = []
        self.step()

    def step(self) -> List[str]:
        """The words of the line at hand; then the next one is."""
        words = self.words
        self.words = self.text.readline().split()
        self.number += 1
        return words

    def numbers(self, front: str, count: int) -> List[int]:
        """So many numbers behind the words that the line begins with."""
        words, first = self.words, len(front.split())
        if words[:first] != front.split() or len(words) != first + count or not all(map(str.isdigit, words[first:])):
            raise Fault(f"line {self.number}: `{front}` and {count} numbers are wanted")
        return [int(it) for it in self.step()[first:]]

    def point(self) -> str:
        try:
            if len([float(it) for it in self.words]) != 3:
                raise ValueError
        except ValueError:
            raise Fault(f"line {self.number}: a point is wanted") from None
        return " ".join(self.step())

    def link(self) -> Tuple[int, ...]:
        try:
            if self.words[0] == "wall":
                _, side, first, edges = self.words
                other = NOTHING
            else:
                _, side, first, edges, block, across, point = self.words
                other = (int(block), SIDES.index(across), int(point))
            found = (SIDES.index(side), int(first), int(edges), *other)
        except ValueError:
            raise Fault(f"line {self.number}: a link or a wall is wanted") from None
        self.step()
        return found


def blocks_in(text: TextIO) -> Iterator[Block]:
    """The blocks of a text, one by one."""
    lines = Lines(text)
    lines.numbers("quadq blocks 1 by", 1)
    (count,) = lines.numbers("blocks", 1)
    for number in range(1, count + 1):
        given, wide, high = lines.numbers("block", 3)
        if given != number:
            raise Fault(f"line {lines.number - 1}: block {number} is wanted")
        points = [lines.point() for _ in range((wide + 1) * (high + 1))]
        links = []
        while lines.words[:1] in (["link"], ["wall"]):
            links.append(lines.link())
        yield Block(number, wide, high, points, links)
    if lines.words:
        raise Fault(f"line {lines.number}: nothing more is wanted")


def grid_of(block: Block) -> str:
    return GRID.format(
        wide=block.wide,
        high=block.high,
        many=len(block.links),
        links="\n".join(" ".join(map(str, link)) for link in block.links),
        cells="\n".join([" ".join([str(block.number)] * block.wide)] * block.high),
        points="\n".join(block.points),
    )


def write_blocks(text: TextIO, folder: Path) -> int:
    """Writes all grids and their index, and tells how many there are."""
    folder.mkdir(parents=True, exist_ok=True)
    files = []
    for block in blocks_in(text):
        name = f"block{block.number}.vts"
        (folder / name).write_text(grid_of(block))
        files.append(f'    <DataSet index="{block.number - 1}" name="block {block.number}" file="{name}"/>')
    (folder / "blocks.vtm").write_text(INDEX.format(files="\n".join(files)))
    return len(files)


def main(words: List[str]) -> int:
    if len(words) != 2 or words[0].startswith("--"):
        print(__doc__, file=sys.stderr)
        return 2
    try:
        with open(words[0], encoding="ascii") as text:
            count = write_blocks(text, Path(words[1]))
    except (Fault, OSError, UnicodeDecodeError) as fault:
        print(f"blocks_to_vtk: {fault}", file=sys.stderr)
        return 1
    print(f"blocks_to_vtk: {count} blocks in {words[1]}", file=sys.stderr)
    return 0


if __name__ == "__main__":
    sys.exit(main(sys.argv[1:]))
