"""The command line `python3 -m quadq blocks IN OUT`: the blocks of a file in another."""

from __future__ import annotations

import argparse
import sys

from .block_files import write_blocks
from .blocks import blocks
from .files import nothing_stale
from .formats import read_file
from .graphs import CUTS, KEPT
from .inputs import file_named, refuse_overwriting
from .program import Program

NAME = "quadq blocks"


def parser_of_blocks() -> argparse.ArgumentParser:
    parser = argparse.ArgumentParser(
        prog=NAME, description="Writes the patches of a mesh as structured blocks, with the names of its walls.",
        usage="python3 -m quadq blocks IN (OUT.vtm | OUT.xyz | OUT.cgns | OUT/blockMeshDict) [..]")
    parser.add_argument("source", metavar="IN", help="a mesh: OBJ, or what meshio reads")
    parser.add_argument("target", metavar="OUT", help="its name says the format")
    parser.add_argument("--by", type=int, default=1, metavar="K", help="divide each edge of the mesh in K")
    parser.add_argument("--thickness", type=float, metavar="T", help="make the blocks a cell deep, of this thickness")
    parser.add_argument("--keep", choices=KEPT, default="none", help="cut along the lines of the file")
    parser.add_argument("--patches", choices=CUTS, default="traced", help="which patches are blocks")
    parser.add_argument("--quiet", action="store_true", help="say only what is refused")
    return parser


def write_asked(asked: argparse.Namespace) -> int:
    """Does what the words ask, and returns the exit status. Where that fails, no file of an earlier run is left."""
    program = Program()
    source, target = file_named(asked.source), file_named(asked.target)
    refuse_overwriting([source], [("OUT", target)])
    with nothing_stale([target], source):
        mesh, _ = read_file(source, program)
        found = blocks(mesh, asked.by, keep=asked.keep, patches=asked.patches, program=program)
        said = write_blocks(target, found, asked.thickness)
    if not asked.quiet:
        print(f"{len(found)} blocks, {sum(it.wide * it.high for it in found)} faces, "
              f"{sum(1 for _ in found.joins())} joins; walls: {', '.join(found.names) or 'none'}")
    for it in (*mesh.notes, *said):
        print(f"{NAME}: warning: {it}", file=sys.stderr)
    return 0
