"""Blocks: their sides meet point by point, walls have names, and the files say so."""

import contextlib
import io
import os
import pathlib
import re
import shutil
import subprocess
import tempfile
import unittest

import numpy as np

import quadq
from quadq import Refusal, WishError, conforming, read, write_blocks
from quadq.__main__ import main
from quadq.blocks import read_blocks
from quadq.cgns_file import library
from quadq.conforming import told_by_corners
from quadq.graphs import SIDES

from .shapes import EXAMPLES, drum, grid, plate
from .test_groups import grouped, sides_of

GRIDS = """quadq grids 1 keep none patches conforming by 1
blocks 2
block 1 1 1
0 0 0
1 0 0
0 1 0
1 1 0
wall south 0 1 1
link east 0 1 2 west 0 2
wall north 0 1 3
wall west 0 1 4
block 2 1 1
1 0 0
2 0 0
1 1 0
2 1 0
wall south 0 1 5
wall east 0 1 6
wall north 0 1 7
link west 0 1 1 east 0 2
"""
SWITCH = {"1": (2, 0), "2": (2, -1), "3": (0, 0), "4": (0, -1), "5": (1, 0), "6": (1, -1)}
"""The axis and the end of each face of a neutral map."""


def named_plate():
    return grouped(plate(), sides_of(plate(), 0, 24))


def uneven():
    """A mesh whose blocks do not meet whole side to whole side."""
    mesh = grid(12, 9)
    middle = mesh.points[mesh.quads].mean(axis=1)
    cut = (middle[:, 0] < 4) & (middle[:, 1] > 6) | (middle[:, 0] > 9) & (middle[:, 1] < 2)
    return mesh.faces_of(np.flatnonzero(~cut))[0]


class Meeting(unittest.TestCase):
    def assertMeet(self, found):
        for at, block in enumerate(found):
            for side in range(4):
                place = 0
                for link in (it for it in block.links if it.side == side):
                    self.assertEqual(link.first, place)
                    place += link.count
                    if link.is_wall:
                        self.assertTrue(link.name)
                        continue
                    other = found[link.block]
                    mine = block.along(side)[link.first:link.first + link.count + 1]
                    theirs = other.along(link.across)[link.point:link.point + link.count + 1]
                    np.testing.assert_array_equal(mine, theirs[::-1])
                    back = [it for it in other.links if (it.block, it.across, it.point) == (at, side, link.first)]
                    self.assertEqual([(it.side, it.first) for it in back], [(link.across, link.point)])
                self.assertEqual(place, block.length(side))
        joins = list(found.joins())
        self.assertEqual(2 * len(joins), sum(not it.is_wall for block in found for it in block.links))

    def test_sides_meet(self):
        for mesh in (grid(4, 3), named_plate(), drum(), uneven(), read(EXAMPLES / "torus.obj"),
                     read(EXAMPLES / "letter_q.obj")):
            for by in (1, 2):
                found = quadq.blocks(mesh, by)
                self.assertEqual(sum(it.wide * it.high for it in found), mesh.face_count * by * by)
                self.assertMeet(found)
                whole = conforming(found)
                self.assertMeet(whole)
                self.assertTrue(all(len(it.links) == len(SIDES) for it in whole))
                self.assertMeet(told_by_corners(found) if by == 2 else whole)

    def test_walls_have_the_names_of_groups(self):
        found = quadq.blocks(named_plate(), 2)
        self.assertEqual(set(found.names), {"left", "right", "bottom", "top", "hole"})
        long = dict.fromkeys(found.names, 0.0)
        for at, link in found.walls():
            points = found[at].along(link.side)[link.first:link.first + link.count + 1]
            long[link.name] += np.linalg.norm(np.diff(points, axis=0), axis=1).sum()
        self.assertAlmostEqual(long["left"], 24, 6)
        self.assertAlmostEqual(long["hole"], 18.79, 2)
        self.assertIn("walls", repr(found))

    def test_a_wall_is_parted_where_names_change(self):
        mesh = grid(6, 2)
        bottom = sides_of(mesh, 0, 6)["bottom"]
        found = quadq.blocks(grouped(mesh, {"in": bottom[:2], "out": bottom[2:]}))
        south = [(it.first, it.count, it.name) for it in found[0].links if it.side == 0]
        self.assertEqual(south, [(0, 2, "in"), (2, 4, "out")])
        self.assertEqual(len(conforming(found)), 2)

    def test_the_text_of_grids(self):
        head = "quadq grids 1 keep none patches conforming by 1"
        found = read_blocks(GRIDS, head, 1)
        self.assertEqual((len(found), found[0].links[1].block, found[1].links[3].across), (2, 1, 1))
        with self.assertRaises(Refusal):
            read_blocks(GRIDS, "quadq blocks 1 by 1", 1)
        for patches in ("merged", "conforming"):
            whole = quadq.blocks(uneven(), 2, patches=patches)
            self.assertMeet(whole)
            self.assertEqual(sum(it.wide * it.high for it in whole), 4 * uneven().face_count)
        self.assertTrue(all(len(it.links) == len(SIDES) for it in whole))
        named = quadq.blocks(named_plate(), patches="conforming")
        self.assertEqual(set(named.names), {"left", "right", "bottom", "top", "hole"})


class Files(unittest.TestCase):
    def setUp(self):
        room = tempfile.TemporaryDirectory()
        self.addCleanup(room.cleanup)
        self.room = pathlib.Path(room.name)

    def test_vtk_opens_them(self):
        try:
            from vtkmodules.vtkIOXML import vtkXMLMultiBlockDataReader
        except ImportError:
            self.skipTest("VTK is not here (Debian: python3-vtk9)")
        for thickness, cells in ((None, 540), (0.5, 540)):
            write_blocks(self.room / "a.vtm", quadq.blocks(named_plate()), thickness)
            reader = vtkXMLMultiBlockDataReader()
            reader.SetFileName(str(self.room / "a.vtm"))
            reader.Update()
            inside, rim = (reader.GetOutput().GetBlock(at) for at in range(2))
            grids = [inside.GetBlock(at) for at in range(inside.GetNumberOfBlocks())]
            self.assertEqual(sum(it.GetNumberOfCells() for it in grids), cells)
            names = [rim.GetMetaData(at).Get(rim.NAME()) for at in range(rim.GetNumberOfBlocks())]
            self.assertEqual(set(names), {"left", "right", "bottom", "top", "hole"})
            rows = sum(it.GetFieldData().GetArray("joins").GetNumberOfTuples() for it in grids)
            self.assertEqual(rows, 8)

    def plot3d(self, name, thickness):
        words = (self.room / name).read_text().split()
        count = int(words[0])
        deep = 2 if thickness is None else 3
        sizes = np.array(words[1:1 + count * deep], dtype=int).reshape(count, deep)
        values, grids, at = np.array(words[1 + count * deep:], dtype=float), [], 0
        for size in sizes:
            many = int(size.prod())
            grids.append(values[at:at + deep * many].reshape(deep, *size[::-1]).T)
            at += deep * many
        self.assertEqual(at, len(values))
        return grids

    def test_plot3d_and_its_neutral_map(self):
        for mesh in (named_plate(), uneven()):
            for thickness in (None, 0.5):
                found = quadq.blocks(mesh)
                write_blocks(self.room / "a.xyz", found, thickness)
                grids = self.plot3d("a.xyz", thickness)
                lines = [it for it in (self.room / "a.nmf").read_text().splitlines() if not it.startswith("#")]
                self.assertEqual(int(lines[0]), len(grids))
                joins = walls = 0
                for line in lines[1 + len(grids):]:
                    name, rest = re.fullmatch(r"'(.*)' (.*)", line).groups()
                    words = rest.split()
                    if name != "ONE_TO_ONE":
                        walls += 1
                        continue
                    joins += 1
                    one, other = self.side(grids, words[:6]), self.side(grids, words[6:12])
                    np.testing.assert_array_equal(one, other.swapaxes(0, 1) if words[12] == "TRUE" else other)
                self.assertEqual((joins, walls), (len(list(found.joins())), len(list(found.walls()))))

    def side(self, grids, words):
        """The points of a range, its first index first."""
        grid = grids[int(words[0]) - 1]
        grid = grid[:, :, None] if grid.ndim == 3 else grid
        axis, end = SWITCH[words[1]]
        face = np.take(grid, end, axis=axis)
        order = {0: (0, 1), 1: (1, 0), 2: (0, 1)}[axis]
        face = face.transpose(*order, 2)
        for way, (first, last) in enumerate((words[2:4], words[4:6])):
            low, high = sorted((int(first), int(last)))
            face = np.take(face, range(low - 1, high), axis=way)
            face = np.flip(face, axis=way) if int(first) > int(last) else face
        return face

    def foam(self, mesh, **more):
        said = write_blocks(self.room / "system/blockMeshDict", quadq.blocks(mesh), **more)
        return (self.room / "system/blockMeshDict").read_text(), said

    def test_the_text_of_openfoam(self):
        for mesh, cells in ((named_plate(), 540), (uneven(), 90), (drum(), 288)):
            text, _ = self.foam(mesh)
            lists = dict(re.findall(r"^(\w+)\n\(\n(.*?)^\);$", text, re.M | re.S))
            vertices = lists["vertices"].count("//")
            hexes = re.findall(r"hex \(([\d ]+)\) \((\d+) (\d+) 1\)", lists["blocks"])
            self.assertEqual(sum(int(it[1]) * int(it[2]) for it in hexes), cells)
            for corners, *_ in hexes:
                self.assertEqual(len(set(corners.split())), 8)
            used = {int(it) for corners, *_ in hexes for it in corners.split()}
            self.assertEqual(used, set(range(vertices)))
            faces = re.findall(r"^ +\((\d+) (\d+) (\d+) (\d+)\)$", lists["boundary"], re.M)
            self.assertEqual(len(set(map(frozenset, faces))), len(faces), "each face is in one patch")

    def test_patches_have_the_names_of_groups(self):
        mesh = grid(4, 4)
        mesh = grouped(mesh, {"outlet 2": sides_of(mesh, 0, 4)["left"]})
        text, said = self.foam(mesh)
        self.assertRegex(text, r"outlet_2\n +\{\n +type patch;")
        self.assertRegex(text, r"wall\n +\{\n +type wall;")
        self.assertRegex(text, r"frontAndBack\n +\{\n +type empty;")
        self.assertIn("outlet_2", said[0])
        self.assertRegex(self.foam(drum())[0], r"front\n +\{\n +type patch;")

    def test_thicknesses_that_are_none(self):
        for thickness in (0.0, -1.0, float("nan"), float("inf"), 1e9):
            with self.assertRaises(WishError):
                write_blocks(self.room / "a.vtm", quadq.blocks(named_plate()), thickness)
        self.assertEqual([*self.room.iterdir()], [])

    def test_cells_that_a_thickness_turns_inside_out_are_said(self):
        narrow = quadq.Mesh.of_quads(drum(24, 2).points[:, [0, 2, 1]], drum(24, 2).quads)
        for name in ("a.vtm", "a.xyz", "system/blockMeshDict"):
            for mesh, thickness, count in ((drum(), 0.5, 0), (narrow, 2.0, 48)):
                said = write_blocks(self.room / name, quadq.blocks(mesh), thickness)
                self.assertEqual([it for it in said if it.startswith("48 cells would be inside out")],
                                 [] if not count else list(said), name)

    def test_openfoam_takes_them(self):
        if shutil.which("blockMesh") is None:
            self.skipTest("OpenFOAM is not here (Debian: openfoam)")
        for name in ("controlDict", "fvSchemes", "fvSolution"):
            (self.room / "system").mkdir(exist_ok=True)
            (self.room / "system" / name).write_text(
                f"FoamFile {{ version 2.0; format ascii; class dictionary; object {name}; }}\nstartFrom startTime; "
                "startTime 0; stopAt endTime; endTime 1; deltaT 1; writeControl timeStep; writeInterval 1;\n"
                "gradSchemes {} divSchemes {} laplacianSchemes {} interpolationSchemes {} snGradSchemes {}\n"
                "ddtSchemes {}\n")
        around = {**os.environ, "WM_PROJECT_DIR": "/usr/share/openfoam"}
        for mesh, thickness in ((named_plate(), None), (uneven(), None), (drum(), 0.1)):
            self.foam(mesh, thickness=thickness)
            for tool in ("blockMesh", "checkMesh"):
                ran = subprocess.run([tool], cwd=self.room, env=around, capture_output=True, text=True, timeout=60)
            self.assertIn("Mesh OK.", ran.stdout)

    @unittest.skipIf(library() is None, "the library of CGNS is not here (Debian: libcgns-dev)")
    def test_cgns(self):
        for mesh, thickness in ((named_plate(), None), (uneven(), 0.5), (drum(), 0.1)):
            write_blocks(self.room / "a.cgns", quadq.blocks(mesh), thickness)
            self.assertGreater((self.room / "a.cgns").stat().st_size, 1000)
            if shutil.which("cgnscheck"):
                ran = subprocess.run(["cgnscheck", "a.cgns"], cwd=self.room, capture_output=True, text=True)
                self.assertEqual((ran.returncode, re.findall("ERROR:.*", ran.stdout)), (0, []))

    def test_what_is_no_file_of_blocks(self):
        found = quadq.blocks(grid(2, 2))
        for name, more in (("a.vtk", {}), ("a.xyz", {"thickness": 0.0})):
            with self.assertRaises(WishError):
                write_blocks(self.room / name, found, **more)
        with self.assertRaises(WishError):
            quadq.blocks(grid(2, 2), 0)

    def test_the_command_line(self):
        quadq.write(self.room / "a.obj", named_plate())
        with contextlib.redirect_stdout(io.StringIO()) as out:
            self.assertEqual(main(["blocks", str(self.room / "a.obj"), str(self.room / "a.vtm"), "--by", "2"]), 0)
        self.assertEqual(out.getvalue(), "8 blocks, 2160 faces, 8 joins; walls: wall\n")
        (self.room / "bad.obj").write_text("v 0 0 0\nf 1 1 1 1\n")
        with contextlib.redirect_stderr(io.StringIO()) as err:
            self.assertEqual(main(["blocks", str(self.room / "bad.obj"), str(self.room / "a.vtm")]), 7)
        self.assertIn("vertex 1 repeated", err.getvalue())
        self.assertFalse((self.room / "a.vtm").exists())


if __name__ == "__main__":
    unittest.main()
