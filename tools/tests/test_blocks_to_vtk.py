"""What tools/blocks_to_vtk.py writes of two blocks that share a side, read back as XML and, where it is there, by VTK."""

import pathlib
import subprocess
import sys
import tempfile
import unittest
from xml.etree import ElementTree

try:
    from vtkmodules.util.numpy_support import vtk_to_numpy
    from vtkmodules.vtkIOXML import vtkXMLMultiBlockDataReader
except ImportError:
    vtkXMLMultiBlockDataReader = None

ROOT = pathlib.Path(__file__).resolve().parents[2]
SCRIPT = ROOT / "tools/blocks_to_vtk.py"

FIRST = ["0 0 0", "1 0 0", "0 1 0", "1 1 0"]
SECOND = ["1 0 0", "2 0 0.5", "3 0 0", "1 1 0", "2 1 -0.25", "3 1 0"]
PAIR = "\n".join([
    "quadq blocks 1 by 1",
    "blocks 2",
    "block 1 1 1",
    *FIRST,
    "wall south 0 1",
    "link east 0 1 2 west 0",
    "wall north 0 1",
    "wall west 0 1",
    "block 2 2 1",
    *SECOND,
    "wall south 0 2",
    "wall east 0 1",
    "wall north 0 2",
    "link west 0 1 1 east 0",
    "",
])


def ran(text, folder):
    """The status of a run over a text, and what was said."""
    path = pathlib.Path(folder) / "blocks.txt"
    path.write_text(text)
    it = subprocess.run([sys.executable, SCRIPT, path, pathlib.Path(folder) / "out"], capture_output=True, text=True)
    return it.returncode, it.stderr


def array(grid, path):
    """The numbers of an array, and those that make one tuple of it."""
    found = grid.find(f".//{path}")
    return [float(it) for it in found.text.split()], int(found.get("NumberOfComponents", "1"))


class BlocksToVtk(unittest.TestCase):
    def test_grids_have_the_points_and_links_of_their_blocks(self):
        with tempfile.TemporaryDirectory() as folder:
            self.assertEqual(ran(PAIR, folder), (0, f"blocks_to_vtk: 2 blocks in {folder}/out\n"))
            index = ElementTree.parse(f"{folder}/out/blocks.vtm")
            files = [it.get("file") for it in index.iter("DataSet")]
            self.assertEqual(files, ["block1.vts", "block2.vts"])
            for number, (name, points, extent) in enumerate(
                zip(files, (FIRST, SECOND), ("0 1 0 1 0 0", "0 2 0 1 0 0")), 1
            ):
                grid = ElementTree.parse(f"{folder}/out/{name}").getroot()
                self.assertEqual(grid.find(".//StructuredGrid").get("WholeExtent"), extent)
                self.assertEqual(grid.find(".//Piece").get("Extent"), extent)
                self.assertEqual(array(grid, "Points/DataArray"), ([float(it) for p in points for it in p.split()], 3))
                self.assertEqual(array(grid, "CellData/DataArray"), ([number] * number, 1))
                links, many = array(grid, "FieldData/DataArray")
                self.assertEqual((len(links), many), (24, 6))
            self.assertEqual(links[18:], [3, 0, 1, 1, 1, 0])
            self.assertEqual(links[:6], [0, 0, 2, 0, -1, -1])

    def test_no_blocks(self):
        with tempfile.TemporaryDirectory() as folder:
            self.assertEqual(ran("quadq blocks 1 by 7\nblocks 0\n", folder)[0], 0)
            self.assertEqual(list(ElementTree.parse(f"{folder}/out/blocks.vtm").iter("DataSet")), [])

    def test_other_texts_are_refused_at_their_line(self):
        for text, said in (
            ("", "line 1: `quadq blocks 1 by` and 1 numbers are wanted"),
            (PAIR.replace("block 2 2 1", "block 3 2 1"), "line 12: block 2 is wanted"),
            (PAIR.replace("0 1 0\n", "", 1), "line 7: a point is wanted"),
            (PAIR.replace("2 west 0", "2 up 0"), "line 9: a link or a wall is wanted"),
            (PAIR + "more\n", "line 23: nothing more is wanted"),
        ):
            with tempfile.TemporaryDirectory() as folder:
                self.assertEqual(ran(text, folder), (1, f"blocks_to_vtk: {said}\n"))

    @unittest.skipUnless(vtkXMLMultiBlockDataReader, "no VTK here")
    def test_vtk_reads_what_was_written(self):
        with tempfile.TemporaryDirectory() as folder:
            self.assertEqual(ran(PAIR, folder)[0], 0)
            reader = vtkXMLMultiBlockDataReader()
            reader.SetFileName(f"{folder}/out/blocks.vtm")
            reader.Update()
            blocks = reader.GetOutput()
            self.assertEqual(blocks.GetNumberOfBlocks(), 2)
            for at, (points, size) in enumerate(((FIRST, [2, 2, 1]), (SECOND, [3, 2, 1]))):
                grid, found = blocks.GetBlock(at), [0, 0, 0]
                grid.GetDimensions(found)
                self.assertEqual(found, size)
                there = [[float(it) for it in point.split()] for point in points]
                self.assertEqual(vtk_to_numpy(grid.GetPoints().GetData()).tolist(), there)
                self.assertEqual(grid.GetFieldData().GetArray("links").GetNumberOfTuples(), 4)
                self.assertEqual(grid.GetCellData().GetArray("block").GetValue(0), at + 1)


if __name__ == "__main__":
    unittest.main()
