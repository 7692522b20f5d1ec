"""The maps of small meshes, worked by hand, and what is no pair of meshes."""

import os
import pathlib
import re
import subprocess
import sys
import tempfile
import unittest

from test_carry import GRID_MAP, GRID_NEW, STRIP, STRIP_MAP, STRIP_NEW, grid

ROOT = pathlib.Path(__file__).resolve().parents[2]
sys.path.insert(0, str(ROOT / "tools"))
from layout_text import cut_options  # noqa: E402
from make_map import map_of  # noqa: E402

SCRIPT = ROOT / "tools/make_map.py"
PROGRAM = os.environ.get("QUADQ", str(ROOT / "dist/quadq"))
HEAD = "#quadq 1 remesh scale 2/3 floor 1 weight plain\n"
ONE = 1 << 32

# Two faces whose corners begin elsewhere, behind a vertex that no face names. The south side of their patch is the edge
# from vertex 5 to 2: there the first of its corners begins.
TURNED = """v 9 9 9
v 0 0 0
v 1 0 0
v 2 0 0
v 0 1 0
v 1 1 0
v 2 1 0
f 3 6 5 2
f 6 3 4 7
"""
TURNED_NEW = """#quadq 1 remesh scale 3/2 floor 1 weight plain
v 0 0 0
v 2 0 0
v 0 1 0
v 2 1 0
v 1.333333 1 0
v 0.666667 1 0
v 0 0.5 0
v 0.666667 0 0
v 1.333333 0 0
v 2 0.5 0
v 0.666667 0.5 0
v 1.333333 0.5 0
f 3 7 11 6
f 7 1 8 11
f 6 11 12 5
f 11 8 9 12
f 5 12 10 4
f 12 9 2 10
#x 3
#x 2
#x 3
#x 2
"""
TURNED_MAP = """quadq map 1
vertices 12 faces 6
vertex 2
vertex 4
vertex 5
vertex 7
edge 7 6 2 3
edge 6 5 1 3
edge 5 2 1 2
edge 2 3 2 3
edge 3 4 1 3
edge 4 7 1 2
face 1 3 2147483648 2863311530
face 2 1 2147483648 1431655765
cell 1 3 0 0 2147483648 0 2147483648 2863311530 0 2863311530
cell 1 3 2147483648 0 4294967296 0 4294967296 2863311530 2147483648 2863311530
cell 1 3 0 2863311530 2147483648 2863311530 2147483648 5726623061 0 5726623061
cell 1 3 2147483648 2863311530 4294967296 2863311530 4294967296 5726623061 2147483648 5726623061
cell 2 1 0 1431655765 2147483648 1431655765 2147483648 4294967296 0 4294967296
cell 2 1 2147483648 1431655765 4294967296 1431655765 4294967296 4294967296 2147483648 4294967296
"""


def layout(old, new):
    """The cut over which a command made the new mesh."""
    words = [PROGRAM, "layout", *cut_options(new)]
    return subprocess.run(words, input=old, capture_output=True, text=True, check=True).stdout


def mapped(old, cut, new, status=0):
    """What the script writes, or what it says."""
    with tempfile.TemporaryDirectory() as folder:
        paths = [pathlib.Path(folder) / name for name in ("in.obj", "layout.txt", "out.obj")]
        for path, text in zip(paths, (old, cut, new)):
            path.write_text(text)
        ran = subprocess.run([sys.executable, SCRIPT, *paths], capture_output=True, text=True)
    assert ran.returncode == status, ran.stderr
    return ran.stderr if status else ran.stdout


def rows():
    """The worked rows of `quadq map` that end well: the name of each, the old text, the new one and the map."""
    for path in sorted((ROOT / "crates/qm_rows/data").glob("map_*.case")):
        parts = dict(re.findall(r"^== (\w+)\n((?:(?!== ).*\n)*)", path.read_text(), re.M))
        if parts["status"] == "0\n":
            divided = parts["in"].rindex("#quadq 1 ")
            yield path.stem, parts["in"][:divided], parts["in"][divided:], parts["out"]


def places_in(text):
    return [tuple(map(float, line.split()[1:])) for line in text.splitlines() if line.startswith("v ")]


class MakeMap(unittest.TestCase):
    def setUp(self):
        if not os.access(PROGRAM, os.X_OK):
            self.skipTest("the program is not there")

    def test_a_strip_and_a_grid(self):
        self.assertEqual(mapped(STRIP, layout(STRIP, STRIP_NEW), STRIP_NEW), STRIP_MAP)
        new = HEAD + GRID_NEW + "#x 2\n" * 4
        self.assertEqual(mapped(grid(), layout(grid(), new), new), GRID_MAP)
        rounds = HEAD + GRID_NEW + "#f 1\n" + "#x 1\n" * 4 + "#r 1 2\n#r 2 2\n" + "#x 2\n" * 4
        self.assertEqual(mapped(grid(), layout(grid(), new), rounds), GRID_MAP, "the last round is that of the mesh")

    def test_faces_that_are_turned(self):
        self.assertEqual(mapped(TURNED, layout(TURNED, TURNED_NEW), TURNED_NEW), TURNED_MAP)

    def test_the_worked_rows(self):
        worked = list(rows())
        self.assertEqual(len(worked), 11)
        for name, old, new, wanted in worked:
            self.assertEqual(map_of(old, layout(old, new), new), wanted, name)

    def test_marked_edges_are_arcs_of_a_cut_that_keeps_lines(self):
        old = "".join(f"v {x} {y} 0\n" for y in (0, 1, 2) for x in (0, 1, 2)) + (
            "f 1 2 5 4\nf 2 3 6 5\nf 4 5 8 7\nf 5 6 9 8\nl 4 5 6\n")
        new = "".join(f"v {x} {y} 0\n" for x, y in ((0, 0), (2, 0), (0, 1), (2, 1), (0, 2), (2, 2)))
        new += "f 1 2 4 3\nf 3 4 6 5\n"
        new = "#quadq 1 crease scale 1/2 floor 1 weight plain\n" + new + "#x 1\n" * 7
        told = mapped(old, layout(old, new), new)
        self.assertIn("vertices 6 faces 2\nvertex 1\nvertex 3\nvertex 4\nvertex 6\n", told)
        self.assertIn(f"cell 2 1 -{ONE} 0 {ONE} 0 {ONE} {ONE} -{ONE} {ONE}\n", told)
        self.assertIn("has 4 arcs, and the new one lengths for 7", mapped(old, layout(old, HEAD), new, 1))

    def test_the_weights_of_the_page(self):
        code = re.search(r"^```\n(def weights.*?)^```$", (ROOT / "docs/MAP.md").read_text(), re.M | re.S)
        page = {}
        exec(code[1], page)
        faces = [tuple(map(int, line.split()[1:])) for line in TURNED.splitlines() if line.startswith("f ")]
        old, new = (places_in(it) for it in (TURNED, TURNED_NEW))
        for line, place in zip(TURNED_MAP.splitlines()[2:], new):
            parts = page["weights"](line, faces)
            for axis, wanted in enumerate(place):
                self.assertAlmostEqual(sum(part * old[vertex - 1][axis] for vertex, part in parts), wanted, 6, line)

    def test_what_is_no_pair(self):
        for new, told in (
            (STRIP_NEW.replace("v 1.5 0 0", "v 1.5 0 0.000001"), "vertex 5 of the new mesh does not lie"),
            (STRIP_NEW.replace("#x 1\n", "", 1), "has 4 arcs, and the new one lengths for 3"),
            (STRIP_NEW.partition("\n")[2], "does not begin with the line of a command"),
        ):
            self.assertIn(told, mapped(STRIP, layout(STRIP, STRIP_NEW), new, 1))
        self.assertIn("begins with `quadq layout 1`", mapped(STRIP, "quadq graph 1\n", STRIP_NEW, 1))


if __name__ == "__main__":
    unittest.main()
