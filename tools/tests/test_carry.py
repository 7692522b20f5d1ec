"""What tools/carry.py carries over small meshes, each with its map."""

import pathlib
import re
import subprocess
import sys
import tempfile
import unittest

ROOT = pathlib.Path(__file__).resolve().parents[2]
sys.path.insert(0, str(ROOT / "tools"))
import carry  # noqa: E402
import carrying  # noqa: E402
from obj_text import read_obj  # noqa: E402

SCRIPT = ROOT / "tools/carry.py"
REMEDY = "`mark_features.py --seams --groups` and `quadq crease` leave none"

# Three squares in a row, and the two faces that `remesh --scale 2/3` makes of them.
STRIP = """mtllib strip.mtl
v 0 0 0 0 0 0
v 1 0 0 0.3 0 0
v 2 0 0 0.6 0 0
v 3 0 0 0.9 0 0
v 0 1 0 0 1 0
v 1 1 0 0.3 1 0
v 2 1 0 0.6 1 0
v 3 1 0 0.9 1 0
vt 0 0
vt 0.1 0
vt 0.2 0
vt 0.3 0
vt 0 0.1
vt 0.1 0.1
vt 0.2 0.1
vt 0.3 0.1
vt 0.5 0
vt 0.5 0.1
vn 0 0 2
usemtl left
f 1/1/1 2/2/1 6/6/1 5/5/1
f 2/2/1 3/3/1 7/7/1 6/6/1
usemtl right
s 1
f 3/3/1 4/4/1 8/8/1 7/7/1
"""
MIDDLE = "f 2/2/1 3/3/1 7/7/1 6/6/1"
STRIP_NEW = """#quadq 1 remesh scale 2/3 floor 1 weight plain
v 0 0 0
v 3 0 0
v 0 1 0
v 3 1 0
v 1.5 0 0
v 1.5 1 0
f 1 5 6 3
f 5 2 4 6
#x 2
#x 2
#x 1
#x 1
"""
STRIP_MAP = """quadq map 1
vertices 6 faces 2
vertex 1
vertex 4
vertex 5
vertex 8
edge 2 3 1 2
edge 7 6 1 2
cell 1 1 0 0 6442450944 0 6442450944 4294967296 0 4294967296
cell 3 1 -2147483648 0 4294967296 0 4294967296 4294967296 -2147483648 4294967296
"""
STRIP_CARRIED = """mtllib strip.mtl
v 0 0 0 0 0 0
v 3 0 0 0.9 0 0
v 0 1 0 0 1 0
v 3 1 0 0.9 1 0
v 1.5 0 0 0.45 0 0
v 1.5 1 0 0.45 1 0
vt 0 0
vt 0.15 0
vt 0.15 0.1
vt 0 0.1
vt 0.3 0
vt 0.3 0.1
vn 0 0 1
usemtl left
f 1/1/1 5/2/1 6/3/1 3/4/1
usemtl right
s 1
f 5/2/1 2/5/1 4/6/1 6/3/1
"""

# Three by three squares, and the four faces that `remesh --scale 2/3` makes of them, with their middle in face 5.
GRID_NEW = """v 0 0 0
v 3 0 0
v 0 3 0
v 3 3 0
v 1.5 0 0
v 0 1.5 0
v 3 1.5 0
v 1.5 3 0
v 1.5 1.5 0
f 1 5 9 6
f 5 2 7 9
f 6 9 8 3
f 9 7 4 8
l 1 5 2
"""
GRID_MAP = """quadq map 1
vertices 9 faces 4
vertex 1
vertex 4
vertex 13
vertex 16
edge 2 3 1 2
edge 9 5 1 2
edge 8 12 1 2
edge 15 14 1 2
face 5 1 2147483648 2147483648
cell 1 1 0 0 6442450944 0 6442450944 6442450944 0 6442450944
cell 3 1 -2147483648 0 4294967296 0 4294967296 6442450944 -2147483648 6442450944
cell 7 1 0 -2147483648 6442450944 -2147483648 6442450944 4294967296 0 4294967296
cell 9 1 -2147483648 -2147483648 4294967296 -2147483648 4294967296 4294967296 -2147483648 4294967296
"""


def carried(old, new, given, status=0):
    """What the script writes, and what it says."""
    with tempfile.TemporaryDirectory() as folder:
        paths = [pathlib.Path(folder) / name for name in ("in.obj", "out.obj", "map.txt")]
        for path, text in zip(paths, (old, new, given)):
            path.write_text(text)
        ran = subprocess.run([sys.executable, SCRIPT, *paths], capture_output=True, text=True)
    assert ran.returncode == status, ran.stderr
    return ran.stdout, ran.stderr


def grid(other=None, moved=None):
    """The three by three squares, a tenth a square in the texture. `other` has corners (face, vertex) that name another
    value, and `moved` vertices that have one."""
    values = {it: (it % 4 / 10, it // 4 / 10) for it in range(16)}
    values.update(moved or {})
    lines = [f"v {it % 4} {it // 4} 0" for it in range(16)] + [f"vt {u} {v}" for u, v in values.values()]
    lines += [f"vt {u} {v}" for u, v in (other or {}).values()]
    numbers = {corner: 17 + at for at, corner in enumerate(other or {})}
    for face in range(9):
        first = face % 3 + 4 * (face // 3)
        corners = (first, first + 1, first + 5, first + 4)
        lines.append("f " + " ".join(f"{it + 1}/{numbers.get((face + 1, it + 1), it + 1)}" for it in corners))
    return "\n".join(lines)


def values_at(text, vertex):
    """The texture coordinates of a vertex in the faces that have it, in the order of the faces."""
    lines = [line.split() for line in text.splitlines()]
    values = [tuple(map(float, it[1:])) for it in lines if it[0] == "vt"]
    corners = [word.split("/") for it in lines if it[0] == "f" for word in it[1:]]
    return [values[int(it[1]) - 1] for it in corners if int(it[0]) == vertex]


class Carry(unittest.TestCase):
    def test_a_strip(self):
        text, said = carried(STRIP, STRIP_NEW, STRIP_MAP)
        self.assertEqual(text, STRIP_CARRIED)
        self.assertEqual(said, f"carry: of 2 faces, 1 over a border of names: {REMEDY}\n")

    def test_places_on_edges_may_be_told_by_shares(self):
        told = re.compile(r"^edge (\d+) (\d+) (\d+) (\d+)$", re.M)
        shared = told.sub(lambda it: f"share {it[1]} {it[2]} {int(it[3]) * carrying.ONE // int(it[4])}", STRIP_MAP)
        self.assertIn("share 2 3 2147483648\n", shared)
        self.assertEqual(carried(STRIP, STRIP_NEW, shared)[0], STRIP_CARRIED)

    def test_spellings_of_the_old_text(self):
        corner = re.compile(r"(\d+)/(\d+)/1")
        old = corner.sub(lambda it: f"{int(it[1]) - 9}/{int(it[2]) - 11}/-1", STRIP)
        old = old.replace("v 3 1 0 0.9", "v 3 1\t0 \\\n 9e-1").replace("usemtl left", "usemtl left  # of three")
        self.assertEqual(carried(old.replace("\n", "\r\n"), STRIP_NEW, STRIP_MAP)[0], STRIP_CARRIED)

    def test_old_texts_that_are_wrong(self):
        for there, wrong, told in (
            (MIDDLE, "f 2 3 7", "line 23: face with 3 corners"),
            (MIDDLE, "f 0 3 7 6", "line 23: number out of range"),
            (MIDDLE, "f 2/2/1/1 3 7 6", "line 23: not an OBJ line of this profile"),
        ):
            self.assertEqual(carried(STRIP.replace(there, wrong), STRIP_NEW, STRIP_MAP, 1), ("", f"carry: {told}\n"))

    def test_a_texture_that_is_not_there(self):
        text, said = carried(STRIP.replace(MIDDLE, "f 2/2 3/3 7/7 6/11"), STRIP_NEW, STRIP_MAP)
        self.assertEqual(text.count("\nf "), 2)
        self.assertIn("carry: 1 corners name vt lines that are not there, and have no texture coordinates\n", said)

    def test_a_corner_beyond_a_seam_is_carried_on(self):
        old = STRIP.replace(MIDDLE, "f 2/9/1 3/3/1 7/7/1 6/10/1")
        text, said = carried(old, STRIP_NEW, STRIP_MAP)
        self.assertEqual(values_at(text, 5), [(0.15, 0), (0.35, 0)])
        self.assertIn("of 2 faces, 1 over a seam of vt and 1 over a border of names", said)

    def test_seams_are_where_values_differ_and_not_numbers(self):
        old = STRIP.replace("vt 0.5 0", "vt 0.1 0").replace(MIDDLE, "f 2/9/1 3/3/1 7/7/1 6/10/1")
        self.assertEqual(carried(old, STRIP_NEW, STRIP_MAP)[0], STRIP_CARRIED)

    def test_a_corner_takes_the_value_of_a_neighbour_that_reached_it(self):
        # Face 5 is cut off from 2 and 4 at vertex 6 alone: the first new face does not reach it, the others do.
        text, said = carried(grid({(5, 6): (0.11, 0.11)}), GRID_NEW, GRID_MAP)
        self.assertEqual(values_at(text, 9), [(0.1525, 0.1525)] * 4)
        self.assertIn("of 4 faces, 1 over a seam of vt: ", said)

    def test_corners_that_none_has_reached_take_the_mean(self):
        # Face 5 is a chart of its own. Vertex 2 has moved, so the second new face carries on by another slope.
        chart = {(5, it): (0.7, it / 100) for it in (6, 7, 10, 11)}
        text, said = carried(grid(chart, {1: (0.1, -0.04)}), GRID_NEW, GRID_MAP)
        self.assertEqual(values_at(text, 9), [(0.15, 0.1525)] * 4)
        self.assertIn("of 4 faces, 4 over a seam of vt: ", said)

    def test_no_walk_goes_round_the_end_of_a_seam(self):
        # Faces 1 and 2 differ at vertex 2, and agree at 6. Face 2 is beside face 5, which is reached.
        surface = carrying.Surface([it + at for it in (0, 1, 2, 4, 5, 6) for at in (0, 1, 5, 4)])
        seams = carrying.Layer([(0.0,), (1.0,)], [int(it == 4) for it in range(24)]).seams(surface)
        self.assertEqual([at for at, it in enumerate(seams) if it], [1, 7])
        box = surface.box(carrying.read_map(GRID_MAP).cells[0])
        self.assertEqual(box, {(0, 0): 0, (0, 1): 12, (1, 0): 4, (1, 1): 16})
        self.assertEqual(carrying.reached_in(box, seams), {(0, 0): 0, (0, 1): 12, (1, 1): 16})

    def test_lines_of_the_new_mesh_stay(self):
        text, said = carried(grid(), GRID_NEW, GRID_MAP)
        self.assertTrue(text.endswith("\nl 1 5 2\n"))
        self.assertEqual(said, "carry: none of 4 faces lies over a seam\n")

    def test_flat_faces_keep_their_normals(self):
        old = STRIP.replace("vn 0 0 2", "vn 0 0 1\nvn 0 0.6 0.8").replace(MIDDLE, "f 2//2 3//2 7//2 6//2")
        text = carried(old, STRIP_NEW, STRIP_MAP)[0]
        self.assertEqual([line for line in text.splitlines() if line.startswith("vn")], ["vn 0 0 1"])

    def test_a_name_that_ends(self):
        old = STRIP.replace("usemtl left\n", "usemtl left\ns 2\n").replace("s 1\n", "s off\n")
        text = carried(old, STRIP_NEW, STRIP_MAP)[0]
        names = [line for line in text.splitlines() if line.partition(" ")[0] in ("usemtl", "s")]
        self.assertEqual(names, ["usemtl left", "s 2", "usemtl right", "s off"])

    def test_a_name_that_ends_in_a_backslash_swallows_no_line(self):
        text = carried(STRIP.replace("usemtl left\n", "usemtl C:\\left\\ # here\n"), STRIP_NEW, STRIP_MAP)[0]
        self.assertIn("\nusemtl C:\\left\\ #\n", text)
        self.assertEqual(len(read_obj(text).faces), STRIP_NEW.count("\nf "))

    def test_numbers_are_never_longer_than_decimals_may_be(self):
        self.assertEqual(carry.words_of((1e100, -1e16, 0.5, 1e-9)), "1e+100 -10000000000000000 0.5 0")

    def test_files_that_do_not_belong_together(self):
        for there, wrong, told in (
            ("quadq map 1", "quadq map 2", "the map does not begin as maps do"),
            ("vertices 6", "vertices 5", "the map has 8 lines for 5 vertices and 2 faces"),
            ("vertex 8", "vertex 9", "line 6 of the map names what the old mesh does not have"),
            ("edge 7", "edge x", "line 8 of the map is none that may stand there"),
            ("cell 1", "cell 9", "the map names a home of face 1 that the old mesh does not have"),
            ("cell 3", "cell 1", "the map leads over the boundary of the old mesh"),
            (STRIP_MAP, GRID_MAP, "the map is of 9 vertices and 4 faces, and the new mesh has 6 and 2"),
        ):
            text, said = carried(STRIP, STRIP_NEW, STRIP_MAP.replace(there, wrong), status=1)
            self.assertEqual((text, said), ("", f"carry: {told}\n"))


if __name__ == "__main__":
    unittest.main()
