"""What stays of seams and names from a mesh to its new one, by the program, its map and tools/carry.py; and that the map
is that of tools/make_map.py.

The program is that of the variable QUADQ, or dist/quadq.
"""

import math
import os
import pathlib
import subprocess
import sys
import tempfile
import unittest
from typing import Sequence

ROOT = pathlib.Path(__file__).resolve().parents[2]
sys.path.insert(0, str(ROOT / "tools"))
from carry import BORDERS, read_old  # noqa: E402
from carrying import Surface, side  # noqa: E402
from layout_text import cut_options  # noqa: E402
from make_map import map_of, read_places  # noqa: E402

PROGRAM = os.environ.get("QUADQ", str(ROOT / "dist/quadq"))
EXAMPLES = sorted((ROOT / "examples").glob("*.obj"))
TEXTS = [
    "remesh --scale 1/2 --floor auto --weight plain", "remesh --scale 3/2 --floor 2 --weight length", "refine --by 3",
    "crease --scale 2/3 --floor 3 --weight plain", "coarse --scale 1/2 --floor 3 --weight plain",
    "size --edge 0.3 --floor 3",
    "fit --keep lines --patches conforming --aim scale:1/2 --floor 1 --weight plain --spacing even",
    "fit --keep none --patches traced --aim scale:1/10 --floor auto --weight plain --spacing even",
]
CREASE = "crease --scale 1/2 --floor 1 --weight plain"
REMESH = "remesh --scale 1/2 --floor 1 --weight plain"
NONE_LIES_OVER = "carry: none of {} faces lies over a seam\n"
WIDE, HIGH = 7, 5


def two_charts() -> str:
    """A flat grid, a tenth a square in the texture. Right of the third column there is another chart, upside down, and
    above the second row another material."""
    lines = [f"v {x} {y} 0" for y in range(HIGH + 1) for x in range(WIDE + 1)]
    lines += [f"vt {x / 10} {y / 10}" for y in range(HIGH + 1) for x in range(WIDE + 1)]
    lines += [f"vt {1 - x / 10} {1 - y / 10}" for y in range(HIGH + 1) for x in range(WIDE + 1)]
    for y in range(HIGH):
        lines.append(f"usemtl {'low' if y < 2 else 'high'}")
        for x in range(WIDE):
            first = y * (WIDE + 1) + x + 1
            corners = (first, first + 1, first + WIDE + 2, first + WIDE + 1)
            lines.append("f " + " ".join(f"{it}/{it + (WIDE + 1) * (HIGH + 1) * (x >= 3)}" for it in corners))
    return "\n".join(lines) + "\n"


def ran(words: Sequence[str], text: str, check: bool = True) -> subprocess.CompletedProcess[str]:
    """A run of the program."""
    return subprocess.run([PROGRAM, *words], input=text, capture_output=True, text=True, check=check)


def whole_way(old: str, words: str) -> tuple[str, str]:
    """The new mesh with what was carried over, and what carry.py says."""
    with tempfile.TemporaryDirectory() as folder:
        paths = [pathlib.Path(folder) / name for name in ("in.obj", "out.obj", "map.txt")]
        paths[0].write_text(old)
        out = ran(words.split(), old).stdout
        for path, text in zip(paths, (old, out, ran(["map"], f"{old}\n{out}").stdout)):
            path.write_text(text)
        carried = subprocess.run([ROOT / "tools/carry.py", *paths], capture_output=True, text=True, check=True)
    return carried.stdout, carried.stderr


def marked(old: str) -> str:
    with tempfile.NamedTemporaryFile("w", suffix=".obj") as file:
        file.write(old)
        file.flush()
        words = [ROOT / "tools/mark_features.py", "--angle", "180", "--no-corners", "--seams", "--groups", file.name]
        return subprocess.run(words, capture_output=True, text=True, check=True).stdout


def seams_of(text: str) -> tuple[int, float]:
    """How many edges are seams of the texture, and how long they are together."""
    old, places = read_old(text), read_places(text)
    surface = Surface(old.corners)
    marks = old.texture.seams(surface)
    ends = [(old.corners[dart], old.corners[side(dart, 1)]) for dart, twin in enumerate(surface.twins)
            if marks[dart] and dart < twin]
    return len(ends), sum(math.dist(places[a], places[b]) for a, b in ends) / 1e6


def names_of(text: str) -> set[tuple[str, ...]]:
    return {it[BORDERS] for it in read_old(text).names}


class WholeWay(unittest.TestCase):
    def setUp(self):
        if not os.access(PROGRAM, os.X_OK):
            self.skipTest("the program is not there")

    def test_each_edge_divided(self):
        old = two_charts()
        self.assertEqual(seams_of(old), (HIGH, HIGH))
        for by in (2, 3):
            new, said = whole_way(old, f"refine --by {by}")
            self.assertEqual(said, NONE_LIES_OVER.format(by * by * WIDE * HIGH))
            count, length = seams_of(new)
            self.assertEqual((count, round(length, 5)), (by * HIGH, HIGH))
            self.assertEqual(names_of(new), names_of(old))

    def test_seams_and_borders_that_are_marked(self):
        old = marked(two_charts())
        new, said = whole_way(old, CREASE)
        self.assertEqual(said, NONE_LIES_OVER.format(new.count("\nf ")))
        self.assertEqual(seams_of(new)[1], HIGH)
        self.assertEqual(names_of(new), names_of(old))
        self.assertLess(new.count("\nf "), WIDE * HIGH)

    def test_maps_are_those_of_the_script(self):
        count = 0
        for path in EXAMPLES:
            old = path.read_text()
            for words in TEXTS:
                new = ran(words.split(), old, check=False)
                if new.returncode == 0:
                    told = ran(["map"], f"{old}\n{new.stdout}")
                    cut = ran(["layout", *cut_options(new.stdout)], old)
                    self.assertEqual(told.stdout, map_of(old, cut.stdout, new.stdout), f"{path.name}, {words}")
                    count += 1
        self.assertGreater(count, 40)

    def test_a_text_of_another_mesh_has_no_map(self):
        new = ran(CREASE.split(), two_charts()).stdout
        other = ran(["map"], two_charts().replace("v 0 0 0", "v 0 0 1") + new, check=False)
        self.assertEqual((other.returncode, other.stdout), (1, ""))
        self.assertIn("not accepted: byte ", other.stderr)

    def test_seams_that_are_not_marked(self):
        self.assertIn("over a seam of vt and ", whole_way(two_charts(), REMESH)[1])


if __name__ == "__main__":
    unittest.main()
