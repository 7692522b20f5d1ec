"""The recipes of docs/RECIPES.md: each has at most ten lines, runs, and does what it says."""

import json
import os
import pathlib
import re
import shutil
import subprocess
import sys
import tempfile
import unittest
from dataclasses import replace

import numpy as np

from quadq import read, write
from quadq.program import find_program

from .shapes import plate
from .test_checking import SCENE
from .test_formats import groups_of, meshio
from .test_groups import grouped, sides_of

PACKAGE = pathlib.Path(__file__).resolve().parents[1]
PAGE = PACKAGE.parent / "docs/RECIPES.md"
README = PACKAGE.parent / "README.md"
RECIPE = re.compile(r"^## ([^\n]+)\n(.*?)(?=^## |\Z)", re.M | re.S)
CODE = re.compile(r"^```(python|sh)\n(.*?)^```$", re.M | re.S)
MOST = 10
BRACKET = """SetFactory("OpenCASCADE"); Mesh.RecombineAll = 1; Mesh.MeshSizeMax = 0.3;
Rectangle(1) = {0, 0, 0, 4, 1}; Rectangle(2) = {0, 1, 0, 1, 3};
Disk(3) = {3, 0.5, 0, 0.25}; Disk(4) = {0.5, 3, 0, 0.25};
BooleanUnion(5) = { Surface{1}; Delete; }{ Surface{2}; Delete; };
BooleanDifference(6) = { Surface{5}; Delete; }{ Surface{3, 4}; Delete; };
Physical Surface("steel") = Surface{:}; Physical Curve("bolt") = Curve In BoundingBox {2.7, 0.2, -1, 3.3, 0.8, 1};
Physical Curve("wall") = Curve In BoundingBox {-0.1, -0.1, -1, 0.1, 4.1, 1};
"""


def recipes():
    return {title: CODE.findall(body) for title, body in RECIPE.findall(PAGE.read_text())}


class OfTheReadme(unittest.TestCase):
    def test_the_command_for_gnu_parallel_ends_with_the_status_of_the_program(self):
        (words,) = re.findall(r"^parallel --tag '(quadq remesh [^']*)' ::: \*\.obj$", README.read_text(), re.M)
        with tempfile.TemporaryDirectory() as folder:
            room = pathlib.Path(folder)
            (room / "half").mkdir()
            for name, status in (("cube", 0), ("two_fans", 7)):
                shutil.copy(PACKAGE.parent / f"examples/{name}.obj", room)
                command = words.replace("{/}", f"{name}.obj").replace("{}", f"{name}.obj")
                ran = subprocess.run(["sh", "-c", command.replace("quadq ", f"{find_program()} ", 1)], cwd=room,
                                     capture_output=True, check=False)
                self.assertEqual(ran.returncode, status, ran.stderr)
            self.assertEqual(os.listdir(room / "half"), ["cube.obj"])


class Recipes(unittest.TestCase):
    def setUp(self):
        room = tempfile.TemporaryDirectory()
        self.addCleanup(room.cleanup)
        self.room = pathlib.Path(room.name)
        self.codes = recipes()
        commands = self.room / ".bin"
        commands.mkdir()
        (commands / "quadq-check").write_text(f"#!/bin/sh\nexec '{sys.executable}' -m quadq check \"$@\"\n")
        (commands / "quadq-check").chmod(0o755)
        self.around = {**os.environ, "PYTHONPATH": str(PACKAGE), "QUADQ": str(find_program()),
                       "PATH": f"{commands}:{os.environ['PATH']}"}

    def run_recipe(self, begin, status=0):
        """Runs the recipe whose title begins so, and returns what it says."""
        title = next(it for it in self.codes if it.startswith(begin))
        ((kind, code),) = self.codes[title]
        program = [sys.executable, "-c", code] if kind == "python" else ["sh", "-c", code]
        ran = subprocess.run(program, cwd=self.room, env=self.around, capture_output=True, text=True, timeout=600)
        self.assertEqual(ran.returncode, status, ran.stderr)
        return ran.stdout

    def put(self, name, **fields):
        mesh = plate()
        mesh = replace(grouped(mesh, sides_of(mesh, 0, 24)), **fields)
        write(self.room / name, mesh)
        return mesh

    def test_each_has_at_most_ten_lines(self):
        self.assertGreaterEqual(len(self.codes), 7)
        for title, codes in self.codes.items():
            for _, code in codes:
                self.assertLessEqual(sum(bool(it.strip()) for it in code.splitlines()), MOST, title)

    @unittest.skipIf(meshio is None or shutil.which("gmsh") is None, "gmsh or meshio is not here")
    def test_a_bracket(self):
        (self.room / "bracket.geo").write_text(BRACKET)
        self.run_recipe("Double and half")
        old, double, half = (groups_of(read(self.room / it)) for it in ("bracket.msh", "double.msh", "half.vtu"))
        self.assertEqual(double["steel"], 4 * old["steel"])
        for name in ("bolt", "wall"):
            self.assertAlmostEqual(double[name], old[name], 5)
            self.assertAlmostEqual(half[name] / old[name], 1, 1)

    @unittest.skipIf(meshio is None, "meshio is not here")
    def test_a_size_field(self):
        self.put("plate.msh")
        said = self.run_recipe("A plate with a size field")
        self.assertRegex(said, r"^\d+% of the edges are as long as wished")
        self.assertGreater(int(said.partition("%")[0]), 30)

    @unittest.skipIf(meshio is None, "meshio is not here")
    def test_blocks(self):
        try:
            import vtkmodules.vtkIOXML  # noqa: F401
        except ImportError:
            self.skipTest("VTK is not here")
        self.put("ogrid.msh")
        self.assertIn("8 blocks, 540 faces, walls bottom, left, hole, right, top", self.run_recipe("The blocks"))
        self.assertIn("hole", (self.room / "case/system/blockMeshDict").read_text())

    @unittest.skipIf(meshio is None, "meshio is not here")
    def test_a_temperature(self):
        mesh = self.put("heated.vtu", point_fields={"shift": plate().points},
                        face_fields={"T": np.random.default_rng(1).random(540) + 300})
        said = self.run_recipe("A temperature")
        self.assertLess(float(said.split()[-1]), 1e-9)
        found = read(self.room / "coarse.vtu")
        self.assertLess(found.face_count, mesh.face_count)
        np.testing.assert_allclose(found.point_fields["shift"], found.points, atol=1e-5)
        self.assertGreater(found.face_fields["T"].min(), 300)

    @unittest.skipIf(meshio is None, "meshio is not here")
    def test_convergence(self):
        self.put("plate.msh")
        self.assertEqual(len(self.run_recipe("A study").splitlines()), 3)
        self.assertEqual(read(self.room / "plate4.msh").face_count, 16 * 540)

    def test_a_folder(self):
        (self.room / "parts").mkdir()
        (self.room / "parts/scene.obj").write_text(SCENE)
        self.run_recipe("A folder", 4)
        self.assertEqual(len(json.loads((self.room / "faults.sarif").read_text())["runs"][0]["results"]), 3)
        self.assertEqual(json.loads((self.room / "faults.json").read_text())["status"], 4)

    @unittest.skipIf(meshio is None, "meshio is not here")
    def test_a_notebook(self):
        self.put("plate.msh")
        self.run_recipe("In a notebook")


if __name__ == "__main__":
    unittest.main()
