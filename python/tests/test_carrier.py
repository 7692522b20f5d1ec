"""What carries over by a map, against the script that has the rules in plain Python."""

import importlib.util
import itertools
import pathlib
import sys
import unittest
from dataclasses import replace

import numpy as np

from quadq import Layer, Mesh, Names, Program, read, remesh
from quadq.attributes import dressed_as
from quadq.mesh import NONE
from quadq.obj_writing import plain_text
from quadq.plain import written_mesh
from quadq.program import Wish
from quadq.settings import as_scale_wish

from .shapes import EXAMPLES, drum, grid, plate

PATH = pathlib.Path(__file__).resolve().parents[2] / "tools/carrying.py"
SPEC = importlib.util.spec_from_file_location("carrying", PATH)
TOOL = importlib.util.module_from_spec(SPEC)
sys.modules["carrying"] = TOOL
SPEC.loader.exec_module(TOOL)


def layers_of(mesh: Mesh, chance: np.random.Generator):
    """Layers with seams of all kinds: none, along borders, flat faces, and corners that name nothing."""
    corners, faces = mesh.corners, mesh.face_of_corner()
    halves = (mesh.points[mesh.quads].mean(axis=1)[:, 0] > mesh.points[:, 0].mean()).astype(np.int64)
    values = chance.random((len(mesh.points), 2)).round(3)
    both = np.concatenate([values, values + 0.5])
    flat = chance.random((mesh.face_count, 3))
    torn = np.where(chance.random(len(corners)) < 0.02, corners + len(mesh.points), corners)
    return {
        "whole": Layer(values, corners),
        "halves": Layer(both, corners + halves[faces] * len(mesh.points)),
        "flat": Layer(flat, faces),
        "torn": Layer(both, torn),
        "missing": Layer(values, np.where(chance.random(mesh.face_count) < 0.05, NONE, 0)[faces] | corners),
        "nothing": Layer(np.zeros((0, 2)), np.full(len(corners), NONE)),
    }


def by_the_tool(mesh: Mesh, new: Mesh, text: str):
    """What the script makes of the layers and names of a mesh."""
    layers = [TOOL.Layer(list(map(tuple, it.values.tolist())), [None if at == NONE else at for at in it.rows.tolist()])
              for it in mesh.layers.values()]
    names = mesh.groups["usemtl"].of_face.tolist()
    return TOOL.carry(TOOL.Surface(mesh.corners.tolist()), layers, names, TOOL.read_map(text.decode()),
                      new.corners.tolist())


def remeshed(mesh: Mesh, scale: str):
    """A remesh of a mesh, and the text of its map."""
    program, text = Program(), plain_text(mesh)
    written = program.remesh(text, Wish(as_scale_wish(scale)))
    return written_mesh(written), program.map(text, written)


class CarriedLayers(unittest.TestCase):
    def test_layers_are_those_of_the_script(self):
        chance = np.random.default_rng(7)
        shapes = [grid(9, 7), drum(12, 6), plate(12, 4), read(EXAMPLES / "letter_q.obj")]
        for mesh, scale in itertools.product(shapes, ("1/3", "2/3", "5/3")):
            names = Names(("a", "b", "c"), chance.integers(0, 3, mesh.face_count))
            mesh = replace(mesh, layers=layers_of(mesh, chance), groups={"usemtl": names})
            new, text = remeshed(mesh, scale)
            wanted = by_the_tool(mesh, new, text)
            found, over = dressed_as(mesh, new, text)
            self.assertEqual(over, len(wanted.over_borders), scale)
            self.assertEqual(found.groups["usemtl"].of_face.tolist(), names.of_face[wanted.homes].tolist())
            for name, layer in zip(mesh.layers, wanted.layers):
                self.assert_same(found.layers[name], layer, f"{name} at {scale}")

    def assert_same(self, found: Layer, wanted, words: str) -> None:
        rows = [NONE if it is None else it for it in wanted.rows]
        self.assertEqual((found.rows == NONE).tolist(), [it == NONE for it in rows], words)
        if wanted.values:
            named = found.rows != NONE
            values = np.array(wanted.values)[rows][named]
            np.testing.assert_allclose(found.values[found.rows[named]], values, atol=1.1e-6, err_msg=words)


class CarriedNumbers(unittest.TestCase):
    """What the add-on carries: numbers of old things at new ones."""

    def test_a_finer_grid(self):
        old = grid(4, 3)
        carrier = remesh(old, scale=2, carry=True).carrier
        new = carrier.new
        middles = new.points[new.quads].mean(axis=1)
        homes = old.points[old.quads][carrier.faces].mean(axis=1)
        np.testing.assert_array_equal(homes[:, :2], middles[:, :2] // 1 + 0.5)
        far = np.linalg.norm(old.points[carrier.points] - new.points, axis=1)
        self.assertLessEqual(far.max(), 2**-0.5)
        at = old.points[old.corners[carrier.corners]]
        self.assertLessEqual(np.abs(at - new.points[new.corners]).max(), 0.5)
        np.testing.assert_array_equal(carrier.corners // 4, np.repeat(carrier.faces, 4))
        np.testing.assert_allclose(carrier.mixed(old.points * 3), new.points * 3)

    def test_edges_that_lie_along_old_ones(self):
        for wide, scale in ((4, "2"), (12, "1/2"), (9, "2/3")):
            old = grid(wide, wide + 3)
            carrier = remesh(old, scale=scale, carry=True).carrier
            new, found = carrier.new, carrier.followed
            lies = found.of_new != NONE
            ends = new.points[new.edges.ends]
            on_line = np.any((ends[:, 0] == ends[:, 1]) & (ends[:, 0] % 1 == 0), axis=1, where=[True, True, False])
            np.testing.assert_array_equal(lies, on_line)
            middles = ends.mean(axis=1)[lies]
            old_ends = old.points[old.edges.ends[found.of_new[lies]]]
            self.assertLessEqual(np.abs(old_ends.mean(axis=1) - middles).max(), 0.5)
            every = np.ones(len(old.edges.ends), dtype=bool)
            lengths = np.linalg.norm(ends[:, 0] - ends[:, 1], axis=1)[lies].sum()
            self.assertEqual(found.kept(every).sum(), round(lengths))

    def test_polygons_that_were_divided_first(self):
        old = read(EXAMPLES / "cube.obj")
        carrier = remesh(old, scale=1, subdivide=True, carry=True).carrier
        self.assertTrue(carrier.is_divided)
        self.assertEqual(np.bincount(carrier.faces).tolist(), [4] * 6)
        self.assertEqual(sorted(np.unique(carrier.points)), list(range(8)))
        self.assertEqual(np.bincount(carrier.followed.of_new[carrier.followed.of_new != NONE]).tolist(), [2] * 12)
        np.testing.assert_allclose(carrier.mixed(old.points), carrier.new.points, atol=1e-6)
        self.assertEqual(carrier.corners.max(), 23)

    def test_marks_that_no_edge_follows_are_lost(self):
        old = grid(6, 6)
        marked = np.abs(old.points[old.edges.ends][:, :, 0] - 3).max(axis=1) == 0
        for scale, kept in (("1/2", 0), ("1/3", 6), ("1", 6), ("2", 6)):
            carrier = remesh(old, scale=scale, carry=True).carrier
            self.assertEqual(carrier.followed.kept(marked).sum(), kept, scale)


class Once(unittest.TestCase):
    def test_a_texture_that_is_a_layer_is_carried_once(self):
        mesh = plate()
        layer = Layer(mesh.points[mesh.corners][:, :2], np.arange(len(mesh.corners)))
        both = remesh(replace(mesh, texture=layer, layers={"uv": layer}), scale="1/2", carry=True).mesh
        alone = remesh(replace(mesh, texture=layer), scale="1/2", carry=True).mesh
        self.assertIs(both.texture, both.layers["uv"])
        np.testing.assert_array_equal(both.texture.values[both.texture.rows], alone.texture.values[alone.texture.rows])

    def test_edges_are_found_once_for_the_same_faces(self):
        mesh = plate()
        edges = mesh.edges
        moved = mesh.changed(points=mesh.points * 2)
        self.assertIs(moved.edges, edges)
        np.testing.assert_array_equal(moved.points, mesh.points * 2)
        fewer = mesh.changed(corners=mesh.corners[4:], starts=mesh.starts[:-1])
        self.assertLess(len(fewer.edges.ends), len(edges.ends))


if __name__ == "__main__":
    unittest.main()
