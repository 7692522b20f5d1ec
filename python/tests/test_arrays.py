"""What the program writes, as arrays: graphs, layouts, maps, and finer meshes."""

import json
import unittest
import unittest.mock
from dataclasses import replace

import numpy as np

import quadq
from quadq import MeshError, Refusal, WishError, read, remesh
from quadq.graphs import read_cut
from quadq.maps import AT_VERTEX, IN_FACE, ON_EDGE, read_map
from quadq.quality import quality_of

from .shapes import EXAMPLES, drum, grid, plate

LAYOUT = b"""quadq layout 1 keep lines patches merged
vertices 12 edges 17 faces 6 euler 1 components 1
corner 1 1
corner 4 1
break 6
arc 1 3 1 2 3 4
marked 2 2 1 5 9
arc 3 2 4 8 12
arc 4 3 12 11 10 9
patch 1 3 2
south 1
east 3
north 4
west 2
"""


class Values(unittest.TestCase):
    def test_a_mesh_cannot_be_written_to(self):
        points = grid(2, 2).points.copy()
        mesh = quadq.Mesh.of_quads(points, grid(2, 2).quads)
        mesh = replace(mesh, lines=(np.array([0, 1]),), point_fields={"heat": np.zeros(len(points))})
        tables = mesh.points, mesh.corners, mesh.starts, mesh.lines[0], mesh.point_fields["heat"], mesh.edges.ends
        for table in tables:
            with self.assertRaises(ValueError):
                table[0] = 1
        points[0] = 1
        self.assertEqual((mesh == mesh, mesh == mesh.changed(), len({mesh, mesh.changed()})), (True, False, 2))
        self.assertIs(mesh.changed(notes=("new",)).edges, mesh.edges)

    def test_refusals_and_reports_as_json(self):
        told = json.loads(json.dumps(Refusal(7, "edge 1 2: faces 3 and 4", [2, 3], [0, 1]).as_json()))
        self.assertEqual((told["status"], told["faces"], told["vertices"]), (7, [3, 4], [1, 2]))
        self.assertIn("mend it", told["words"])
        report = remesh(read(EXAMPLES / "letter_q.obj"), scale="1/2").report
        told = json.loads(json.dumps(report.as_json(), allow_nan=False))
        self.assertEqual((told["before"]["faces"], told["after"]["faces"], told["scale"]), (960, 240, "1/2"))
        self.assertEqual([it["words"] for it in told["warnings"]], list(report.warnings))


class Graphs(unittest.TestCase):
    def test_the_example(self):
        found = quadq.graph(read(EXAMPLES / "notched_square.obj"))
        self.assertEqual((found.euler, found.components), (1, 1))
        self.assertEqual(found.irregular["corner"][0].tolist(), [0, 1])
        self.assertEqual(found.sizes[0].tolist(), [3, 1])
        self.assertEqual([it.tolist() for it in found.sides[0]], [[0], [3], [4, 1], [2]])
        self.assertEqual(int(found.sizes.prod(axis=1).sum()), len(found.patch_of_face))
        np.testing.assert_array_equal(np.bincount(found.patch_of_face), found.sizes.prod(axis=1))
        self.assertIn("patches", repr(found))

    def test_numbers_are_those_of_the_mesh(self):
        mesh = plate()
        loose = replace(mesh, points=np.concatenate([[[9.0, 9.0, 9.0]], mesh.points]), corners=mesh.corners + 1)
        one, other = quadq.graph(mesh), quadq.graph(loose)
        np.testing.assert_array_equal(one.arcs[:, :2] + 1, other.arcs[:, :2])
        np.testing.assert_array_equal(one.irregular["corner"][:, 0] + 1, other.irregular["corner"][:, 0])

    def test_a_torus_has_a_seed(self):
        found = quadq.graph(read(EXAMPLES / "torus.obj"))
        self.assertEqual((found.seeds.tolist(), found.sizes.tolist()), ([0], [[4, 4]]))

    def test_a_layout(self):
        found = read_cut(LAYOUT, "quadq layout 1 keep lines patches merged")
        self.assertEqual([it.tolist() for it in found.arc_points][1], [0, 4, 8])
        self.assertEqual(found.arcs[1].tolist(), [0, 8, 2])
        self.assertEqual((found.is_marked.tolist(), found.breaks.tolist()), ([False, True, False, False], [5]))
        with self.assertRaises(Refusal):
            read_cut(LAYOUT, "quadq layout 1 keep none patches merged")
        with self.assertRaises(Refusal):
            read_cut(LAYOUT.replace(b"break 6", b"halt 6"), "quadq layout 1 keep lines patches merged")

    def test_a_layout_that_the_program_has_or_has_not(self):
        found = quadq.layout(plate(), patches="conforming")
        self.assertEqual(int(found.sizes.prod(axis=1).sum()), 540)
        self.assertTrue(all(len(it) == 1 for sides in found.sides for it in sides))
        for arc, points in zip(found.arcs, found.arc_points):
            self.assertEqual(arc.tolist(), [points[0], points[-1], len(points) - 1])
        line = np.arange(5) + 2 * 5
        kept = quadq.layout(replace(grid(4, 4), lines=(line,)), keep="lines")
        self.assertEqual((len(kept.sizes), int(kept.is_marked.sum())), (2, 1))
        with unittest.mock.patch.object(quadq.Program, "answer", side_effect=Refusal(2, "usage")):
            with self.assertRaises(WishError):
                quadq.layout(grid(4, 3))
        for wish in ({"keep": "all"}, {"patches": "large"}):
            with self.assertRaises(WishError):
                quadq.layout(grid(4, 3), **wish)


class Maps(unittest.TestCase):
    def test_of_a_remesh(self):
        result = remesh(plate(), scale="2/3")
        found = quadq.map(result)
        self.assertEqual((len(found.points), len(found.homes)), (len(result.mesh.points), result.mesh.face_count))
        np.testing.assert_allclose(found.weights.sum(axis=1), 1)
        np.testing.assert_allclose(found.at_points(result.old.points), result.mesh.points, atol=2e-6)
        middles = result.mesh.points[result.mesh.quads].mean(axis=1)
        homes = result.old.points[result.old.quads[found.homes]].mean(axis=1)
        self.assertLess(np.linalg.norm(middles - homes, axis=1).max(), 2)

    def test_places_on_edges_are_told_by_steps_or_by_shares(self):
        mesh = grid(2, 1)
        spots = b"vertex 1\nedge 1 2 1 4\nshare 1 2 1073741824\nface 2 2 1073741824 2147483648\n"
        cells = b"cell 2 1 0 0 4294967296 0 4294967296 4294967296 0 4294967296\n"
        found = read_map(b"quadq map 1\nvertices 4 faces 1\n" + spots + cells, mesh.quads)
        self.assertEqual(found.kinds.tolist(), [AT_VERTEX, ON_EDGE, ON_EDGE, IN_FACE])
        np.testing.assert_array_equal(found.at_points(mesh.points)[:, :2], [[0, 0], [0.25, 0], [0.25, 0], [1.5, 0.25]])
        self.assertEqual(found.darts.tolist(), [-1, -1, -1, 5])
        for wrong in (spots, spots + cells.replace(b"cell", b"hall"), cells + spots):
            with self.assertRaises(Refusal):
                read_map(b"quadq map 1\nvertices 4 faces 1\n" + wrong, mesh.quads)
        for wrong in (b"share 1 9 1", b"vertex 0", b"face 3 1 0 0"):
            with self.assertRaises(MeshError):
                read_map(b"quadq map 1\nvertices 1 faces 1\n" + wrong + b"\n" + cells, mesh.quads)


class Refining(unittest.TestCase):
    def test_faces_and_fields(self):
        mesh = replace(plate(), point_fields={"T": plate().points[:, 1]}, face_fields={"n": np.arange(540)})
        fine = quadq.refine(mesh, 3)
        self.assertEqual(fine.face_count, 9 * mesh.face_count)
        np.testing.assert_allclose(fine.point_fields["T"], fine.points[:, 1], atol=2e-6)
        np.testing.assert_array_equal(np.bincount(fine.face_fields["n"]), 9)
        self.assertGreater(quality_of(fine).least, 0)

    def test_small_units_and_wrong_wishes(self):
        mesh = drum()
        for by in (2, 4):
            off = [float(np.abs(np.hypot(*it.points[:, [0, 2]].T) - 1).max())
                   for it in (quadq.refine(drum(), by), quadq.refine(drum(), by, round=True))]
            self.assertLess(off[1] * 50, off[0])
        self.assertGreater(float(np.abs(np.hypot(*quadq.refine(drum(), 2, round=True, sharp=1).points[:, [0, 2]].T)
                                        - 1).max()), 0.008)
        fine = quadq.refine(replace(mesh, points=mesh.points * 1e-7), 2)
        self.assertAlmostEqual(fine.points.max() / 1e-7, 1, 4)
        for by in (0, 1001):
            with self.assertRaises(WishError):
                quadq.refine(mesh, by)
        with self.assertRaises(Refusal):
            quadq.refine(grid(2, 2), 1000)


if __name__ == "__main__":
    unittest.main()
