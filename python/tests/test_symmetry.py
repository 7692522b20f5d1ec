"""Meshes that are their own mirror image, and stay so."""

import signal
import tempfile
import threading
import unittest
from dataclasses import replace
from pathlib import Path

import numpy as np

from quadq import Layer, Mesh, Names, Program, Refusal, WishError, read, remesh
from quadq.mesh import join
from quadq.running import Halt
from quadq.symmetry import SeamOpens, image_of, refuse_worse

from .shapes import EXAMPLES, drum, grid, moved


def two_sided(mesh: Mesh) -> Mesh:
    """A mesh with texture and numbers at points that are its places, and a material for each side of x = 0."""
    left = (mesh.points[mesh.quads, 0].mean(axis=1) < 0).astype(np.int64)
    return replace(mesh, texture=Layer(mesh.points[:, :2] / 10, mesh.corners), extra=mesh.points * 2,
                   groups={"usemtl": Names(("right", "left"), left)},
                   normal=Layer(np.array([[0.6, 0.0, 0.8], [0.0, 0.0, 1.0]]), np.repeat(left, 4)))


class Symmetry(unittest.TestCase):
    def test_each_half_carries_what_it_did(self):
        result = remesh(two_sided(moved(grid(8, 4), -4)), scale="1/2", carry=True, symmetry="auto")
        mesh, there = result.mesh, result.mesh.points[result.mesh.corners]
        self.assertEqual(result.report.symmetry, "x")
        np.testing.assert_allclose(mesh.texture.values[mesh.texture.rows], there[:, :2] / 10, atol=2e-6)
        np.testing.assert_allclose(mesh.extra, mesh.points * 2, atol=2e-6)
        left = mesh.points[mesh.quads, 0].mean(axis=1) < 0
        self.assertEqual(mesh.groups["usemtl"].of_face.tolist(), left.astype(int).tolist())
        np.testing.assert_array_equal(mesh.normal.values[mesh.normal.rows][:, 0], np.where(np.repeat(left, 4), 0, 0.6))
        np.testing.assert_allclose(result.carrier.mixed(result.carrier.old.points), mesh.points, atol=1e-6)

    def test_each_point_keeps_its_partner(self):
        old = drum(24, 11)
        for wishes in ({"scale": "2/3"}, {"faces": 150}, {"scale": "1/2", "sharp": 30}, {"scale": 2, "relax": 2}):
            mesh = remesh(old, carry=True, symmetry="auto", **wishes).mesh
            self.assertIsNotNone(image_of(mesh, "auto"), wishes)

    def test_a_mesh_of_two_parts_that_mirror_each_other(self):
        pair = join([moved(drum(), 3), moved(drum(), -3)])
        result = remesh(pair, scale="1/2", carry=True, symmetry="x")
        self.assertEqual((result.report.symmetry, result.mesh.face_count), ("x", 2 * 12 * 6))

    def test_where_there_is_none(self):
        odd = moved(grid(9, 4), -4.5)
        for mesh in (odd, moved(grid(8, 4), -3), grid(4, 4)):
            self.assertEqual(remesh(mesh, scale="1/2", carry=True, symmetry="auto").report.symmetry, "")
        self.assertIsNone(image_of(odd, "x"))
        self.assertIsNone(image_of(Mesh.of_quads(np.zeros((0, 3)), np.zeros((0, 4))), "auto"))

    def test_noise_does_not_hide_it(self):
        chance = np.random.default_rng(5)
        old = moved(grid(40, 30), -20)
        noisy = replace(old, points=old.points + chance.uniform(-1, 1, old.points.shape) * 1e-6)
        self.assertEqual(remesh(noisy, scale="1/2", carry=True, symmetry="auto").report.symmetry, "x")
        shifted = old.points.copy()
        shifted[5] += [0.01, 0, 0]
        self.assertIsNone(image_of(replace(old, points=shifted), "x"))

    def test_a_cube_that_was_divided_first(self):
        cube = moved(read(EXAMPLES / "cube.obj"), *-read(EXAMPLES / "cube.obj").points.mean(axis=0))
        result = remesh(cube, scale=2, carry=True, symmetry="auto", subdivide=True)
        self.assertEqual((result.report.symmetry, result.mesh.face_count), ("x", 6 * 16))
        np.testing.assert_allclose(result.carrier.mixed(cube.points), result.mesh.points, atol=1e-6)

    def test_names_stay_where_nothing_is_carried(self):
        sides = two_sided(moved(grid(8, 4), -4))
        pair = join([moved(sides, 6), moved(sides, -6)])
        named = replace(pair, groups={"o": Names(("eye.L", "eye.R"), np.repeat([0, 1], 32))})
        mesh = remesh(named, scale="1/2", symmetry="x").mesh
        left = mesh.points[mesh.quads, 0].mean(axis=1) < 0
        names = np.array(mesh.groups["o"].names)[mesh.groups["o"].of_face]
        self.assertEqual(names.tolist(), np.where(left, "eye.R", "eye.L").tolist())

    def test_why_a_whole_is_remeshed(self):
        odd = moved(grid(9, 4), -4.5)
        told = [it.words for it in remesh(odd, scale="1/2", symmetry="x").report.notices if it.kind == "asymmetric"]
        self.assertIn("4 faces cross the mirror plane x = 0", told[0])
        told = [it.words for it in remesh(grid(4, 4), scale="1/2", symmetry="y").report.notices]
        self.assertTrue(any("not its own mirror image about y = 0" in it for it in told))
        lost = [it.kind for it in remesh(moved(grid(8, 4), -4), scale="1/2", mirror="x").report.notices]
        self.assertIn("mirror-half", lost)

    def test_halves_that_are_worse_than_one_scale_give_way(self):
        old = drum(24, 12)
        near, far = (remesh(old, scale=scale, symmetry="off").mesh for scale in ("1/2", "1/4"))
        refuse_worse(near, near, old, near.face_count)
        refuse_worse(far, near, old, 2 * near.face_count)
        with self.assertRaisesRegex(SeamOpens, "from the old mesh"):
            refuse_worse(far, near, old, near.face_count)
        folded = near.points.copy()
        folded[near.quads[0, 0]] += 3 * (near.points[near.quads[0, 2]] - near.points[near.quads[0, 0]])
        with self.assertRaisesRegex(SeamOpens, "inverted"):
            refuse_worse(replace(near, points=folded), near, old, near.face_count)

    def test_wishes_that_do_not_go_together(self):
        for wrong in ({"symmetry": "w"}, {"symmetry": "x", "mirror": "x"}):
            with self.assertRaises(WishError):
                remesh(grid(4, 4), scale=1, **{"carry": True, **wrong})


class Ends(unittest.TestCase):
    def test_a_halt_ends_runs_that_are_under_way_and_those_that_come(self):
        halt = Halt()
        with tempfile.TemporaryDirectory() as folder:
            path = Path(folder, "sleeps")
            path.write_text("#!/bin/sh\nexec sleep 60\n")
            path.chmod(0o755)
            timer = threading.Timer(0.2, halt.now)
            timer.start()
            for _ in range(2):
                with self.assertRaises(Refusal) as said:
                    remesh(grid(4, 4), scale=1, program=Program(path, halt=halt))
                self.assertEqual(said.exception.status, 128 + signal.SIGKILL)
            timer.join()

    def test_a_number_that_no_mesh_can_have(self):
        for faces in (2**21 + 1, 2**31 - 1):
            with self.assertRaisesRegex(Refusal, "too fine: .* can have 2097152"):
                remesh(grid(4, 4), faces=faces)


if __name__ == "__main__":
    unittest.main()
