"""What a user is told of a remesh, and that fewer faces never become more."""

import unittest
from concurrent.futures import ThreadPoolExecutor
from dataclasses import replace
from unittest import mock

import numpy as np

from quadq import Layer, Mesh, Names, Refusal, distance_between, read_obj, remesh
from quadq.losses import lost_mirrors
from quadq.mesh import join
from quadq.running import run_program

from .shapes import EXAMPLES, grid, moved, without_rounds


def kinds_of(report) -> list:
    return [it.kind for it in report.notices]


def band(columns: int, rows: int) -> Mesh:
    """An open tube."""
    at = np.arange(columns * (rows + 1)).reshape(rows + 1, columns)
    after = np.roll(at, -1, axis=1)
    quads = np.stack([at[:-1], after[:-1], after[1:], at[1:]], axis=-1)
    turn = 2 * np.pi * np.arange(columns) / columns
    rings = [np.stack([np.cos(turn), np.sin(turn), np.full(columns, float(row))], axis=1) for row in range(rows + 1)]
    return Mesh.of_quads(np.concatenate(rings), quads)


def plate(shift: float) -> Mesh:
    """A flat plate with a square hole, which is moved."""
    whole = grid(9, 9)
    middle = np.mean(whole.points[whole.quads], axis=1)
    kept = np.flatnonzero(~((np.abs(middle[:, 0] - 4.5) < 0.1) & (np.abs(middle[:, 1] - 4.5) < 0.1)))
    points = whole.points.copy()
    points[np.all((points[:, :2] >= 4) & (points[:, :2] <= 5), axis=1), 0] += shift
    return Mesh.of_quads(points, whole.quads[kept])


class Faces(unittest.TestCase):
    def test_fewer_that_are_wished_are_never_more(self):
        for mesh, wishes in ((band(4, 1), {}), (band(4, 1), {"coarse": True}), (band(3, 2), {}),
                             (read_obj((EXAMPLES / "torus.obj").read_text()), {"coarse": True})):
            report = remesh(mesh, faces=2, **wishes).report
            self.assertLessEqual(report.after.faces, mesh.face_count)
            self.assertIn("faces", kinds_of(report))
        with without_rounds():
            self.assertRegex(remesh(band(4, 1), faces=2).report.warnings[0], "faces in place of 2: .* nearer")
            self.assertGreater(remesh(band(4, 1), scale="1/2").report.after.faces, 4)

    def test_more_than_before_and_unchanged(self):
        with without_rounds():
            report = remesh(band(4, 1), scale="1/2").report
        self.assertIn("more-faces", kinds_of(report))
        self.assertIn("with the floor 1 an edge would be there twice", " ".join(report.warnings))
        same = remesh(read_obj((EXAMPLES / "cube.obj").read_text()), scale="1/2").report
        self.assertIn("12 of 12 arcs are as short as the floor", " ".join(same.warnings))


class Shape(unittest.TestCase):
    def test_a_hole_that_moves_in_a_plane_is_seen(self):
        self.assertLess(distance_between(plate(0), plate(0)).greatest, 1e-12)
        self.assertAlmostEqual(distance_between(plate(0.1), plate(0)).greatest, 0.1)
        self.assertLess(distance_between(plate(0.1), plate(0)).mean, 1e-3)

    def test_middles_of_edges_are_measured(self):
        roof = Mesh.of_quads([[0, 0, 0], [2, 0, 0], [2, 1, 0], [0, 1, 0]], [[0, 1, 2, 3]])
        bent = Mesh.of_quads(
            [[0, 0, 0], [1, 0, 1], [2, 0, 0], [0, 1, 0], [1, 1, 1], [2, 1, 0]], [[0, 1, 4, 3], [1, 2, 5, 4]])
        self.assertAlmostEqual(distance_between(roof, bent).greatest, 0.5 ** 0.5)

    def test_sharp_edges_that_are_lost(self):
        flat = grid(9, 9)
        roof = Mesh(flat.points + np.abs(flat.points[:, [0]] - 4) * [[0, 0, 1]], flat.corners, flat.starts)
        lost = remesh(roof, scale="1/3").report
        self.assertEqual(lost.sharp, (9, 9))
        self.assertIn("9 of 9 sharp edges have no new edge along them: --sharp 30 keeps them", lost.warnings)
        self.assertIn("distance", kinds_of(lost))
        kept = remesh(roof, scale="1/3", sharp=30).report
        self.assertEqual(kept.sharp, (0, 9))
        far = replace(kept, sharp=(2, 9), to_new=lost.to_new)
        self.assertIn("2 of 9 sharp edges have no new edge along them: more faces bring their lines nearer",
                      far.warnings)
        self.assertIn("distance", kinds_of(far))
        self.assertNotIn("--sharp 30", " ".join(far.warnings))

    def test_mirror_images_that_are_lost(self):
        even = moved(grid(8, 6), -4)
        self.assertEqual(lost_mirrors(even, even), "")
        self.assertEqual(lost_mirrors(even, replace(even, points=even.points ** 3 + even.points ** 2)), "xy")
        self.assertEqual(lost_mirrors(replace(even, points=even.points ** 3 + even.points ** 2), even), "")

    def test_faces_that_become_worse(self):
        letter = read_obj((EXAMPLES / "letter_q.obj").read_text())
        report = remesh(letter, scale="1/2").report
        worse = replace(report, after=replace(report.after, quality=replace(
            report.after.quality, least=-0.5, mean=0.3, inverted=3, first_inverted=6)))
        self.assertLessEqual({"inverted", "mean-quality", "least-quality"}, set(kinds_of(worse)))
        self.assertIn("inverted faces: 3, and 0 before (first: face 7)", " ".join(worse.warnings))


class Losses(unittest.TestCase):
    def test_what_is_dropped_is_told(self):
        mesh = grid(4, 4)
        points = np.concatenate([mesh.points, [[9, 9, 9], [8, 8, 8]]])
        names = Names(("oak", "ash"), (np.arange(16) > 7).astype(np.int64))
        whole = Mesh(points, mesh.corners, mesh.starts, texture=Layer(mesh.points[:, :2], mesh.corners),
                     groups={"usemtl": names}, lines=(np.array([0, 1]), np.array([0, 24])), notes=("one thing",))
        told = " | ".join(remesh(whole, scale="1/2").report.warnings)
        for words in ("one thing", "2 loose points were dropped", "2 lines were dropped: --lines keeps",
                      "not carried over: texture coordinates, `usemtl` within parts; --carry keeps them"):
            self.assertIn(words, told)
        kept = " | ".join(remesh(whole, scale="1/2", carry=True, keep=["lines"]).report.warnings)
        self.assertIn("1 piece of a line was dropped", kept)
        self.assertNotIn("not carried over", kept)


class Parts(unittest.TestCase):
    def test_many_small_parts_go_together_and_are_as_they_would_be_alone(self):
        pieces = [moved(band(4, 1) if at % 3 else grid(4, 2), 10 * at) for at in range(40)]
        names = [Names(("", f"part {at}"), np.ones(it.face_count, dtype=np.int64)) for at, it in enumerate(pieces)]
        whole = join([replace(it, groups={"o": name}) for it, name in zip(pieces, names)])
        result = remesh(whole, scale="1/2")
        self.assertLess(len(result.parts), 4)
        self.assertEqual((sum(it.count for it in result.parts), result.report.parts), (40, 40))
        alone = sum(remesh(it, scale="1/2").mesh.face_count for it in pieces)
        self.assertEqual(result.mesh.face_count, alone)
        given = result.mesh.groups["o"]
        at_ten = (result.mesh.points[result.mesh.quads[:, 0], 0] + 5) // 10
        self.assertEqual([given.names[it] for it in given.of_face], [f"part {int(it)}" for it in at_ten])

    def test_a_thousand_small_parts_take_a_few_runs_of_the_program(self):
        whole = join([moved(grid(3, 2), 10 * at) for at in range(1_000)])
        with mock.patch("quadq.program.run_program", wraps=run_program) as ran:
            result = remesh(whole, scale="1/2")
        self.assertEqual((result.report.parts, result.mesh.face_count), (1_000, 2_000))
        self.assertLess(ran.call_count, 6)

    def test_parts_of_one_file_are_divided_among_jobs(self):
        whole = join([moved(band(40, 30), 10 * at) for at in range(4)])
        alone, together = (remesh(whole, scale="1/2", jobs=jobs) for jobs in (1, 4))
        self.assertEqual([it.text for it in alone.written], [it.text for it in together.written])
        np.testing.assert_array_equal(alone.mesh.points, together.mesh.points)
        with mock.patch("quadq.parts.ThreadPoolExecutor", wraps=ThreadPoolExecutor) as pool:
            remesh(whole, scale="1/2", jobs=4)
        self.assertEqual({it.args for it in pool.call_args_list}, {(4,)})

    def test_a_bad_one_among_many_is_named(self):
        fans = read_obj((EXAMPLES / "two_fans.obj").read_text())
        whole = join([moved(fans if at == 29 else grid(2, 1), 10 * at) for at in range(40)])
        with self.assertRaises(Refusal) as caught:
            remesh(whole, scale=1)
        self.assertEqual((caught.exception.status, caught.exception.vertices), (7, (29 * 6,)))


if __name__ == "__main__":
    unittest.main()
