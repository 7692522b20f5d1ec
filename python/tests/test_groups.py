"""Groups of faces and edges come back on the new mesh, or it is said what of them does not."""

import unittest
from dataclasses import replace

import numpy as np

from quadq import Mesh, Names, remesh
from quadq.groups import chains_of, edges_by_group, length_of

from .shapes import grid, plate, written_by


def sides_of(mesh: Mesh, low, high):
    """The boundary edges of a flat mesh on each side of its box, by name."""
    rim = mesh.edges.ends[mesh.edges.uses == 1]
    middle = mesh.points[rim].mean(axis=1)
    found = {"left": middle[:, 0] == low, "right": middle[:, 0] == high, "bottom": middle[:, 1] == low,
             "top": middle[:, 1] == high}
    found["hole"] = ~np.logical_or.reduce(list(found.values()))
    return {name: rim[some] for name, some in found.items() if some.any()}


def grouped(mesh: Mesh, edges, faces=None):
    lines = [(pair, name) for name, some in edges.items() for pair in some]
    names = {} if faces is None else {"usemtl": faces, "g": faces}
    return replace(mesh, lines=tuple(it for it, _ in lines), line_names=tuple(it for _, it in lines), groups=names,
                   is_grouped=True)


def lengths(mesh: Mesh):
    return {name: length_of(mesh, some) for name, some in edges_by_group(mesh).items()}


def ends(mesh: Mesh):
    """Where groups of edges end, meet or fork, by name."""
    found = {}
    for name, some in edges_by_group(mesh).items():
        degree = np.bincount(mesh.edges.ends[some].ravel(), minlength=len(mesh.points))
        found[name] = {tuple(it) for it in np.round(mesh.points[(degree > 0) & (degree != 2)], 5).tolist()}
    return found


class Groups(unittest.TestCase):
    def assertBack(self, old, new, near=1e-3):
        self.assertEqual(ends(old), ends(new))
        before, after = lengths(old), lengths(new)
        self.assertEqual(list(before), list(after))
        np.testing.assert_allclose(list(after.values()), list(before.values()), rtol=near)

    def test_the_sides_of_a_plate(self):
        mesh = plate()
        mesh = grouped(mesh, sides_of(mesh, 0, 24))
        for scale in ("1/2", "3/2", "2/1"):
            result = remesh(mesh, scale=scale)
            self.assertBack(mesh, result.mesh, 0.01)
            self.assertEqual(result.report.marks, "", "nothing but the boundary had to stay")
            self.assertTrue(result.mesh.is_grouped)

    def test_names_that_change_in_the_middle_of_a_side(self):
        mesh = grid(12, 8)
        bottom = sides_of(mesh, 0, 12)["bottom"]
        mesh = grouped(mesh, {"inlet": bottom[:5], "wall": bottom[5:]})
        result = remesh(mesh, scale="1/2")
        self.assertBack(mesh, result.mesh)
        self.assertEqual(result.report.command, written_by("crease"))
        self.assertNotEqual(result.report.marks, "")
        moved = remesh(mesh, scale="1/2", free_groups=True)
        self.assertEqual((moved.report.command, moved.report.marks), (written_by("remesh"), ""))
        self.assertNotEqual(lengths(moved.mesh), lengths(mesh))
        self.assertIn("group-length", [it.kind for it in moved.report.notices])

    def test_names_that_change_along_a_line_inside(self):
        mesh = grid(12, 8)
        line = np.arange(13) + 4 * 13
        pairs = np.column_stack([line[:-1], line[1:]])
        mesh = grouped(mesh, {"weld": pairs[:7], "seam": pairs[7:], "all": pairs})
        result = remesh(mesh, scale="1/3")
        self.assertBack(mesh, result.mesh)
        self.assertIn("where groups of edges meet", result.report.marks)

    def test_groups_of_faces(self):
        mesh = grid(12, 8)
        is_left = mesh.points[mesh.quads].mean(axis=1)[:, 0] < 5
        mesh = grouped(mesh, {}, Names(("steel", "air"), np.where(is_left, 0, 1)))
        new = remesh(mesh, scale="1/2").mesh
        at = new.points[new.quads].mean(axis=1)[:, 0]
        self.assertEqual(new.groups["usemtl"].of_face.tolist(), (at > 5).astype(int).tolist())
        size = remesh(mesh, edge=2.0, free_groups=True)
        self.assertEqual(set(size.mesh.groups["g"].of_face.tolist()), {0, 1})
        self.assertIn("over-groups", [it.kind for it in size.report.notices])

    def test_a_group_that_is_lost_is_named(self):
        mesh = grid(12, 8)
        mesh = grouped(mesh, {}, Names(("all", "one"), (np.arange(96) == 40).astype(int)))
        told = remesh(mesh, edge=4.0, free_groups=True).report.notices
        self.assertTrue(any(it.kind == "groups" and "one" in it.words for it in told))

    def test_of_polygons_and_mirrored(self):
        mesh = grid(6, 4)
        mesh = grouped(mesh, sides_of(mesh, 0, 6))
        self.assertBack(mesh, remesh(mesh, scale="1/2", subdivide=True).mesh)
        half = replace(mesh, points=mesh.points - [3, 0, 0])
        image = remesh(half, scale="1/2", mirror="x").mesh
        self.assertEqual(lengths(image), {"right": 8.0, "bottom": 6.0, "hole": 6.0})

    def test_lines_that_are_no_edges_are_named(self):
        mesh = grouped(grid(4, 4), {"odd": np.array([[0, 12]])})
        self.assertTrue(any("line cell" in it for it in remesh(mesh, scale="1/2").report.warnings))

    def test_chains(self):
        cross = np.array([[0, 1], [1, 2], [1, 3], [1, 4]])
        ring = np.array([[5, 6], [6, 7], [5, 7]])
        found = [it.tolist() for it in chains_of(np.concatenate([cross, ring]))]
        self.assertEqual(found, [[0, 1], [1, 2], [1, 3], [1, 4], [5, 6, 7, 5]])


if __name__ == "__main__":
    unittest.main()
