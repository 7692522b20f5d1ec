"""The layouts of cuts, as the program writes them."""

import unittest

import numpy as np

import quadq
from quadq import Mesh, Program, Refusal, read_obj
from quadq.layout import Layout, layout_of
from quadq.mesh import NONE, join
from quadq.obj_writing import plain_text
from quadq.parts import split

from .shapes import EXAMPLES, drum, grid, moved
from .test_features import any_mesh


def is_accepted(mesh: Mesh) -> bool:
    """Whether the program takes it."""
    try:
        return bool(Program().tidy(plain_text(mesh)))
    except Refusal:
        return False


def one_layout(mesh: Mesh, marks: np.ndarray, is_merged: bool = False) -> Layout:
    """The layout of a mesh that is one part."""
    part, = split(mesh, None, marks)
    return layout_of(part, Program(), is_merged)


class Layouts(unittest.TestCase):
    def look(self, mesh: Mesh, marks: np.ndarray, name, is_merged: bool) -> None:
        for part in split(mesh, None, marks):
            layout = layout_of(part, Program(), is_merged)
            cut, old = layout.cut, layout.old
            arcs = layout.arc_of_edge
            self.assertEqual(np.bincount(arcs[arcs != NONE], minlength=len(old)).tolist(), old.tolist(), name)
            marked = part.mesh.edges.numbers_of(part.marks)
            inner = marked[part.mesh.edges.uses[marked] == 2]
            self.assertTrue(np.all(cut.is_marked[arcs[inner]]), name)
            self.assertTrue(np.all(arcs[part.mesh.edges.uses == 1] != NONE), name)
            self.assertEqual(layout.widths(old).tolist(), cut.sizes.tolist(), name)
            patches = cut.patches_of(part.mesh)
            self.assertEqual(np.bincount(patches).tolist(), cut.sizes.prod(axis=1).tolist(), name)
            self.assertEqual(layout.faces(old), part.mesh.face_count)
            lengths = np.random.default_rng(1).integers(1, 9, len(old)).astype(float)
            self.assertAlmostEqual(layout.faces(layout.to_old_count(lengths)), part.mesh.face_count)

    def test_any_meshes_and_marks(self):
        rng = np.random.default_rng(2)
        meshes = [(seed, any_mesh(seed)) for seed in range(80)]
        meshes += [(it.name, read_obj(it.read_text())) for it in sorted(EXAMPLES.glob("*.obj"))]
        for seed, mesh in meshes:
            if is_accepted(mesh):
                inner = mesh.edges.ends[mesh.edges.uses == 2]
                for share in (0.0, 0.1):
                    marks = inner[rng.random(len(inner)) < share]
                    for is_merged in (False, True):
                        self.look(mesh, marks, (seed, share, is_merged), is_merged)

    def test_strips_lead_over_all_faces_of_a_patch(self):
        mesh = drum(12, 5)
        layout = one_layout(mesh, mesh.edges.ends[:0])
        steps = np.concatenate(list(layout.strips()))
        along = layout.arc_of_edge[layout.darts.of_edge[steps[:, 0]]]
        # Each face of the patches beside an arc is crossed from it once along, and a strip ends on the other side.
        beside = np.bincount(layout.cut.uses, weights=np.ones(len(layout.cut.uses)), minlength=len(layout.old))
        wide = layout.cut.sizes[layout.side_of_use // 4, 1 - layout.side_of_use % 2]
        deep = np.bincount(layout.cut.uses, weights=wide, minlength=len(layout.old))
        np.testing.assert_array_equal(np.bincount(along, minlength=len(layout.old)), layout.old * (deep + beside))

    def test_marked_lines_stay_when_patches_are_merged(self):
        mesh = grid(6, 6)
        edges = mesh.edges.ends
        marks = edges[np.all(mesh.points[edges][:, :, 0] == 3, axis=1)]
        self.assertEqual(len(one_layout(mesh, marks, True).cut.sizes), 2)
        self.assertEqual(len(one_layout(mesh, marks[:0], True).cut.sizes), 1)

    def test_parts_that_go_together_have_each_their_faces(self):
        pair = join([grid(6, 6), moved(grid(2, 3), 9)])
        layout = Layout(pair, quadq.layout(pair))
        found = layout.to_old_count(np.where(np.arange(len(layout.old)) % 2, 3.0, 7.0))
        np.testing.assert_allclose(layout.widths(found).prod(axis=1), [36, 6])


if __name__ == "__main__":
    unittest.main()
