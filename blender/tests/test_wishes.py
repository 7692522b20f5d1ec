"""What is wished, and what comes of it."""

import unittest

import bpy
import numpy as np
import quadq_remesh.wishes as wishes
import shapes
from shapes import area, chosen, folded, grid, mark, marked, shape, suzanne

remesh = bpy.ops.object.quadq_remesh
PLAIN = dict(wish="SCALE", keep_sharp=False, keep_islands=False, keep_materials=False, mirror="NONE")
"""No edge is kept."""


class Wishes(unittest.TestCase):
    def setUp(self):
        shapes.empty_scene()

    def test_suzanne_at_two_levels(self):
        for levels in (1, 2):
            source = suzanne(levels)
            before = len(source.data.polygons)
            for it in source.data.polygons:
                it.use_smooth = True
            self.assertEqual(remesh(scale=0.5, **PLAIN), {"FINISHED"})
            new = bpy.context.object
            self.assertNotEqual(new, source)
            self.assertEqual(shape(new.data), shape(source.data))
            self.assertLess(len(new.data.polygons), before)
            self.assertAlmostEqual(area(new.data) / area(source.data), 1, delta=0.1)
            self.assertTrue(all(it.use_smooth for it in new.data.polygons))

    def test_a_number_of_faces_is_wished_if_nothing_is_said(self):
        bpy.ops.mesh.primitive_torus_add(major_segments=48, minor_segments=24, major_radius=0.002, minor_radius=0.0005)
        source = bpy.context.object
        size = area(source.data)
        remesh(faces=300, replace=True)
        self.assertEqual(bpy.context.object, source)
        self.assertAlmostEqual(len(source.data.polygons), 300, delta=30)
        self.assertAlmostEqual(area(source.data) / size, 1, delta=0.05)

    def test_a_ratio_counts_from_what_is_seen(self):
        for is_divided in (False, True):
            bpy.ops.mesh.primitive_torus_add(major_segments=48, minor_segments=24)
            remesh(wish="RATIO", ratio=0.25, replace=True, subdivide=is_divided)
            self.assertAlmostEqual(len(bpy.context.object.data.polygons), 288, delta=15)

    def test_a_length_of_edges_is_one_of_the_scene(self):
        for scale in (1, -2):
            bpy.ops.mesh.primitive_grid_add(x_subdivisions=16, y_subdivisions=24, size=2)
            it = bpy.context.object
            it.scale = (scale, scale, scale)
            bpy.context.view_layer.update()
            remesh(wish="EDGE", edge=0.25, replace=True, coarse=True)
            self.assertEqual(len(it.data.polygons), (8 * abs(scale)) ** 2)
            self.assertEqual(tuple(it.scale), (scale,) * 3)

    def test_a_count_that_no_mesh_can_have_is_refused_before_the_work(self):
        grid(4, 4)
        with self.assertRaisesRegex(RuntimeError, "a mesh can have 2,097,152"):
            remesh(faces=2**31 - 1)

    def test_marked_edges_stay_and_are_marked(self):
        for kind in shapes.MARKS:
            shapes.empty_scene()
            roof, ridge = folded()
            for edge in ridge:
                mark(roof.data, edge, kind)
            remesh(scale=1 / 3, **{**PLAIN, f"keep_{kind}": True})
            new = bpy.context.object.data
            stayed = marked(new, kind)
            self.assertEqual(len(stayed), 3, kind)
            for at, value in stayed.items():
                self.assertAlmostEqual(value, 0.5 if kind in ("creases", "bevels") else 1.0, delta=0.01)
                self.assertEqual([new.vertices[end].co.x for end in new.edges[at].vertices], [4, 4], kind)
            self.assertEqual([it for it in shapes.MARKS if marked(new, it)], [kind])

    def test_edges_at_an_angle_and_borders_of_materials_stay_if_nothing_is_said(self):
        for is_flat in (False, True):
            roof, _ = folded()
            for name in ("left", "right"):
                roof.data.materials.append(bpy.data.materials.new(name))
            for it in roof.data.polygons:
                it.material_index = int(it.center.x > 4)
            if is_flat:
                for it in roof.data.vertices:
                    it.co.z = 0
            size = area(roof.data)
            remesh(wish="SCALE", scale=1 / 3, replace=True)
            self.assertAlmostEqual(area(roof.data), size, places=3)
            self.assertEqual({it.material_index for it in roof.data.polygons if it.center.x < 4}, {0})
            self.assertEqual({it.material_index for it in roof.data.polygons if it.center.x > 4}, {1})
        roof, _ = folded()
        remesh(scale=1 / 3, replace=True, **PLAIN)
        self.assertLess(area(roof.data), 81 * 2**0.5 - 1)

    def test_by_angle_alone_where_nothing_is_marked(self):
        roof, ridge = folded()
        other = [it for it in roof.data.edges if all(roof.data.vertices[end].co.x == 6 for end in it.vertices)]
        for it in other:
            mark(roof.data, it, "sharp")
        remesh(wish="SCALE", scale=1 / 3, replace=True, corners=False)
        self.assertLess(area(roof.data), 81 * 2**0.5 - 1)
        self.assertEqual({tuple(sorted(roof.data.vertices[end].co.x for end in roof.data.edges[at].vertices))
                          for at in marked(roof.data, "sharp")}, {(6, 6)})

    def test_merged_patches(self):
        source = suzanne()
        counts = []
        for coarse in (False, True):
            chosen(source)
            remesh(**PLAIN, scale=0.5, coarse=coarse, seams=True)
            new = bpy.context.object
            self.assertEqual(shape(new.data), shape(source.data))
            counts.append(len(marked(new.data, "seams")))
        self.assertLess(counts[1], counts[0])

    def test_seams_of_patches(self):
        shapes.cube()
        remesh(scale=0.5, seams=True, **PLAIN)
        new = bpy.context.object.data
        self.assertEqual((len(marked(new, "seams")), len(new.polygons)), (12 * 4, 6 * 16))

    def test_symmetry_is_kept_where_it_is_there(self):
        source = suzanne(1)
        remesh(faces=700)
        places = shapes.places_of(bpy.context.object.data).round(5)
        self.assertEqual({tuple(it) for it in places.tolist()}, {tuple(it) for it in (places * (-1, 1, 1)).tolist()})
        self.assertIn("symmetric along X", shapes.messages()[0])
        chosen(source)
        remesh(faces=700, mirror="NONE")
        self.assertNotIn("symmetric", shapes.messages()[0])

    def test_a_mirrored_half(self):
        half = grid(8, 4, 0.25)
        half.modifiers.new("Mirror", "MIRROR")
        remesh(wish="SCALE", scale=0.5, replace=True)
        self.assertEqual((len(half.data.polygons), half.modifiers.keys()), (8, ["Mirror"]))
        looked = half.evaluated_get(bpy.context.evaluated_depsgraph_get()).data
        self.assertEqual((len(looked.polygons), len(looked.vertices)), (16, 9 * 3))
        whole = grid(8, 4, 0.25)
        for it in whole.data.vertices:
            it.co.x -= 1
        remesh(wish="SCALE", scale=0.5, mirror="X", replace=True)
        places = {tuple(round(it, 4) + 0.0 for it in point.co) for point in whole.data.vertices}
        self.assertEqual({(0.0 - x, y, z) for x, y, z in places}, places)

    def test_a_distance_is_one_of_the_scene(self):
        for scale in (1, 10):
            bpy.ops.mesh.primitive_torus_add(major_segments=48, minor_segments=24)
            it = bpy.context.object
            it.scale = (scale,) * 3
            bpy.context.view_layer.update()
            counts = []
            for distance in (0.02 * scale, 0.1 * scale):
                chosen(it)
                remesh(wish="WITHIN", within=distance)
                counts.append(len(bpy.context.object.data.polygons))
                self.assertLess(shapes.distance(bpy.context.object.data, it.data) * scale, distance * 1.001)
            self.assertLess(counts[1], counts[0])
            self.assertLess(counts[0], 1152)

    def test_faces_are_denser_where_a_group_or_a_colour_is_painted(self):
        for kind in ("group", "POINT", "CORNER"):
            shapes.empty_scene()
            it = suzanne(2)
            left = [v.index for v in it.data.vertices if v.co.x < 0]
            if kind == "group":
                it.vertex_groups.new(name="dense").add(left, 1.0, "REPLACE")
            else:
                colours = it.data.color_attributes.new("dense", "FLOAT_COLOR", kind)
                at = range(len(it.data.vertices)) if kind == "POINT" else [it.vertex_index for it in it.data.loops]
                for row, vertex in zip(colours.data, at):
                    row.color = (1, 1, 1, 1) if vertex in set(left) else (0, 0, 0, 1)
            self.assertEqual(wishes.names_painted(bpy.context, "d"), ["dense"])
            wish = dict(wish="FACES", faces=6000) if kind == "group" else dict(wish="SCALE", scale=0.7)
            remesh(**{**PLAIN, **wish}, density="dense", times=6.0, replace=True)
            xs = [face.center.x for face in it.data.polygons]
            if kind == "group":
                self.assertAlmostEqual(len(xs), 6000, delta=600)
            self.assertGreater(sum(x < 0 for x in xs), 1.5 * sum(x > 0 for x in xs), kind)
            self.assertIn("dense", [*it.vertex_groups.keys(), *it.data.color_attributes.keys()])
        remesh(**PLAIN, scale=0.5, density="none", replace=True)
        self.assertTrue(any("no vertex group or colour attribute none" in it for it in shapes.messages()))

    def selected_torus(self, is_selected):
        """A torus in edit mode with these faces selected."""
        bpy.ops.mesh.primitive_torus_add(major_segments=48, minor_segments=24)
        it = bpy.context.object
        bpy.ops.object.mode_set(mode="EDIT")
        bpy.ops.mesh.select_all(action="DESELECT")
        bpy.ops.object.mode_set(mode="OBJECT")
        for face in it.data.polygons:
            face.select = is_selected(face.center)
        bpy.ops.object.mode_set(mode="EDIT")
        bpy.context.tool_settings.mesh_select_mode = (False, False, True)
        return it

    def test_selected_faces_alone_are_remeshed(self):
        for wished in (dict(wish="RATIO", ratio=2.0), dict(faces=288), dict(wish="SCALE", scale=2.0),
                       dict(wish="EDGE", edge=0.1)):
            shapes.empty_scene()
            it = self.selected_torus(lambda at: at.x > 0)
            before = {tuple(round(x, 4) for x in v.co) for v in it.data.vertices if v.co.x < -0.01}
            remesh(selected=True, replace=True, **{**PLAIN, "wish": "FACES", **wished})
            self.assertEqual((bpy.context.mode, bpy.context.object), ("EDIT_MESH", it))
            bpy.ops.object.mode_set(mode="OBJECT")
            inside = sum(face.center.x > 0 for face in it.data.polygons)
            self.assertEqual(len(it.data.polygons) - inside, 576, shapes.messages())
            self.assertEqual({tuple(round(x, 4) for x in v.co) for v in it.data.vertices if v.co.x < -0.01}, before)
            if "edge" not in wished:
                self.assertEqual(inside, 288 if "faces" in wished else 1152, wished)
            self.assertGreater(inside, 576 if "faces" not in wished else 0)

    def test_selected_faces_are_offered_in_edit_mode(self):
        import quadq_remesh.faults as faults
        import quadq_remesh.seen as seen
        self.selected_torus(lambda at: at.x > 0)
        found = seen.Seen.of(bpy.context)
        kept = bpy.context.scene.quadq
        for name in ("wish", "ratio", "selected"):
            self.addCleanup(kept.property_unset, name)
        kept.wish, kept.ratio, kept.selected = "RATIO", 2.0, True
        self.assertEqual(found.words(wishes.Wishes.of(kept)), "Selected faces: 576 → 1,152")
        self.assertEqual((found.selected, found.half), ([576], 1152))
        self.assertFalse(faults.is_shown(bpy.context))
        bpy.ops.mesh.select_all(action="SELECT")
        self.assertIsNone(seen.Seen.of(bpy.context).selected)
        bpy.ops.mesh.select_all(action="DESELECT")
        with self.assertRaisesRegex(RuntimeError, "no face is selected"):
            remesh(selected=True)
        self.assertEqual(bpy.context.mode, "EDIT_MESH")

    def test_edges_stay_with_merged_patches_and_a_length_too(self):
        for more in (dict(wish="EDGE", edge=3.0), dict(wish="SCALE", scale=1 / 3, coarse=True)):
            roof, ridge = folded()
            for edge in ridge:
                mark(roof.data, edge, "sharp")
            remesh(replace=True, **more)
            self.assertTrue(marked(roof.data, "sharp"))
            self.assertEqual({roof.data.vertices[end].co.x for at in marked(roof.data, "sharp")
                              for end in roof.data.edges[at].vertices}, {4})

    def test_islands_that_differ_by_rounding_alone_are_one(self):
        bpy.ops.mesh.primitive_grid_add(x_subdivisions=16, y_subdivisions=24, size=2)
        grid_of_blender = bpy.context.object
        remesh(wish="SCALE", scale=0.5, mirror="NONE", replace=True)
        self.assertEqual(len(grid_of_blender.data.polygons), 96)
        self.assertEqual(shapes.last().report.marks, "")

    def test_wishes_are_kept_with_the_scene(self):
        kept = bpy.context.scene.quadq
        kept.faces = 77
        copy = bpy.context.scene.copy()
        self.assertEqual((copy.quadq.faces, copy.quadq.keep_sharp), (77, True))
        bpy.data.scenes.remove(copy)

    def test_points_are_evened(self):
        suzanne(1)
        remesh(wish="SCALE", scale=1.0, relax=2, replace=True)
        self.assertTrue(any("relaxed" in it for it in shapes.messages()))

    def test_what_the_dialog_says(self):
        import quadq_remesh.seen as seen
        bpy.ops.mesh.primitive_monkey_add()
        found = seen.Seen.of(bpy.context)
        self.assertEqual((found.faces, found.others, found.has_modifiers), ([500], 32, False))
        kept = bpy.context.scene.quadq
        for wish, words in (("FACES", "Faces: 500 → 77"), ("RATIO", "Faces: 500 → 250"), ("SCALE", "about 125"),
                            ("EDGE", "about ")):
            kept.wish, kept.faces = wish, 77
            self.assertIn(words, found.words(wishes.Wishes.of(kept)))
        np.testing.assert_allclose(found.area, area(bpy.context.object.data), rtol=1e-4)
