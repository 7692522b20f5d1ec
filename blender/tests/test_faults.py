"""Refusals and warnings: what is at fault is selected, words are Blender's, and no traceback is seen."""

import contextlib
import io
import os
import pathlib
import subprocess
import tempfile
import unittest

import bmesh
import bpy
import numpy as np
import quadq_remesh
import shapes
from shapes import grid, with_mesh

remesh = bpy.ops.object.quadq_remesh
HALF = dict(wish="SCALE", scale=0.5, mirror="NONE", keep_sharp=False)


class Faults(unittest.TestCase):
    def setUp(self):
        shapes.empty_scene()

    def refused(self, words, **wishes):
        with self.assertRaisesRegex(RuntimeError, words) as said:
            remesh(**{**HALF, **wishes})
        self.assertNotIn("Traceback", str(said.exception))

    def selected(self, kind):
        """The numbers of what is selected in edit mode, which is left."""
        self.assertEqual(bpy.context.mode, "EDIT_MESH")
        whole = bmesh.from_edit_mesh(bpy.context.object.data)
        found = [it.index for it in getattr(whole, kind) if it.select]
        bpy.ops.object.mode_set(mode="OBJECT")
        return found

    def test_triangles(self):
        bpy.ops.mesh.primitive_monkey_add()
        source = bpy.context.object
        self.refused("the selected faces are no quads. Turn on Subdivide")
        self.assertEqual({len(source.data.polygons[it].vertices) for it in self.selected("faces")}, {3})
        self.assertEqual(remesh(subdivide=True, wish="SCALE", scale=1.0), {"FINISHED"})

    def test_after_a_refusal_it_can_be_done_again_from_edit_mode(self):
        bpy.ops.mesh.primitive_monkey_add()
        self.refused("no quads")
        self.assertEqual(bpy.context.mode, "EDIT_MESH")
        self.assertTrue(remesh.poll())
        remesh(subdivide=True, faces=1000, replace=True)
        self.assertEqual(bpy.context.mode, "EDIT_MESH")
        bpy.ops.object.mode_set(mode="OBJECT")
        self.assertEqual({len(it.vertices) for it in bpy.context.object.data.polygons}, {4})

    def test_faces_behind_a_division(self):
        points = [(0, 0, 0), (1, 0, 0), (1, 1, 0), (0, 1, 0), (2, 0, 0), (2, 1, 0), (1, 2, 0)]
        with_mesh("turned", points, [(0, 1, 2, 3), (1, 2, 5, 4), (3, 2, 6)])
        self.refused("run the same way along an edge", subdivide=True)
        self.assertEqual(self.selected("faces"), [0, 1])

    def test_a_vertex(self):
        with_mesh("fans", [(0, 0, 0), (1, 0, 0), (1, 1, 0), (0, 1, 0), (-1, 0, 0), (-1, -1, 0), (0, -1, 0)],
                  [(0, 1, 2, 3), (0, 4, 5, 6)])
        self.refused("touch in the selected vertex")
        self.assertEqual(self.selected("verts"), [0])

    def test_a_mesh_without_faces(self):
        with_mesh("nothing", [], [])
        self.refused("has no faces")
        self.assertEqual(bpy.context.mode, "OBJECT")
        with_mesh("lines", [(0, 0, 0), (1, 0, 0)], [], [(0, 1)])
        self.refused("has no faces")

    def test_coordinates_that_are_no_numbers_or_enormous(self):
        for value in (float("inf"), float("nan")):
            source = grid(4, 4)
            places = shapes.places_of(source.data).astype(np.float32)
            places[7, 0] = value
            source.data.vertices.foreach_set("co", places.ravel())
            self.refused("lies at no place that is a number")
            self.assertEqual(self.selected("verts"), [7])
        for size in (1e38, 1e-38, 1e30):
            shapes.empty_scene()
            source = grid(4, 4, size / 4)
            with contextlib.suppress(RuntimeError):
                remesh(**HALF, replace=True)
            self.assertIn(len(source.data.polygons), (4, 16))
            self.assertFalse(any("report" in it for it in shapes.messages()), shapes.messages())

    def test_names_with_any_bytes(self):
        source = grid(4, 4)
        source.name = source.data.name = "gridXXXX"
        source.data.uv_layers.new(name="mapXXXX")
        source.vertex_groups.new(name="g\n# 1")
        source.data.attributes.new("a\nb", "FLOAT", "POINT")
        with tempfile.TemporaryDirectory() as folder:
            path = pathlib.Path(folder, "names.blend")
            bpy.ops.wm.save_as_mainfile(filepath=str(path), compress=False, copy=True)
            path.write_bytes(path.read_bytes().replace(b"XXXX", b"\xff\xfe\x80\x01"))
            bpy.ops.wm.open_mainfile(filepath=str(path))
            for it in bpy.data.objects:
                it.select_set(True)
            self.assertEqual(remesh(**HALF, keep_islands=False), {"FINISHED"})
            new = bpy.context.object
            self.assertEqual((len(new.data.polygons), new.vertex_groups[0].name, len(new.data.uv_layers)),
                             (4, "g\n# 1", 1))
        bpy.ops.wm.read_homefile(use_factory_startup=True, use_empty=True)

    def test_a_program_that_is_not_there_or_does_nothing_right(self):
        grid(4, 4)
        before = os.environ.get("QUADQ")
        inside = pathlib.Path(quadq_remesh.__file__).parent / "quadq/bin/quadq"
        away = inside.with_name("away")
        inside.rename(away)
        try:
            os.environ["QUADQ"] = "/nowhere/quadq"
            self.refused("QUADQ names /nowhere/quadq, which is no program")
            for path in ("/bin/true", "/bin/false", "/bin/cat"):
                os.environ["QUADQ"] = path
                self.refused(".")
                self.assertFalse(any("Error:" in it for it in shapes.messages()), shapes.messages())
        finally:
            away.rename(inside)
            os.environ.pop("QUADQ")
            if before is not None:
                os.environ["QUADQ"] = before

    def test_proofs_are_written_beside_the_file(self):
        source = grid(8, 8)
        self.refused("save the .blend file first", proof=True)
        with tempfile.TemporaryDirectory() as folder:
            bpy.ops.wm.save_as_mainfile(filepath=str(pathlib.Path(folder, "scene.blend")))
            remesh(**HALF, proof=True)
            parts = pathlib.Path(folder, "quadq proofs", source.name)
            old, new = (parts / f"part-1{it}.obj" for it in ("", ".remeshed"))
            program = pathlib.Path(quadq_remesh.__file__).parent / "quadq/bin/quadq"
            text = old.read_bytes() + b"\n" + new.read_bytes()
            said = subprocess.run([program, "check"], input=text, capture_output=True)
            self.assertEqual((said.returncode, said.stdout[:8]), (0, b"accepted"))
            shapes.chosen(source)
            for it in (old, new):
                it.unlink()
            parts.rmdir()
            parts.write_text("a file where a folder is wanted")
            self.refused("disk|exists|cannot|folder|directory", proof=True)
            self.assertEqual(len(source.data.polygons), 64)
        bpy.ops.wm.read_homefile(use_factory_startup=True, use_empty=True)

    def test_a_full_disk(self):
        grid(8, 8)
        self.assertTrue(os.path.exists("/dev/full"))
        with tempfile.TemporaryDirectory() as folder:
            bpy.ops.wm.save_as_mainfile(filepath=str(pathlib.Path(folder, "scene.blend")))
            import quadq_remesh.quadq.parts as parts
            from quadq_remesh.quadq.refusal import WRITE_FAULT, Refusal
            before = parts.write_within

            def full(*_):
                raise Refusal(WRITE_FAULT, "write fault")
            parts.write_within = full
            try:
                self.refused("the disk is full", proof=True)
            finally:
                parts.write_within = before
        bpy.ops.wm.read_homefile(use_factory_startup=True, use_empty=True)

    def test_warnings_select_what_they_mean(self):
        import quadq_remesh.operators as operators
        source = shapes.suzanne(1)
        for name in ("a", "b"):
            source.data.materials.append(bpy.data.materials.new(name))
        for it in source.data.polygons:
            it.material_index = int(it.center.x > 0.1)
        remesh(**HALF, keep_islands=False, keep_materials=False)
        told = [(number, it) for number, it in enumerate(operators.Last.messages) if it.places]
        self.assertTrue(told)
        number, it = next((number, it) for number, it in told if "border of a UV island" in it.words)
        self.assertEqual(bpy.ops.object.quadq_select(message=number, place=0), {"FINISHED"})
        self.assertEqual(len(self.selected("faces")), len(it.places[0].numbers))
        self.assertIn(str(len(it.places[0].numbers)), it.words)
        sharp = [(number, it) for number, it in told if "sharp edges" in it.words]
        self.assertTrue(sharp)
        bpy.ops.object.quadq_select(message=sharp[0][0], place=0)
        self.assertEqual(bpy.context.object, source)
        self.assertTrue(self.selected("verts"))
        self.assertEqual(bpy.ops.object.quadq_select(message=99, place=0), {"CANCELLED"})

    def test_a_polygon_part_of_a_boolean(self):
        source = shapes.cube(3)
        bpy.ops.mesh.primitive_uv_sphere_add(segments=16, ring_count=8, location=(1, 1, 1))
        ball = bpy.context.object
        modifier = source.modifiers.new("cut", "BOOLEAN")
        modifier.object = ball
        shapes.chosen(source)
        self.refused("in the mesh as it looks some faces are no quads", look="LOOK")
        remesh(wish="RATIO", ratio=2.0, look="LOOK", subdivide=True, faces=500)
        new = bpy.context.object
        self.assertEqual({len(it.vertices) for it in new.data.polygons}, {4})
        self.assertAlmostEqual(shapes.area(new.data) / 24, 1, delta=0.15)

    def test_a_uv_sphere_divided(self):
        bpy.ops.mesh.primitive_uv_sphere_add()
        source = bpy.context.object
        self.refused("no quads")
        bpy.ops.object.mode_set(mode="OBJECT")
        remesh(wish="RATIO", ratio=1.0, subdivide=True)
        new = bpy.context.object
        self.assertEqual({len(it.vertices) for it in new.data.polygons}, {4})
        self.assertAlmostEqual(shapes.area(new.data) / shapes.area(source.data), 1, delta=0.05)

    def test_what_is_linked_from_a_file_is_not_replaced(self):
        grid(8, 8)
        with tempfile.TemporaryDirectory() as folder:
            path = str(pathlib.Path(folder, "library.blend"))
            bpy.ops.wm.save_as_mainfile(filepath=path, copy=True)
            shapes.empty_scene()
            with bpy.data.libraries.load(path, link=True) as (there, here):
                here.objects = there.objects
            linked = here.objects[0]
            bpy.context.collection.objects.link(linked)
            shapes.chosen(linked)
            self.refused("linked from another file", replace=True)
            self.assertEqual(len(linked.data.polygons), 64)
            shapes.chosen(linked)
            remesh(**HALF)
            self.assertEqual((len(bpy.context.object.data.polygons), bpy.context.object.library), (16, None))
        bpy.ops.wm.read_homefile(use_factory_startup=True, use_empty=True)

    def test_one_of_two_is_refused(self):
        good, bad = grid(8, 8), with_mesh("bad", [(0, 0, 0), (1, 0, 0), (0, 1, 0)], [(0, 1, 2)])
        shapes.chosen(good, bad)
        self.refused("bad: the selected faces", replace=True)
        self.assertEqual((len(good.data.polygons), bpy.context.object), (16, bad))

    def test_a_report_of_the_last(self):
        grid(8, 8)
        remesh(**HALF)
        self.assertEqual(bpy.ops.object.quadq_report(), {"FINISHED"})

    def test_errors_that_nobody_thought_of_are_words_too(self):
        import quadq_remesh.work as work
        grid(8, 8)
        before = work.made

        def broken(*_):
            raise ZeroDivisionError("nobody thought of it")
        work.made = broken
        seen = io.StringIO()
        try:
            with contextlib.redirect_stderr(seen):
                self.refused("ZeroDivisionError: nobody thought of it: please report")
        finally:
            work.made = before
        self.assertNotIn("Traceback", seen.getvalue())
        np.testing.assert_equal(len(bpy.data.meshes), 1)
