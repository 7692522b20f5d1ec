"""What a mesh carries: numbers are compared with those of the old mesh."""

import unittest

import bpy
import numpy as np
import shapes
from shapes import body, grid, mark, marked, shape, uv_area, weights_at

remesh = bpy.ops.object.quadq_remesh
HALF = dict(wish="SCALE", scale=0.5, mirror="NONE", keep_sharp=False, keep_materials=False)
"""At half the scale, with UV islands alone kept."""


class Carry(unittest.TestCase):
    def setUp(self):
        shapes.empty_scene()

    def test_a_body(self):
        source = body()
        old = source.data
        remesh(**HALF)
        it = bpy.context.object
        new = it.data
        self.assertEqual((len(new.polygons), shape(new)), (6 * 16, shape(old)))
        self.assertEqual([layer.name for layer in new.uv_layers], [layer.name for layer in old.uv_layers])
        for name in new.uv_layers.keys():
            # Each new face lies over four old ones, which are alike.
            four = np.sort(uv_area(old, name)).reshape(-1, 4).sum(axis=1)
            np.testing.assert_allclose(np.sort(uv_area(new, name)), four, atol=1e-5)
        self.assertEqual((new.uv_layers.active.name, [layer.active_render for layer in new.uv_layers]),
                         (old.uv_layers.active.name, [layer.active_render for layer in old.uv_layers]))
        self.assert_linear(it)
        self.assert_keys(it)

    def assert_linear(self, it):
        """The values of `body` are again linear in the places."""
        data = it.data
        flat, corners = data.uv_layers["flat"].data, data.color_attributes["corners"].data
        for face in data.polygons:
            is_top = face.normal.z > 0.5
            self.assertEqual((face.material_index, face.use_smooth), (int(is_top), not is_top))
            for loop in face.loop_indices:
                x, y, z = data.vertices[data.loops[loop].vertex_index].co
                np.testing.assert_allclose(flat[loop].uv, (x / 2, z / 2 + y / 4), atol=1e-5)
                np.testing.assert_allclose(corners[loop].color, (is_top, 1, 0, 1), atol=1e-5)
        self.assertEqual([(group.name, group.lock_weight) for group in it.vertex_groups],
                         [("arm.L", True), ("arm.R", False), ("empty", False)])
        points = data.color_attributes["points"].data
        for vertex, weights in zip(data.vertices, weights_at(it)):
            x, y, _ = vertex.co
            np.testing.assert_allclose(points[vertex.index].color, (x / 2 + 0.5, y / 2 + 0.5, 0.25, 1), atol=1e-5)
            self.assertAlmostEqual(weights.get("arm.L", 0), x / 2 + 0.5, places=5)
            self.assertAlmostEqual(weights.get("arm.R", 0), y / 4 + 0.25, places=5)

    def assert_keys(self, it):
        """At the extremes the keys of `body` move what they moved, and they have their settings and the driver."""
        keys = it.data.shape_keys.key_blocks
        self.assertEqual([key.name for key in keys], ["Basis", "up", "wide"])
        up = keys["up"]
        np.testing.assert_allclose([up.slider_max, up.value], [2.0, 0.25])
        self.assertEqual((up.vertex_group, keys["wide"].mute, up.relative_key.name), ("arm.L", True, "Basis"))
        self.assertEqual([one.driver.expression for one in it.data.shape_keys.animation_data.drivers], ["0.75"])
        places = shapes.places_of(it.data)
        found = np.array([[one.co for one in key.data] for key in keys])
        x, y, z = places.T
        np.testing.assert_allclose(found[0], places, atol=1e-6)
        np.testing.assert_allclose(found[1], np.column_stack([x, y + np.maximum(x, 0), 1.5 * z]), atol=1e-5)
        np.testing.assert_allclose(found[2], np.column_stack([2 * x, y, z]), atol=1e-5)

    def test_a_body_that_is_symmetric_divided_or_mirrored(self):
        source = body()
        remesh(**{**HALF, "mirror": "AUTO"}, subdivide=True, replace=True)
        self.assertEqual(len(source.data.polygons), 6 * 64)
        self.assert_linear(source)
        self.assert_keys(source)
        other = body()
        remesh(**{**HALF, "mirror": "X"}, replace=True)
        data = other.data
        self.assertEqual(len(data.polygons), 6 * 16)
        for it, weights in zip(data.vertices, weights_at(other)):
            left, right = abs(it.co.x) / 2 + 0.5, it.co.y / 4 + 0.25
            for group, value in zip(("arm.L", "arm.R"), (left, right) if it.co.x >= 0 else (right, left)):
                self.assertAlmostEqual(weights.get(group, 0), value, places=5)
        areas = uv_area(data, "flat")
        halves = np.array([it.center.x > 0 for it in data.polygons])
        self.assertAlmostEqual(areas[halves].sum(), -areas[~halves].sum(), places=4)
        x, y, z = shapes.places_of(data).T
        found = np.array([it.co for it in data.shape_keys.key_blocks["wide"].data])
        np.testing.assert_allclose(found, np.column_stack([2 * x, y, z]), atol=1e-5)

    def test_attributes_of_all_domains(self):
        kinds = {"FLOAT": "value", "FLOAT_VECTOR": "vector", "FLOAT2": "vector", "FLOAT_COLOR": "color", "INT": "value",
                 "INT8": "value", "BOOLEAN": "value", "STRING": "value"}
        for domain in ("POINT", "EDGE", "FACE", "CORNER"):
            shapes.empty_scene()
            source = grid(8, 8)
            for kind, name in kinds.items():
                made = source.data.attributes.new(f"a {kind}", kind, domain)
                at = {"POINT": [it.co.x for it in source.data.vertices],
                      "EDGE": [shapes.places_of(source.data)[list(it.vertices), 0].mean() for it in source.data.edges],
                      "FACE": [it.center.x for it in source.data.polygons],
                      "CORNER": [source.data.vertices[it.vertex_index].co.x for it in source.data.loops]}[domain]
                for it, x in zip(made.data, at):
                    value = [x / 8] * {"FLOAT_VECTOR": 3, "FLOAT2": 2, "FLOAT_COLOR": 4}.get(kind, 1)
                    setattr(it, name, {"INT": int(x), "INT8": int(x), "BOOLEAN": x > 4, "STRING": str(int(x)),
                                       "FLOAT": x / 8}.get(kind, value))
            remesh(**HALF)
            self.assert_attributes(bpy.context.object.data, kinds, domain)

    def assert_attributes(self, data, kinds, domain):
        self.assertEqual({it.name for it in data.attributes if it.name.startswith("a ")}, {f"a {it}" for it in kinds})
        at = {"POINT": [it.co.x for it in data.vertices],
              "EDGE": [sum(data.vertices[end].co.x for end in it.vertices) / 2 for it in data.edges],
              "FACE": [it.center.x for it in data.polygons],
              "CORNER": [data.vertices[it.vertex_index].co.x for it in data.loops]}[domain]
        near = {"POINT": 0, "EDGE": 1, "FACE": 1, "CORNER": 0}[domain]
        for kind, name in kinds.items():
            made = data.attributes[f"a {kind}"]
            self.assertEqual((made.data_type, made.domain), (kind, domain))
            for it, x in zip(made.data, at):
                value = getattr(it, name)
                if kind in ("FLOAT", "FLOAT_VECTOR", "FLOAT2", "FLOAT_COLOR"):
                    np.testing.assert_allclose(value, x / 8, atol=near / 8 + 1e-5, err_msg=f"{kind} {domain}")
                elif kind != "BOOLEAN":
                    self.assertLessEqual(abs(int(value) - x), near + 1.01, f"{kind} {domain}")

    def test_marks_along_edges_that_are_followed(self):
        source = grid(8, 8)
        for kind in shapes.MARKS:
            for it in source.data.edges:
                ends = [source.data.vertices[end].co.x for end in it.vertices]
                if ends == [4, 4] or ends == [3, 3]:
                    mark(source.data, it, kind)
        remesh(**HALF)
        new = bpy.context.object.data
        for kind in shapes.MARKS:
            stayed = marked(new, kind)
            self.assertEqual({new.vertices[end].co.x for at in stayed for end in new.edges[at].vertices}, {4}, kind)
            self.assertEqual(len(stayed), 4)
        for words in ("8 of 16 sharp edges", "8 of 16 seams", "8 of 16 creases", "8 of 16 bevel weights of edges",
                      "8 of 16 freestyle marks"):
            self.assertTrue(any(words in it for it in shapes.messages()), (words, shapes.messages()))

    def test_marks_of_vertices_and_faces(self):
        source = grid(8, 8)
        for it in source.data.vertices:
            if "bevel_weight" in bpy.types.MeshVertex.bl_rna.properties:
                it.bevel_weight = it.co.x / 8
        if hasattr(source.data, "vertex_creases"):
            with bpy.context.temp_override(mesh=source.data):
                bpy.ops.mesh.customdata_crease_vertex_add()
            for it, one in zip(source.data.vertices, source.data.vertex_creases[0].data):
                one.value = it.co.y / 8
        if hasattr(source.data, "face_maps"):
            faces = source.data.face_maps.new(name="Face Map")
            for it, one in zip(source.data.polygons, faces.data):
                one.value = int(it.center.x > 4)
        for it in source.data.polygons:
            it.use_freestyle_mark = it.center.y > 4
        remesh(**HALF)
        new = bpy.context.object.data
        self.assertEqual([it.use_freestyle_mark for it in new.polygons], [it.center.y > 4 for it in new.polygons])
        if hasattr(new, "vertex_creases"):
            creases = [it.value for it in new.vertex_creases[0].data]
            np.testing.assert_allclose(creases, shapes.places_of(new)[:, 1] / 8, atol=1e-6)
            np.testing.assert_allclose([it.bevel_weight for it in new.vertices], shapes.places_of(new)[:, 0] / 8,
                                       atol=1e-6)
            self.assertEqual([it.value for it in new.face_maps[0].data], [int(it.center.x > 4) for it in new.polygons])

    def test_normals_that_were_given_by_hand(self):
        source = grid(8, 8)
        if hasattr(source.data, "use_auto_smooth"):
            source.data.use_auto_smooth = True
        for it in source.data.polygons:
            it.use_smooth = True
        source.data.normals_split_custom_set([(0.6, 0, 0.8)] * len(source.data.loops))
        remesh(**HALF)
        data = bpy.context.object.data
        self.assertTrue(data.has_custom_normals)
        if hasattr(data, "calc_normals_split"):
            data.calc_normals_split()
            normals = [it.normal for it in data.loops]
        else:
            normals = [it.vector for it in data.corner_normals]
        np.testing.assert_allclose(normals, [(0.6, 0, 0.8)] * len(normals), atol=2e-3)

    def test_nothing_is_carried_where_that_is_not_wished_and_it_is_named(self):
        body()
        remesh(**HALF, carry=False)
        it = bpy.context.object
        self.assertEqual((len(it.data.uv_layers), len(it.data.color_attributes), len(it.vertex_groups)), (0, 0, 0))
        self.assertIsNone(it.data.shape_keys)
        self.assertEqual({face.material_index for face in it.data.polygons if face.normal.z > 0.5}, {1})
        lost = [one for one in shapes.messages() if "not carried over" in one]
        self.assertEqual(lost, ["Cube quadq: not carried over: UV maps, colours, vertex groups, shape keys"])

    def test_loose_vertices_and_edges_are_named(self):
        points = [(x, y, 0) for y in range(5) for x in range(5)] + [(9, 9, 9), (8, 8, 8), (7, 7, 7)]
        faces = [(it, it + 1, it + 6, it + 5) for y in range(4) for it in range(5 * y, 5 * y + 4)]
        chosen = shapes.with_mesh("loose", points, faces, [(25, 26)])
        chosen.data.uv_layers.new(name="flat").data[0].pin_uv = True
        remesh(**HALF, keep_islands=False)
        self.assertIn("loose quadq: not carried over: 1 loose edge, 1 loose vertex, pins of UV maps", shapes.messages())
        self.assertEqual(len(chosen.data.vertices), 28)

    def test_custom_properties_and_settings_of_the_mesh(self):
        source = grid(8, 8)
        source["mine"], source.data["ours"] = 3, [1.5, 2.5]
        source.data.use_mirror_x = True
        if hasattr(source.data, "auto_smooth_angle"):
            source.data.auto_smooth_angle = 0.5
        remesh(**HALF)
        new = bpy.context.object
        self.assertEqual((new["mine"], list(new.data["ours"]), new.data.use_mirror_x), (3, [1.5, 2.5], True))
        if hasattr(source.data, "auto_smooth_angle"):
            self.assertAlmostEqual(new.data.auto_smooth_angle, 0.5)

    def test_a_hard_surface_with_bevel_weights(self):
        source = shapes.cube(5)
        for it in source.data.edges:
            ends = shapes.places_of(source.data)[list(it.vertices)]
            if np.sum(np.all(np.abs(ends) == 1, axis=0)) == 2:
                mark(source.data, it, "bevels")
                mark(source.data, it, "sharp")
        count = len(marked(source.data, "bevels"))
        remesh(wish="SCALE", scale=2.0, mirror="NONE")
        new = bpy.context.object.data
        self.assertEqual((count, len(marked(new, "bevels")), len(marked(new, "sharp"))), (72, 144, 144))
        self.assertEqual([it for it in shapes.messages() if "not carried" in it], [])
