"""What a scene has: modifiers, armatures, parents, duplicates, collections, modes, and undo."""

import unittest

import bpy
import numpy as np
import shapes
from shapes import chosen, grid, suzanne

remesh = bpy.ops.object.quadq_remesh
HALF = dict(wish="SCALE", scale=0.5, mirror="NONE", keep_sharp=False)


def rigged():
    """A body with an armature of two bones, one of which is turned, as its parent and its modifier."""
    source = shapes.body()
    bpy.ops.object.armature_add()
    bones = bpy.context.object
    bpy.ops.object.mode_set(mode="EDIT")
    for name, at in (("arm.L", 0.5), ("arm.R", -0.5)):
        bone = bones.data.edit_bones.new(name)
        bone.head, bone.tail = (at, 0, 0), (at, 0, 1)
    bpy.ops.object.mode_set(mode="OBJECT")
    bones.pose.bones["arm.L"].rotation_mode = "XYZ"
    bones.pose.bones["arm.L"].rotation_euler = (0.4, 0, 0)
    source.parent = bones
    source.modifiers.new("Armature", "ARMATURE").object = bones
    chosen(source)
    bpy.context.view_layer.update()
    return source, bones


def looked(source):
    """The places of an object as it looks, sorted."""
    found = shapes.places_of(source.evaluated_get(bpy.context.evaluated_depsgraph_get()).data)
    return found[np.lexsort(found.round(3).T)]


class Scene(unittest.TestCase):
    def setUp(self):
        shapes.empty_scene()

    def test_a_rigged_body_moves_as_before(self):
        source, bones = rigged()
        source.constraints.new("LIMIT_SCALE")
        other = bpy.data.collections.new("other")
        bpy.context.scene.collection.children.link(other)
        other.objects.link(source)
        remesh(wish="SCALE", scale=1.0, mirror="NONE")
        new = bpy.context.object
        self.assertEqual((new.parent, new.modifiers["Armature"].object), (bones, bones))
        self.assertEqual((new.constraints.keys(), len(new.users_collection)), (["Limit Scale"], 2))
        self.assertEqual((source.hide_get(), source.hide_render), (True, True))
        self.assertEqual((new.hide_get(), new.hide_render), (False, False))
        np.testing.assert_allclose(new.matrix_world, source.matrix_world, atol=1e-6)
        source.hide_set(False)
        bpy.context.view_layer.update()
        np.testing.assert_allclose(looked(new), looked(source), atol=1e-4)
        self.assertGreater(np.abs(looked(new) - np.sort(shapes.places_of(new.data), axis=0)).max(), 0.05)

    def test_modifiers_stay_or_are_taken(self):
        for look, faces, is_on in (("MESH", 16, True), ("LOOK", 2 * 16, False)):
            shapes.empty_scene()
            source, bones = grid(8, 8, 0.25), bpy.data.objects.new("bones", bpy.data.armatures.new("bones"))
            bpy.context.collection.objects.link(bones)
            source.modifiers.new("Mirror", "MIRROR")
            source.modifiers.new("Armature", "ARMATURE").object = bones
            remesh(**HALF, look=look)
            new = bpy.context.object
            self.assertEqual(len(new.data.polygons), faces)
            self.assertEqual([it.show_viewport for it in new.modifiers], [is_on, True])
            self.assertEqual([it.show_render for it in new.modifiers], [is_on, True])
            seen = new.evaluated_get(bpy.context.evaluated_depsgraph_get()).data
            self.assertEqual(len(seen.polygons), 2 * 16)
            self.assertTrue(all(it.show_viewport for it in source.modifiers))
            self.assertEqual(len(bpy.data.meshes), 2)

    def test_what_looks_otherwise_carries_too(self):
        source = grid(8, 8)
        group = source.vertex_groups.new(name="across")
        for it in source.data.vertices:
            group.add([it.index], it.co.x / 16 + 0.25, "REPLACE")
        source.data.materials.append(bpy.data.materials.new("one"))
        source.shape_key_add(name="Basis")
        source.modifiers.new("fine", "SUBSURF").subdivision_type = "SIMPLE"
        remesh(**HALF, look="LOOK", replace=True)
        self.assertEqual(len(source.data.polygons), 64)
        for it, weights in zip(source.data.vertices, shapes.weights_at(source)):
            self.assertAlmostEqual(weights["across"], it.co.x / 16 + 0.25, places=4)
        self.assertEqual([it.name for it in source.data.materials], ["one"])
        self.assertTrue(any("shape keys (the mesh is taken as it looks)" in it for it in shapes.messages()))

    def test_modifiers_that_know_the_old_vertices_are_named(self):
        source = grid(8, 8)
        source.modifiers.new("Cloth", "CLOTH")
        child = grid(2, 2)
        child.name, child.parent, child.parent_type = "flag", source, "VERTEX"
        chosen(source)
        remesh(**HALF)
        self.assertTrue(any("to be bound or baked again: Cloth, flag" in it for it in shapes.messages()))

    def test_linked_duplicates_stay_linked(self):
        for replace in (False, True):
            shapes.empty_scene()
            source = grid(8, 8)
            twins = [bpy.data.objects.new(f"twin{it}", source.data) for it in range(2)]
            for at, it in enumerate(twins, 1):
                bpy.context.collection.objects.link(it)
                it.location = (0, 0, at)
                it.scale = (1, -1, 1)
            chosen(source, twins[0])
            remesh(**HALF, replace=replace)
            self.assertEqual(len(shapes.messages()), 1)
            if replace:
                self.assertEqual({it.data for it in (source, *twins)}, {source.data})
                self.assertEqual((source.data.name, len(source.data.polygons), source.data.users), ("grid", 16, 3))
                self.assertEqual(len(bpy.data.meshes), 1)
            else:
                new = bpy.context.selected_objects
                self.assertEqual((len(new), {len(it.data.polygons) for it in new}, new[0].data.users), (2, {16}, 2))
                self.assertEqual((len(twins[1].data.polygons), twins[1].hide_get()), (64, False))
                self.assertEqual(sorted(it.location.z for it in new), [0, 1])

    def test_materials_by_slot(self):
        source = grid(8, 8)
        for name in ("of the mesh", "also"):
            source.data.materials.append(bpy.data.materials.new(name))
        source.material_slots[1].link = "OBJECT"
        source.material_slots[1].material = bpy.data.materials.new("of the object")
        for replace in (False, True):
            chosen(source)
            remesh(**HALF, replace=replace)
            it = bpy.context.object
            self.assertEqual([(slot.link, slot.material.name) for slot in it.material_slots],
                             [("DATA", "of the mesh"), ("OBJECT", "of the object")])

    def test_a_parent_that_is_remeshed_too(self):
        parent, child = grid(8, 8), grid(4, 4)
        child.parent = parent
        child.matrix_parent_inverse = parent.matrix_world.inverted()
        chosen(child, parent)
        remesh(**HALF)
        new = {it.name: it for it in bpy.context.selected_objects}
        self.assertEqual(len(new), 2)
        self.assertEqual({it.parent in new.values() or it.parent is None for it in new.values()}, {True})

    def test_instances_show_the_new_object_alone(self):
        source, shower = grid(8, 8), bpy.data.objects.new("shower", None)
        many = bpy.data.collections.new("many")
        for it in list(source.users_collection):
            it.objects.unlink(source)
        many.objects.link(source)
        for it in (many, shower):
            (bpy.context.scene.collection.children if it == many else bpy.context.scene.collection.objects).link(it)
        shower.instance_type, shower.instance_collection = "COLLECTION", many
        bpy.context.view_layer.update()
        chosen(source)
        remesh(**HALF)
        instances = bpy.context.evaluated_depsgraph_get().object_instances
        self.assertEqual([it.object.name for it in instances if it.is_instance], ["grid quadq"])

    def test_several_objects_in_one_undo_step(self):
        names = [grid(8, 8).name, suzanne(1).name]
        bpy.ops.ed.undo_push(message="before")
        chosen(*(bpy.data.objects[it] for it in names))
        bpy.ops.ed.undo_push(message="chosen")
        counts = [len(bpy.data.objects[it].data.polygons) for it in names]
        bpy.ops.object.quadq_remesh("EXEC_DEFAULT", True, **HALF, replace=True)
        self.assertNotEqual([len(bpy.data.objects[it].data.polygons) for it in names], counts)
        bpy.ops.ed.undo()
        self.assertEqual([len(bpy.data.objects[it].data.polygons) for it in names], counts)
        bpy.ops.ed.redo()
        self.assertEqual(len(bpy.data.objects[names[0]].data.polygons), 16)

    def test_edit_mode_is_left_and_entered_again(self):
        one, other = grid(8, 8), grid(4, 4)
        chosen(one, other)
        bpy.ops.object.mode_set(mode="EDIT")
        remesh(**HALF, replace=True)
        self.assertEqual(bpy.context.mode, "EDIT_MESH")
        self.assertEqual(len(bpy.context.objects_in_mode), 2)
        bpy.ops.object.mode_set(mode="OBJECT")
        self.assertEqual([len(it.data.polygons) for it in (one, other)], [16, 4])

    def test_what_is_being_edited_counts(self):
        source = grid(8, 8)
        bpy.ops.object.mode_set(mode="EDIT")
        bpy.ops.mesh.select_all(action="SELECT")
        bpy.ops.mesh.subdivide(number_cuts=1)
        remesh(**HALF, replace=True)
        bpy.ops.object.mode_set(mode="OBJECT")
        self.assertEqual(len(source.data.polygons), 64)

    def test_other_modes_are_not_taken(self):
        grid(4, 4)
        bpy.ops.object.mode_set(mode="SCULPT")
        self.assertFalse(remesh.poll())
        bpy.ops.object.mode_set(mode="OBJECT")
        self.assertTrue(remesh.poll())

    def test_the_meshes_of_animations_keep_their_actions(self):
        source = shapes.body()
        key = source.data.shape_keys
        key.key_blocks["up"].keyframe_insert("value", frame=1)
        remesh(**HALF, replace=True)
        self.assertEqual(source.data.shape_keys.animation_data.action, bpy.data.actions[0])
        self.assertNotEqual(source.data.shape_keys, key)
