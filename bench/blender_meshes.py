"""What Blender runs: makes meshes of quads from its primitives and modifiers, and writes each as NAME.obj into a
folder.

blender --background --factory-startup --python blender_meshes.py -- FOLDER
"""
import sys

import bpy

folder, = sys.argv[sys.argv.index("--") + 1 :]


def divided(levels, scheme):
    """Divides each face of the object in four, so many times."""
    modifier = bpy.context.active_object.modifiers.new("divided", "SUBSURF")
    modifier.subdivision_type = scheme
    modifier.levels = modifier.render_levels = levels
    bpy.ops.object.modifier_apply(modifier=modifier.name)


def ball():
    bpy.ops.mesh.primitive_cube_add()
    divided(5, "SIMPLE")
    modifier = bpy.context.active_object.modifiers.new("cast", "CAST")
    modifier.factor = 1.0
    bpy.ops.object.modifier_apply(modifier=modifier.name)


def monkey():
    bpy.ops.mesh.primitive_monkey_add()
    divided(2, "CATMULL_CLARK")


for make in (ball, monkey):
    bpy.ops.object.select_all(action="SELECT")
    bpy.ops.object.delete()
    make()
    bpy.ops.wm.obj_export(filepath=f"{folder}/{make.__name__}.obj", export_uv=False, export_normals=False,
                          export_materials=False, export_selected_objects=True)
