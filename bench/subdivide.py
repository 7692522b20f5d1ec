"""What Blender runs: reads an OBJ file, divides each face in four by its simple scheme, and writes the new mesh.

blender --background --factory-startup --python subdivide.py -- IN.obj OUT.obj
"""
import sys

import bpy

source, target = sys.argv[sys.argv.index("--") + 1 :]
bpy.ops.object.select_all(action="SELECT")
bpy.ops.object.delete()
bpy.ops.wm.obj_import(filepath=source)
modifier = bpy.context.selected_objects[0].modifiers.new("simple", "SUBSURF")
modifier.subdivision_type = "SIMPLE"
modifier.levels = modifier.render_levels = 1
bpy.ops.wm.obj_export(
    filepath=target, export_uv=False, export_normals=False, export_materials=False, export_selected_objects=True
)
