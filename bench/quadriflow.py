"""What Blender runs: reads an OBJ file, remeshes it by QuadriFlow to about so many faces, and writes the new mesh.

blender --background --factory-startup --python quadriflow.py -- IN.obj OUT.obj FACES
"""
import sys

import bpy

source, target, faces = sys.argv[sys.argv.index("--") + 1 :]
bpy.ops.object.select_all(action="SELECT")
bpy.ops.object.delete()
bpy.ops.wm.obj_import(filepath=source)
bpy.context.view_layer.objects.active = bpy.context.selected_objects[0]
result = bpy.ops.object.quadriflow_remesh(mode="FACES", target_faces=int(faces))
if result != {"FINISHED"}:
    sys.exit(f"QuadriFlow: {result}")
bpy.ops.wm.obj_export(
    filepath=target, export_uv=False, export_normals=False, export_materials=False, export_selected_objects=True
)
