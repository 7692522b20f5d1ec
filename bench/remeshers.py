"""What Blender runs: remeshes an OBJ file by QuadriFlow to about some numbers of faces, and by Decimate (un-subdivide)
some times, and writes quadriflow-N.obj and decimate-K.obj into a folder.

blender --background --factory-startup --python remeshers.py -- IN.obj FOLDER N,N,.. K,K,..
"""
import sys

import bpy

source, folder, counts, times = sys.argv[sys.argv.index("--") + 1 :]


def read():
    """The mesh of the file, alone and active."""
    bpy.ops.object.select_all(action="SELECT")
    bpy.ops.object.delete()
    bpy.ops.wm.obj_import(filepath=source)
    bpy.context.view_layer.objects.active = bpy.context.selected_objects[0]
    return bpy.context.active_object


def write(name):
    bpy.ops.wm.obj_export(filepath=f"{folder}/{name}.obj", export_uv=False, export_normals=False,
                          export_materials=False, export_selected_objects=True)


for iterations in map(int, times.split(",")):
    modifier = read().modifiers.new("decimate", "DECIMATE")
    modifier.decimate_type, modifier.iterations = "UNSUBDIV", iterations
    bpy.ops.object.modifier_apply(modifier=modifier.name)
    write(f"decimate-{iterations}")
for count in map(int, counts.split(",")):
    read()
    if bpy.ops.object.quadriflow_remesh(mode="FACES", target_faces=count) == {"FINISHED"}:
        write(f"quadriflow-{count}")
