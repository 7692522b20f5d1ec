"""Object > Quadq Remesh: meshes of Blender remeshed by the proved program quadq, and checked.

The package `quadq` lies inside this folder, with the program; `tools/pack_blender` puts both there.
"""

from __future__ import annotations

import bpy
from bpy.props import PointerProperty

from . import bar, operators, panel

bl_info = {
    "name": "Quadq Remesh",
    "description": "Remeshes quad meshes with proved least lengths",
    "author": "the authors of quadq",
    "version": (1, 0, 0),
    "blender": (3, 4, 0),
    "location": "Object > Quadq Remesh, and the tab Quadq of the sidebar",
    "category": "Object",
}

CLASSES = (*operators.CLASSES, *panel.CLASSES)
MENUS = ("VIEW3D_MT_object", "VIEW3D_MT_edit_mesh")


def register() -> None:
    for it in CLASSES:
        bpy.utils.register_class(it)
    bpy.types.Scene.quadq = PointerProperty(type=panel.QUADQ_PG_wishes)
    bpy.types.WindowManager.quadq_part = bar.PART
    for name in MENUS:
        getattr(bpy.types, name).append(panel.draw_menu)


def unregister() -> None:
    for name in MENUS:
        getattr(bpy.types, name).remove(panel.draw_menu)
    del bpy.types.Scene.quadq
    del bpy.types.WindowManager.quadq_part
    operators.Last.messages, operators.Last.results = [], []
    for it in reversed(CLASSES):
        bpy.utils.unregister_class(it)
