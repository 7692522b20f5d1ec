"""The panel in the sidebar, and the menus."""

from __future__ import annotations

from typing import Any

import bpy

from .bar import Running, draw_running
from .operators import (Last, OBJECT_OT_quadq_messages, OBJECT_OT_quadq_remesh, OBJECT_OT_quadq_report)
from .objects import chosen, has_modifiers
from .wishes import PROPERTIES, draw_keep, draw_more, draw_wish


class QUADQ_PG_wishes(bpy.types.PropertyGroup):
    """The wishes that are kept with a scene"""

    __annotations__ = PROPERTIES


class VIEW3D_PT_quadq(bpy.types.Panel):
    """Wishes, and Remesh"""

    bl_idname = "VIEW3D_PT_quadq"
    bl_label = "Quadq Remesh"
    bl_space_type = "VIEW_3D"
    bl_region_type = "UI"
    bl_category = "Quadq"

    def draw(self, context: Any) -> None:
        layout, kept = self.layout, context.scene.quadq
        layout.use_property_split = True
        layout.use_property_decorate = False
        if Running.course is not None:
            draw_running(layout)
            return
        meshes = chosen(context)
        count = sum(len(it.polygons) for it in {one.data for one in meshes})
        layout.label(text=f"Faces: {count:,}" if meshes else "Select a mesh object", icon="MESH_GRID")
        if context.mode == "EDIT_MESH":
            layout.prop(kept, "selected")
        draw_wish(layout, kept, 2)
        draw_keep(layout, kept)
        if any(map(has_modifiers, meshes)):
            layout.prop(kept, "look")
        layout.prop(kept, "replace")
        layout.prop(kept, "proof")
        button = layout.operator(OBJECT_OT_quadq_remesh.bl_idname, text="Remesh", icon="MOD_REMESH")
        button.asks = False
        for name in PROPERTIES:
            setattr(button, name, getattr(kept, name))
        if Last.messages:
            layout.operator(OBJECT_OT_quadq_messages.bl_idname, text="Messages", icon="INFO")


class VIEW3D_PT_quadq_more(bpy.types.Panel):
    """What is seldom wished"""

    bl_idname = "VIEW3D_PT_quadq_more"
    bl_label = "More"
    bl_space_type = "VIEW_3D"
    bl_region_type = "UI"
    bl_category = "Quadq"
    bl_parent_id = "VIEW3D_PT_quadq"
    bl_options = {"DEFAULT_CLOSED"}

    def draw(self, context: Any) -> None:
        self.layout.use_property_split = True
        self.layout.use_property_decorate = False
        draw_more(self.layout, context.scene.quadq)


class OBJECT_MT_quadq(bpy.types.Menu):
    """What quadq does"""

    bl_idname = "OBJECT_MT_quadq"
    bl_label = "Quadq"

    def draw(self, _context: Any) -> None:
        self.layout.operator(OBJECT_OT_quadq_messages.bl_idname, text="Messages")
        self.layout.operator(OBJECT_OT_quadq_report.bl_idname)


CLASSES = (QUADQ_PG_wishes, VIEW3D_PT_quadq, VIEW3D_PT_quadq_more, OBJECT_MT_quadq)


def draw_menu(self: Any, _context: Any) -> None:
    self.layout.operator(OBJECT_OT_quadq_remesh.bl_idname, text="Quadq Remesh...")
    self.layout.menu(OBJECT_MT_quadq.bl_idname)
