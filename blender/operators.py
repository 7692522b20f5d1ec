"""The operators: remesh, select what is meant, tell what came of it, and open the report."""

from __future__ import annotations

import contextlib
import pathlib
import tempfile
from typing import Any

import bpy
from bpy.props import BoolProperty, IntProperty

from . import again, bar, faults, objects
from .bar import Running
from .course import Course, program_inside
from .quadq import QuadqError, Result
from .quadq.report import result_page
from .seen import Seen
from .wishes import PROPERTIES, Wishes, draw_keep, draw_more, draw_wish
from .words import Message

TICK = 0.05
"""Seconds between two looks at the work."""
VIEW = ("MIDDLEMOUSE", "WHEELUPMOUSE", "WHEELDOWNMOUSE", "TRACKPADPAN", "TRACKPADZOOM", "MOUSEROTATE", "MOUSEMOVE",
        "INBETWEEN_MOUSEMOVE", "NDOF_MOTION", "TIMER")
"""Events that turn and move the view, which stays alive."""
HIDDEN = {"HIDDEN", "SKIP_SAVE"}


class Last:
    """What came of the last remesh."""

    messages: list[Message] = []
    results: list[tuple[str, Result]] = []
    values: dict[str, Any] = {}


class OBJECT_OT_quadq_remesh(bpy.types.Operator):
    """Remesh the selected meshes into quads, with all that they carry"""

    bl_idname = "object.quadq_remesh"
    bl_label = "Quadq Remesh"
    bl_options = {"REGISTER", "UNDO"}
    __annotations__ = {
        **PROPERTIES,
        "asks": BoolProperty(default=True, options=HIDDEN),
        "more": BoolProperty(name="More", options=HIDDEN),
    }

    @classmethod
    def poll(cls, context: Any) -> bool:
        if Running.course is not None:
            cls.poll_message_set("a remesh is under way: Esc ends it")
        elif context.mode not in ("OBJECT", "EDIT_MESH"):
            cls.poll_message_set("go to object mode or edit mode")
        elif not objects.chosen(context):
            cls.poll_message_set("select a mesh object")
        else:
            return True
        return False

    def invoke(self, context: Any, _event: Any) -> set[str]:
        self.is_invoked = True
        if not self.asks:
            return self.execute(context)
        kept = context.scene.quadq
        self.given = {it for it in PROPERTIES if self.properties.is_property_set(it)}
        for name in PROPERTIES:
            if not self.properties.is_property_set(name) and kept.is_property_set(name):
                setattr(self, name, getattr(kept, name))
        self.seen = Seen.of(context)
        if not self.properties.is_property_set("faces"):
            self.faces = self.seen.half
        if "selected" not in self.given:
            # What a refusal has selected is no wish.
            self.selected = self.seen.selected is not None and not faults.is_shown(context)
        return set(context.window_manager.invoke_props_dialog(self, width=340))

    def draw(self, context: Any) -> None:
        layout = self.layout
        layout.use_property_split = True
        layout.use_property_decorate = False
        seen = getattr(self, "seen", None) or Seen.of(context)
        layout.label(text=seen.words(Wishes.of(self)), icon="MESH_GRID")
        if seen.selected is not None:
            layout.prop(self, "selected")
        draw_wish(layout, self)
        draw_keep(layout, self)
        if seen.others and not self.subdivide:
            layout.label(text=f"{seen.others:,} faces are no quads: turn on Subdivide", icon="ERROR")
        if seen.has_modifiers:
            layout.row().prop(self, "look", expand=True)
        layout.prop(self, "replace")
        layout.prop(self, "proof")
        row = layout.row()
        row.use_property_split = False
        row.alignment = "LEFT"
        row.prop(self, "more", icon="DISCLOSURE_TRI_DOWN" if self.more else "DISCLOSURE_TRI_RIGHT", emboss=False)
        if self.more:
            draw_more(layout, self)

    def execute(self, context: Any) -> set[str]:
        values = {name: getattr(self, name) for name in PROPERTIES}
        if not bpy.app.background and (self.options.is_repeat or self.options.is_repeat_last):
            again.begin(values, self.options.is_repeat)
            return {"CANCELLED"}
        in_background = getattr(self, "is_invoked", False) and not bpy.app.background
        self.is_invoked = False
        Last.values = values
        self.course = Course(Wishes.of(self), in_background)
        self.steps = self.course.steps(context)
        if not in_background:
            while self.goes_on():
                pass
            self.end(context)
            return {"FINISHED"}
        for name, value in values.items():
            setattr(context.scene.quadq, name, value)
        Running.course = self.course
        self.timer = context.window_manager.event_timer_add(TICK, window=context.window)
        context.window_manager.modal_handler_add(self)
        bar.show(context)
        return {"RUNNING_MODAL"}

    def modal(self, context: Any, event: Any) -> set[str]:
        if event.type == "ESC" and event.value == "PRESS":
            self.cancel(context)
            self.report({"INFO"}, "Quadq Remesh was ended, and nothing was changed")
            return {"CANCELLED"}
        if event.type == "TIMER":
            if not self.goes_on():
                self.end(context)
                if any(it.level != "INFO" for it in Last.messages):
                    bpy.ops.object.quadq_messages("INVOKE_DEFAULT")
                return {"FINISHED"}
            bar.show(context)
        return {"PASS_THROUGH"} if event.type in VIEW else {"RUNNING_MODAL"}

    def goes_on(self) -> bool:
        """Takes a step. Whether there are more."""
        try:
            return next(self.steps, self) is not self
        except Exception as error:
            words = f"{type(error).__name__}: {error}: please report this scene"
            self.course.messages.append(Message("ERROR", words))
            return False

    def cancel(self, context: Any) -> None:
        """Ends it with nothing changed. Blender does so too, where a file is opened or the window closed."""
        with contextlib.suppress(ReferenceError, RuntimeError):
            self.steps.close()
        self.stop(context)
        again.ended()

    def end(self, context: Any) -> None:
        """Says what came of it."""
        self.stop(context)
        Last.messages, Last.results = self.course.messages, self.course.results
        for it in Last.messages:
            self.report({it.level}, it.words)

    def stop(self, context: Any) -> None:
        if Running.course is not None:
            Running.course = None
            context.window_manager.event_timer_remove(self.timer)
            bar.hide(context)


class OBJECT_OT_quadq_messages(bpy.types.Operator):
    """Show what is to be said of the last remesh"""

    bl_idname = "object.quadq_messages"
    bl_label = "Quadq Remesh"

    @classmethod
    def poll(cls, _context: Any) -> bool:
        return bool(Last.messages)

    def invoke(self, context: Any, _event: Any) -> set[str]:
        return set(context.window_manager.invoke_props_dialog(self, width=480))

    def draw(self, _context: Any) -> None:
        for number, it in enumerate(Last.messages):
            column = self.layout.column(align=True)
            icons = {"INFO": "INFO", "WARNING": "ERROR", "ERROR": "CANCEL"}
            for at, line in enumerate(lines_of(it.words)):
                column.label(text=line, icon=icons[it.level] if not at else "BLANK1")
            for at, place in enumerate(it.places):
                button = column.operator(OBJECT_OT_quadq_select.bl_idname, text=place.words, icon="RESTRICT_SELECT_OFF")
                button.message, button.place = number, at
            if it.offers_subdivide:
                name = OBJECT_OT_quadq_remesh.bl_idname
                button = column.operator(name, text="Subdivide and Remesh", icon="MOD_SUBSURF")
                button.asks = False
                for name, value in Last.values.items():
                    setattr(button, name, value)
                button.subdivide = True

    def execute(self, _context: Any) -> set[str]:
        return {"FINISHED"}


class OBJECT_OT_quadq_select(bpy.types.Operator):
    """Select in edit mode what is meant"""

    bl_idname = "object.quadq_select"
    bl_label = "Select What Is Meant"
    bl_options = {"UNDO"}
    __annotations__ = {"message": IntProperty(options=HIDDEN), "place": IntProperty(options=HIDDEN)}

    def execute(self, context: Any) -> set[str]:
        told = [it.places for it in Last.messages]
        if not (0 <= self.message < len(told) and 0 <= self.place < len(told[self.message])):
            self.report({"WARNING"}, "there is nothing to select")
            return {"CANCELLED"}
        if not faults.show(context, told[self.message][self.place]):
            self.report({"WARNING"}, "the object is not there any more")
            return {"CANCELLED"}
        return {"FINISHED"}


class OBJECT_OT_quadq_report(bpy.types.Operator):
    """Open pages with both meshes of the last remesh, side by side, in the browser"""

    bl_idname = "object.quadq_report"
    bl_label = "Open Report"

    @classmethod
    def poll(cls, _context: Any) -> bool:
        return bool(Last.results)

    def execute(self, _context: Any) -> set[str]:
        try:
            folder = pathlib.Path(tempfile.mkdtemp(prefix="quadq-"))
            for number, (name, result) in enumerate(Last.results, 1):
                page = folder / f"report-{number}.html"
                page.write_text(result_page(name, result, program_inside(), "z"), encoding="utf-8")
                if not bpy.app.background:
                    bpy.ops.wm.url_open(url=page.as_uri())
                self.report({"INFO"}, f"the report is {page}")
        except (OSError, QuadqError) as error:
            self.report({"ERROR"}, str(error))
        return {"FINISHED"}


def lines_of(words: str, width: int = 80) -> list[str]:
    """Words in lines of about so many letters."""
    lines = [""]
    for it in words.split():
        if lines[-1] and len(lines[-1]) + len(it) > width:
            lines.append("")
        lines[-1] += f" {it}" if lines[-1] else it
    return lines


CLASSES = (OBJECT_OT_quadq_remesh, OBJECT_OT_quadq_messages, OBJECT_OT_quadq_select, OBJECT_OT_quadq_report)
