"""How far the work is, in the status bar and in the sidebar."""

from __future__ import annotations

from typing import Any, Optional

from bpy.props import FloatProperty

from .course import Course
from .versions import draw_bar

PART = FloatProperty(name="Done", min=0.0, max=100.0, subtype="PERCENTAGE", options={"SKIP_SAVE"})


class Running:
    """The course that is under way, if any."""

    course: Optional[Course] = None


def words_and_part() -> tuple[str, float]:
    """What is done now, and how much of the whole is done, from 0 to 1."""
    course = Running.course
    work = None if course is None else course.work
    return ("reading", 0.0) if work is None else (work.step, work.part) if work.is_alive() else ("making the mesh", 1.0)


def draw_running(layout: Any) -> None:
    """The bar, where a remesh is under way."""
    words, part = words_and_part()
    layout.use_property_split = False
    draw_bar(layout, part, f"Quadq: {words}")
    layout.label(text="Esc ends it", icon="EVENT_ESC")


def show(context: Any) -> None:
    """Shows in the status bar and the sidebar how far it is."""
    context.window_manager.quadq_part = 100 * words_and_part()[1]
    context.workspace.status_text_set(lambda header, _context: draw_running(header.layout))
    for area in context.screen.areas:
        if area.type == "VIEW_3D":
            area.tag_redraw()


def hide(context: Any) -> None:
    """The status bar is Blender's again."""
    context.workspace.status_text_set(None)
    for area in context.screen.areas:
        area.tag_redraw()
