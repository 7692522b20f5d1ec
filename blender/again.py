"""A remesh once more with other wishes, from the redo panel or by Repeat Last: in the background, as the first was."""

from __future__ import annotations

from typing import Any

import bpy

LATER = 0.3
"""Seconds after the last change of a wish."""


class Waiting:
    """What is to be done when no wish has been changed for a while."""

    values: dict[str, Any] = {}
    is_undone = False
    """Whether the last step is undone before."""
    has_undone = False
    """Whether it was, and is done again where the new remesh is ended."""


def begin(values: dict[str, Any], is_redo: bool) -> None:
    """Does it a little later: Blender is in the midst of its own undo and redo now."""
    Waiting.values, Waiting.is_undone = values, is_redo
    if bpy.app.timers.is_registered(_go):
        bpy.app.timers.unregister(_go)
    bpy.app.timers.register(_go, first_interval=LATER)


def ended() -> None:
    """The remesh was ended: what it was to take the place of comes back."""
    if Waiting.has_undone:
        Waiting.has_undone = False
        bpy.app.timers.register(_redo, first_interval=0.0)


def _go() -> None:
    with _view():
        if Waiting.is_undone and bpy.ops.ed.undo.poll():
            bpy.ops.ed.undo()
        Waiting.has_undone = Waiting.is_undone
    with _view():
        if bpy.ops.object.quadq_remesh.poll():
            bpy.ops.object.quadq_remesh("INVOKE_DEFAULT", asks=False, **Waiting.values)


def _redo() -> None:
    with _view():
        if bpy.ops.ed.redo.poll():
            bpy.ops.ed.redo()


def _view() -> Any:
    """The context of a 3D view."""
    window = bpy.context.window or bpy.context.window_manager.windows[0]
    for area in window.screen.areas:
        for region in area.regions:
            if (area.type, region.type) == ("VIEW_3D", "WINDOW"):
                return bpy.context.temp_override(window=window, area=area, region=region)
    return bpy.context.temp_override(window=window)
