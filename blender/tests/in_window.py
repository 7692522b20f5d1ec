"""Tries the add-on in a window, by events. Run by in_window.sh: blender --enable-event-simulate -P THIS -- ZIP FOLDER
"""

import os
import pathlib
import sys
import threading
import time
import traceback

import bpy

HERE = pathlib.Path(__file__).resolve().parent
sys.path.insert(0, str(HERE))
from in_blender import install  # noqa: E402

PICTURES = pathlib.Path(sys.argv[sys.argv.index("--") + 2])
MIDDLE = (430, 420)
PATIENCE = 300


class Gate:
    """Holds the work at a step, until it is let go."""

    step = None
    free = threading.Event()
    is_there = threading.Event()


def view():
    window = bpy.context.window_manager.windows[0]
    area = next(it for it in window.screen.areas if it.type == "VIEW_3D")
    region = next(it for it in area.regions if it.type == "WINDOW")
    return window, area, bpy.context.temp_override(window=window, area=area, region=region)


def in_view(work, *words, **wishes):
    _, _, override = view()
    with override:
        return work(*words, **wishes)


def event(kind, value="PRESS", at=MIDDLE):
    view()[0].event_simulate(type=kind, value=value, x=at[0], y=at[1])


def press(kind, at=MIDDLE):
    event(kind, "PRESS", at)
    event(kind, "RELEASE", at)


def picture(name):
    _, _, override = view()
    with override:
        bpy.ops.screen.screenshot(filepath=str(PICTURES / f"{name}.png"))


def state():
    import quadq_remesh.operators as operators
    return operators


def runs():
    return state().Running.course is not None


def hold(step):
    """Holds the work at a step."""
    Gate.step = step
    Gate.free.clear()
    Gate.is_there.clear()


def expect(is_so, words):
    if not is_so:
        raise AssertionError(words)
    print("window:", words, flush=True)


def suzanne(levels):
    for it in list(bpy.data.objects):
        bpy.data.objects.remove(it)
    bpy.ops.mesh.primitive_monkey_add()
    source = bpy.context.object
    if levels:
        source.modifiers.new("fine", "SUBSURF").levels = levels
        bpy.ops.object.modifier_apply(modifier="fine")
    bpy.ops.ed.undo_push(message="suzanne")


def counts():
    return [len(it.data.polygons) for it in bpy.context.view_layer.objects if it.type == "MESH" and not it.hide_get()]


def began(**wishes):
    """Opens the dialog, with these wishes."""
    event("MOUSEMOVE", "NOTHING")
    in_view(bpy.ops.object.quadq_remesh, "INVOKE_DEFAULT", **wishes)


def answered():
    """Presses Return until the dialog takes it, on a machine that may be slow."""
    state().Last.values = {}
    for _ in range(100):
        press("RET")
        yield 0.4
        if state().Last.values:
            return
    raise AssertionError("the dialog takes no answer")


def course():
    """What is done: yields how long to wait, or what has to be so before it goes on."""
    window, area, _ = view()
    in_view(suzanne, 2)
    area.spaces[0].show_region_ui = True
    yield 1.0
    for y in range(700, 300, -12):
        press("LEFTMOUSE", (area.x + area.width - 12, y))
        yield 0.05
        if Drawn.count:
            break
    expect(Drawn.count > 0, "the tab of the sidebar opens the panel")
    event("MOUSEMOVE", "NOTHING")
    yield 0.5
    picture("panel")

    began(faces=4000)
    yield 1.0
    picture("dialog")
    meshes = len(bpy.data.meshes)
    expect(counts() == [7872] and not runs(), "nothing runs before the dialog is answered")
    hold("carrying")
    yield from answered()
    yield Gate.is_there.is_set
    ticks, drawn_before = Ticks.count, Drawn.count
    for _ in range(10):
        yield 0.1
    picture("bar")
    expect(Ticks.count == ticks + 10 and Drawn.count > drawn_before, "the window lives while the work is done")
    expect(counts() == [7872], "nothing is changed before its end")
    press("ESC")
    yield lambda: not runs()
    expect(counts() == [7872] and len(bpy.data.meshes) == meshes, "Esc ends it in the midst, and nothing is changed")
    Gate.step = None
    Gate.free.set()
    yield 0.5

    began(faces=4000)
    yield 0.7
    yield from answered()
    Built.steps = 0
    yield lambda: not runs() and len(counts()) == 1 and counts() != [7872]
    first = counts()[0]
    expect(abs(first - 4000) < 400, f"{first} faces where 4000 were wished")
    expect(Built.steps > 2, f"the new mesh is built in {Built.steps} steps, between which the window has its turn")
    yield 0.5
    press("ESC")
    yield 0.5
    bpy.context.window_manager.operators[-1].faces = 3000
    in_view(bpy.ops.ed.undo_redo)
    yield lambda: not runs() and counts() not in ([7872], [first])
    second = counts()[0]
    expect(second < first, f"the redo panel makes it again in the background: {second} faces")
    yield 0.5
    press("ESC")
    yield 0.5
    in_view(bpy.ops.ed.undo)
    expect(counts() == [7872], "undo takes it back in one step")
    in_view(bpy.ops.ed.redo)
    expect(counts() == [second], "redo brings it again")

    in_view(suzanne, 2)
    bpy.context.tool_settings.mesh_select_mode = (False, False, True)
    in_view(bpy.ops.object.mode_set, mode="EDIT")
    in_view(bpy.ops.view3d.view_selected)
    in_view(bpy.ops.mesh.select_all, action="DESELECT")
    in_view(bpy.ops.object.mode_set, mode="OBJECT")
    for it in bpy.context.object.data.polygons:
        it.select = it.center.x > 0.8
    many = sum(it.select for it in bpy.context.object.data.polygons)
    in_view(bpy.ops.object.mode_set, mode="EDIT")
    began(wish="RATIO", ratio=3.0)
    yield 1.0
    picture("selection")
    yield from answered()
    yield lambda: not runs() and len(counts()) == 1 and counts() != [7872]
    expect(state().Last.values["selected"] and bpy.context.mode == "EDIT_MESH",
           f"in edit mode {many} selected faces alone are remeshed: {counts()[0]} in place of 7872")
    yield 0.7
    picture("selected")
    press("ESC")
    yield 0.5
    in_view(bpy.ops.object.mode_set, mode="OBJECT")

    in_view(suzanne, 0)
    began(faces=1500)
    yield 0.7
    picture("triangles")
    yield from answered()
    yield lambda: not runs() and bpy.context.mode == "EDIT_MESH"
    yield 1.0
    picture("refusal")
    expect(any("Turn on Subdivide" in it.words for it in state().Last.messages), "a refusal says what to do")
    press("ESC")
    yield 0.5
    bpy.context.window_manager.operators[-1].subdivide = True
    in_view(bpy.ops.ed.undo_redo)
    yield lambda: not runs() and counts() not in ([500], [])
    expect(all(len(it.vertices) == 4 for it in bpy.context.object.data.polygons),
           f"redo works after a refusal, with Subdivide: {counts()[0]} faces")
    yield 0.7
    picture("done")


class Ticks:
    """Looks at the window, as often as it lives."""

    count = 0
    until = 0.0
    waits = None
    steps = None


class Built:
    """In how many steps Blender's new mesh was built."""

    steps = 0


class Drawn:
    """How often the panel was drawn."""

    count = 0


def tick():
    Ticks.count += 1
    try:
        if Ticks.waits is not None and not Ticks.waits():
            if time.monotonic() > Ticks.until:
                raise AssertionError(f"waited for too long at {Ticks.waits}: {counts()}, {bpy.context.mode}, {runs()}")
            return 0.1
        wish = next(Ticks.steps)
        Ticks.waits = wish if callable(wish) else None
        Ticks.until = time.monotonic() + PATIENCE
        return 0.1 if callable(wish) else wish
    except StopIteration:
        print("window: done", flush=True)
        os._exit(0)
    except BaseException:
        traceback.print_exc()
        picture("failed")
        print("FAILED", flush=True)
        os._exit(1)


def held(tell):
    def wrapped(self, step, done, total):
        tell(self, step, done, total)
        if Gate.step is not None and step.startswith(Gate.step):
            Gate.is_there.set()
            Gate.free.wait(PATIENCE)
            tell(self, step, done, total)
    return wrapped


def in_steps(build):
    def wrapped(*words):
        for data in build(*words):
            Built.steps += 1
            yield data
    return wrapped


install()
import quadq_remesh.course as course_of  # noqa: E402
import quadq_remesh.panel as panel  # noqa: E402
import quadq_remesh.work as work  # noqa: E402

work.Work._tell = held(work.Work._tell)
course_of.built = in_steps(course_of.built)
drawn = panel.VIEW3D_PT_quadq.draw


def counted(self, context):
    Drawn.count += 1
    drawn(self, context)


panel.VIEW3D_PT_quadq.draw = counted
bpy.context.preferences.view.show_splash = False
Ticks.steps = course()
bpy.app.timers.register(tick, first_interval=1.0)
