"""The course of a remesh, from the selection to the new objects. Between two of its steps the window gets a turn."""

from __future__ import annotations

import os
import pathlib
import re
from contextlib import closing
from dataclasses import dataclass, field, replace
from typing import Any, Generator, Iterator, Optional

import bpy

from . import faults, objects
from .arrays import name_of
from .meshes import Made, Taken, built, taken
from .objects import Target
from .painted import painted
from .quadq import Result
from .quadq.arrays import Array
from .quadq.program import Program
from .wishes import Wishes
from .words import Message, fault_message, made_messages
from .work import Fault, Work

PROOFS = "quadq proofs"
"""The folder beside the .blend file."""


def program_inside() -> Program:
    """The program in this folder, which Blender unpacks without leave to run it; or the one that QUADQ names. Raises an
    `OSError`."""
    path = pathlib.Path(__file__).parent / "quadq/bin/quadq"
    if path.is_file() and not os.access(path, os.X_OK):
        path.chmod(0o755)
    return Program()


@dataclass
class Course:
    """One remesh of what is selected."""

    wishes: Wishes
    in_background: bool
    """Whether the work is done in a thread, between whose looks the window lives; else it is waited for."""
    messages: list[Message] = field(default_factory=list)
    results: list[tuple[str, Result]] = field(default_factory=list)
    work: Optional[Work] = None
    is_selection: bool = False
    """Whether selected faces alone are remeshed."""
    is_ended: bool = False
    """Whether it came to no end of its own, so that nothing is changed."""

    def steps(self, context: Any) -> Generator[None, None, None]:
        """All steps. What is closed before its end has changed nothing."""
        editing: list[Any] = []
        targets: list[Target] = []
        finished: list[tuple[Target, Made, Any]] = []
        try:
            if self.wishes.proof and not bpy.data.filepath:
                self.messages.append(Message("ERROR", "Write Proof needs a saved file: save the .blend file first"))
                return
            editing = objects.leave_edit_mode(context)
            targets = self._targets(context, editing)
            yield
            yield from self._worked(targets)
            for target, outcome in zip(targets, self.work.outcomes if self.work else ()):
                if isinstance(outcome, Made) and target.is_there:
                    yield from self._built(target, outcome, finished)
        except GeneratorExit:
            self.is_ended = True
            raise
        except Exception as error:
            self.is_ended = True
            self.messages.append(Message("ERROR", f"{type(error).__name__}: {error}: please report this scene"))
        finally:
            if self.work is not None:
                self.work.halt.now()
            self._end(context, targets, finished, editing)

    def _targets(self, context: Any, editing: list[Any]) -> list[Target]:
        """The meshes that are to be remeshed. Where selected faces alone are, those in edit mode that have some."""
        chosen = objects.chosen(context)
        self.is_selection = self.wishes.selected and bool(editing)
        if not self.is_selection:
            return objects.targets_of(chosen, self.wishes.look == "LOOK")
        found = [it for it in chosen if it in editing and objects.selected_faces(it.data).any()]
        if not found:
            self.messages.append(Message("ERROR", "no face is selected: select some, or turn off Selected Faces Alone"))
        if self.wishes.look == "LOOK" and any(map(objects.has_modifiers, found)):
            self.messages.append(Message("WARNING", "selected faces are those of the mesh as it is: modifiers are "
                                         "left, and work on the new mesh"))
        return objects.targets_of(found, False)

    def _worked(self, targets: list[Target]) -> Iterator[None]:
        """Reads the meshes and has the work done."""
        tasks: list[tuple[Taken, Wishes]] = []
        for it in targets:
            data = it.data if it.look is None else it.look
            one = taken(it.source, data, self.wishes.carry, it.look is not None)
            one = replace(one, painted=self._painted(it, data),
                          selected=objects.selected_faces(data) if self.is_selection else None)
            tasks.append((one.with_lines(self.wishes.kinds()), self._wishes_for(it, data)))
            yield
        try:
            self.work = Work(tasks, program_inside)
        except OSError as error:
            self.messages.append(Message("ERROR", str(error)))
            return
        if not self.in_background:
            self.work.run()
            return
        self.work.start()
        while self.work.is_alive():
            yield

    def _painted(self, target: Target, data: Any) -> Optional[Array]:
        """What is painted under the name that is wished, if one is."""
        name = self.wishes.density
        found = painted(target.source, data, name) if name else None
        if name and found is None:
            self.messages.append(Message("WARNING", f"{target.name}: there is no vertex group or colour attribute "
                                         f"{name}, so nothing says where faces are to be denser"))
        return found

    def _wishes_for(self, target: Target, data: Any) -> Wishes:
        size = abs(target.source.matrix_world.determinant()) ** (1 / 3)
        folder = None
        if self.wishes.proof:
            safe = re.sub(r"[^\w .-]", "_", target.name).strip(" .") or "object"
            folder = pathlib.Path(bpy.path.abspath("//")) / PROOFS / safe
        return replace(self.wishes, size=size or 1.0, folder=folder)

    def _built(self, target: Target, made: Made, finished: list[tuple[Target, Made, Any]]) -> Iterator[None]:
        with closing(built(target.data, made)) as steps:
            for data in steps:
                if data is not None:
                    if target.look is not None:
                        _take_materials(target.look, data)
                    finished.append((target, made, data))
                yield

    def _end(self, context: Any, targets: list[Target], finished: list[tuple[Target, Made, Any]],
             editing: list[Any]) -> None:
        """Puts the new meshes where they belong, says what came of all, and leaves the selection as it is to be."""
        new: list[Any] = []
        if self.is_ended:
            for _, _, data in finished:
                objects.remove_mesh(data)
        else:
            for target, outcome in zip(targets, self.work.outcomes if self.work is not None else ()):
                if isinstance(outcome, Fault):
                    self.messages.append(fault_message(target.name, outcome, target.look is not None))
            new = self._put(context, finished)
        for it in targets:
            it.remove_look()
        places = [place for it in self.messages if it.level == "ERROR" for place in it.places]
        if places:
            faults.show(context, places[0])
        elif new or editing:
            objects.select(context, new or editing, bool(editing))

    def _put(self, context: Any, finished: list[tuple[Target, Made, Any]]) -> list[Any]:
        """The objects that have the new meshes."""
        new: list[Any] = []
        pairs: dict[Any, Any] = {}
        for target, made, data in finished:
            old_name = "" if self.wishes.replace else target.name
            old = list(target.objects)
            if self.wishes.replace and target.data.library is not None:
                self.messages.append(Message("ERROR", f"{target.name}: its mesh is linked from another file: turn off "
                                             "Replace, or make it local with Object > Relations > Make Local"))
                objects.remove_mesh(data)
                continue
            objects_of = objects.put(context, target, data, self.wishes.replace)
            pairs.update(zip(old, objects_of) if not self.wishes.replace else ())
            new += objects_of
            self.results.append((target.name if self.wishes.replace else old_name, made.result))
            self.messages += made_messages(name_of(objects_of[0]), old_name, made)
            bound = objects.bound_to(old[0])
            if bound:
                self.messages.append(Message("WARNING", f"{name_of(objects_of[0])}: modifiers and children that know "
                                             f"the old vertices, to be bound or baked again: {', '.join(bound)}"))
        objects.set_parents(pairs)
        return new


def _take_materials(look: Any, data: Any) -> None:
    """Gives a mesh the material slots that modifiers have made, where these are others."""
    if [it for it in look.materials] != [it for it in data.materials]:
        data.materials.clear()
        for it in look.materials:
            data.materials.append(it)
