"""The work of a remesh in a thread of its own: it reads and writes nothing of Blender's."""

from __future__ import annotations

import threading
from dataclasses import dataclass, replace
from typing import Callable, Optional, Union

import numpy as np

from .meshes import Made, Taken, made
from .quadq import Program, QuadqError, Refusal, Result, remesh
from .quadq.arrays import Array
from .quadq.patches import borders, paint
from .quadq.running import Halt
from .wishes import Wishes

STEPS = (("cutting", 0.0), ("bisecting", 0.05), ("remeshing", 0.4), ("checking", 0.5), ("relaxing", 0.6),
         ("carrying", 0.65), ("measuring", 0.85), ("", 1.0))
"""The steps of the package by their first words, and when each begins, as a part of the whole."""
IMAGE = "with its mirror image"
"""How the words of a refusal begin where two halves do not make one surface."""
ENDED = 130
"""The status of what was ended by Esc."""


@dataclass(frozen=True)
class Fault:
    """Why an object is not remeshed."""

    words: str
    refusal: Optional[Refusal] = None


Outcome = Union[Made, Fault]


class Work(threading.Thread):
    """One remesh after the other, of meshes that were taken."""

    def __init__(self, tasks: list[tuple[Taken, Wishes]], find: Callable[[], Program]) -> None:
        """`find` is called in the thread of the caller, and may raise a `FileNotFoundError`."""
        super().__init__(daemon=True)
        self.tasks = tasks
        self.halt = Halt()
        self.program = find()
        self.outcomes: list[Outcome] = []
        self.step = "reading"
        self.part = 0.0
        """How much is done, from 0 to 1."""

    def run(self) -> None:
        for task in self.tasks:
            self.outcomes.append(self._outcome(*task))

    def _outcome(self, old: Taken, wishes: Wishes) -> Outcome:
        try:
            program = Program(self.program.path, halt=self.halt)
            result = self._remeshed(old, wishes, program)
            it = made(old, result, wishes.axis)
            return replace(it, seams=_patch_borders(result, program)) if wishes.seams else it
        except Refusal as said:
            return Fault(said.line, said)
        except QuadqError as error:
            return Fault(str(error))
        except MemoryError:
            return Fault("the memory does not suffice: close other programs, or remesh the object in parts")
        except OSError as error:
            return Fault(": ".join(str(it) for it in (error.strerror or error, error.filename) if it))
        except Exception as error:
            return Fault(f"{type(error).__name__}: {error}: please report this object")

    def _remeshed(self, old: Taken, wishes: Wishes, program: Program) -> Result:
        """The remesh. Where a symmetry that is there would open at its plane, the whole is remeshed."""
        try:
            return remesh(old.mesh, program=program, carry=True, rescale=True, tell=self._tell,
                          **wishes.for_package(old))
        except Refusal as said:
            if wishes.mirror != "AUTO" or IMAGE not in said.line:
                raise
            return self._remeshed(old, replace(wishes, mirror="NONE"), program)

    def _tell(self, step: str, done: int, total: int) -> None:
        if self.halt.is_over:
            raise Refusal(ENDED, "ended by Esc")
        starts = [at for at, (word, _) in enumerate(STEPS[:-1]) if step.startswith(word)]
        low, high = (STEPS[starts[0]][1], STEPS[starts[0] + 1][1]) if starts else (0.0, 0.0)
        within = low + (high - low) * done / max(total, 1)
        many = len(self.tasks)
        self.part = max(self.part, (len(self.outcomes) + within) / max(many, 1))
        self.step = step if many == 1 else f"{step} ({len(self.outcomes) + 1} of {many})"


def _patch_borders(result: Result, program: Program) -> Array:
    """(edges,) bool: which edges of the new mesh lie between patches or at the boundary."""
    mesh = result.mesh
    found = np.zeros(len(mesh.edges.ends), dtype=bool)
    painted = paint(result.parts, result.written, program)
    found[mesh.edges.numbers_of(borders(mesh, painted.of_all(mesh)))] = True
    return found
