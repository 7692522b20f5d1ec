"""What it means when the program, or this package before it, says no."""

from __future__ import annotations

import re
from typing import Any, Callable, Sequence

from .errors import QuadqError

SYNTAX, NOT_QUAD, LIMIT, READ_FAULT, WRITE_FAULT, MEMORY = 3, 4, 6, 12, 13, 14
"""The program's statuses for a text that is no OBJ text, for a mesh that has no quads, for one that is too large, for a
file that cannot be read and one that cannot be written, and for want of memory."""
STRANGE, TIMEOUT, CANNOT_RUN = 70, 124, 126
"""Those of this package: what the program wrote, or a worker did, is nothing that it may; the time is over; the program
cannot be run."""
ADVICE = {
    7: "The mesh is no manifold there: mend it at this place.",
    9: "No other scale helps: cut the part into smaller ones.",
    10: "Take a smaller scale.",
    11: "Take the floor auto or 3.",
}
FACE, VERTEX, OTHER = "face", "vertex", "other"
PLACES = (
    (re.compile(r"face (\d+): vertex (\d+) repeated"), (FACE, VERTEX)),
    (re.compile(r"edge (\d+) (\d+): faces (\d+) and (\d+)"), (VERTEX, VERTEX, FACE, FACE)),
    (re.compile(r"vertex (\d+): two fans"), (VERTEX,)),
    (re.compile(r"face (\d+): (\d+) corners"), (FACE, OTHER)),
    (re.compile(r"faces (\d+) and (\d+) .*"), (FACE, FACE)),
)
"""The lines that name places of a mesh, and what each of their numbers names, from 1."""


class Refusal(QuadqError):
    """Why a mesh is not remeshed: an exit status of the program, its line, and the place that the line names.

    The place is a list of faces, or of vertices, or of both, by their numbers in the mesh that was handed in, from 0.
    """

    def __init__(self, status: int, line: str, faces: Sequence[int] = (), vertices: Sequence[int] = ()) -> None:
        super().__init__(status, line)
        self.status = status
        self.line = line
        self.faces = tuple(faces)
        self.vertices = tuple(vertices)

    def __str__(self) -> str:
        advice = ADVICE.get(self.status)
        if self.status == NOT_QUAD and "corners" in self.line:
            more = f"{len(self.faces) - 1} more faces are no quads. " if len(self.faces) > 1 else ""
            advice = f"{more}Only quads can be remeshed: --subdivide divides every face into quads first."
        return f"{self.line}. {advice}" if advice else self.line

    def __reduce__(self) -> tuple[type[Refusal], tuple[int, str, tuple[int, ...], tuple[int, ...]]]:
        return type(self), (self.status, self.line, self.faces, self.vertices)

    def as_json(self) -> dict[str, Any]:
        """The same for `json.dumps`: faces and vertices count from 1, as in the words."""
        return {"status": self.status, "line": self.line, "words": str(self),
                "faces": [it + 1 for it in self.faces], "vertices": [it + 1 for it in self.vertices]}

    @staticmethod
    def told(status: int, line: str, face: Callable[[int], int], vertex: Callable[[int], int]) -> Refusal:
        """The refusal that a line of the program tells, with its places renumbered by the functions, from 0."""
        for pattern, kinds in PLACES:
            found = pattern.fullmatch(line)
            if found is None:
                continue
            numbers = [int(it) for it in found.groups()]
            moved = [
                face(it - 1) + 1 if kind == FACE else vertex(it - 1) + 1 if kind == VERTEX else it
                for it, kind in zip(numbers, kinds)
            ]
            replaced = iter(moved)
            return Refusal(
                status,
                re.sub(r"\d+", lambda _: str(next(replaced)), line),
                [it - 1 for it, kind in zip(moved, kinds) if kind == FACE],
                [it - 1 for it, kind in zip(moved, kinds) if kind == VERTEX],
            )
        return Refusal(status, line)
