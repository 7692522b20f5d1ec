"""What this package raises, under one base."""

from __future__ import annotations


class QuadqError(Exception):
    """The base of all that this package raises of its own."""


class FormatError(QuadqError, ValueError):
    """A text that is no OBJ text, with the status and the words of the program."""

    def __init__(self, status: int, line: str) -> None:
        super().__init__(line)
        self.status = status
        self.line = line

    def __reduce__(self) -> tuple[type[FormatError], tuple[int, str]]:
        return type(self), (self.status, self.line)


class WishError(QuadqError, ValueError):
    """Wishes that do not go together, or values that no wish may have."""


class MeshError(QuadqError, ValueError):
    """Arrays that are no mesh."""
