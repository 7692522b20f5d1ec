"""The least lengths that arcs could have, as the certificates of a written text have them."""

from __future__ import annotations

import re
from dataclasses import dataclass
from typing import Sequence

import numpy as np

from .arrays import Array
from .refusal import STRANGE, Refusal

HEAD = re.compile(rb"#quadq 1 (?:\w+ scale \S+|size edge \S+|fit keep \S+ patches \S+ aim \S+) floor (\S+)")
"""The head line of a text that the program wrote, with its floor."""
ROUND = re.compile(rb"(?:^#r .*\n)+", re.M)
"""The lines that raise floors before another round."""


@dataclass(frozen=True)
class Certified:
    """What the last certificate of a written text is of."""

    lengths: Array
    """(arcs,) int64: the new length of each arc."""
    floors: Array
    """(arcs,) int64: the least length that each could have: with the floor `auto`, what that came to."""
    rounds: int = 1
    """How many certificates the text has: where floors rose, each round has its own."""

    @property
    def short(self) -> int:
        """How many arcs are at their floor."""
        return int(np.sum(self.lengths <= self.floors))


def certified_lengths(text: bytes) -> Certified:
    """The lengths of the arcs, and their floors, as the last certificate of a written text has them."""
    head = HEAD.match(text)
    if head is None:
        raise Refusal(STRANGE, "what the program wrote is no remesh")
    named, raised = text.rfind(b"\n#f "), text.rfind(b"\n#r ")
    lengths = np.array(re.findall(rb"^#x (\d+)$", text[max(named, raised, 0):], re.M), dtype=np.int64)
    if head[1] != b"auto":
        return Certified(lengths, np.full(len(lengths), int(head[1])))
    behind = text[named + 1:]
    floors = np.full(len(lengths), int(behind[:10].split()[1]))
    rises = np.array(re.findall(rb"^#r (\d+) (\d+)$", behind, re.M), dtype=np.int64).reshape(-1, 2)
    np.maximum.at(floors, rises[:, 0] - 1, rises[:, 1])
    return Certified(lengths, floors, text.count(b"\n#f ") + len(ROUND.findall(behind)))


@dataclass(frozen=True)
class Floors:
    """The least lengths that all arcs of a remesh could have, in numbers."""

    arcs: int = 0
    short: int = 0
    """How many arcs are at their floor."""
    raised: int = 0
    """How many have a greater floor than 1 though none was asked for, since an edge would be there twice."""
    greatest: int = 1
    """The greatest floor."""
    rounds: int = 1
    """How many certificates there are for a part, at most."""

    @property
    def in_words(self) -> str:
        """How many floors rose, how far, and in how many rounds; nothing where none did."""
        rounds = f", in {self.rounds} rounds" if self.rounds > 1 else ""
        return f"{self.raised} of {self.arcs}, to {self.greatest} at most{rounds}" if self.raised else ""

    @staticmethod
    def of(found: Sequence[Certified], is_auto: bool) -> Floors:
        """Those of the texts of all parts; `is_auto` says that no floor was asked for."""
        if not found:
            return Floors()
        floors = np.concatenate([it.floors for it in found])
        return Floors(len(floors), sum(it.short for it in found), int(np.sum(floors > 1)) if is_auto else 0,
                      int(floors.max(initial=1)), max(it.rounds for it in found))
