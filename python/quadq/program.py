"""The proved program: where it is, and how it is run."""

from __future__ import annotations

import os
import re
import shutil
import time
from dataclasses import dataclass, field, replace
from decimal import Decimal
from fractions import Fraction
from pathlib import Path
from typing import Optional, Sequence, Union

from .floors import certified_lengths
from .refusal import CANNOT_RUN, MEMORY, READ_FAULT, STRANGE, TIMEOUT, WRITE_FAULT, Refusal
from .running import Halt, refuse_time, run_program

LARGEST = 1000
"""The largest numerator and denominator of a scale."""


FIT = "fit"
"""The command that takes all wishes together."""
SIGNALLED = 128
"""From this status on a program was ended by a signal."""
UNANSWERED = (READ_FAULT, WRITE_FAULT, MEMORY, TIMEOUT, CANNOT_RUN)
"""By these, too, it has said neither yes nor no."""
AUTO = "auto"
RAISED = 3
"""The floor that never doubles an edge."""
USAGE = 2
"""The program's status for words that it does not know."""
DOUBLED = 11
"""The program's status where the new mesh would have an edge twice."""


SQUARE = b"v 0 0 0\nv 1 0 0\nv 1 1 0\nv 0 1 0\nf 1 2 3 4\n"
_TAKES: dict[tuple[Path, tuple[str, ...]], bool] = {}
"""Whether the program at a path takes a command with these words, and judges what comes of it."""


@dataclass(frozen=True)
class Wish:
    """What is asked of a remesh: the command, a scale of lengths, the length of an edge or wishes edge by edge, the
    least length of an arc, and how deviations count."""

    scale: Fraction = Fraction(1)
    floor: Union[int, str] = AUTO
    weight: str = "plain"
    command: str = "remesh"
    """remesh, crease, coarse, size, which takes an edge in place of scale and weight, or fit, which takes all."""
    edge: Optional[Decimal] = None
    keeps: bool = False
    """Of `fit`: whether the lines of the text stay."""
    is_merged: bool = False
    """Of `fit`: whether patches are merged."""
    has_lines: bool = False
    """Of `fit`: whether lengths are wished edge by edge, by `#w` lines of the text."""
    is_spaced: bool = False
    """Of `fit`: whether new points stand where they are wished, and not at equal parts of the old edges."""

    @property
    def spacing(self) -> str:
        """How new points stand along the arcs: `even` or `wished`."""
        return "wished" if self.is_spaced and self.command == FIT else "even"

    @property
    def is_scaled(self) -> bool:
        """Whether old lengths are wished, times the scale."""
        return self.edge is None and not self.has_lines

    def at_floor(self, floor: int) -> Wish:
        return replace(self, floor=floor)

    def as_fit(self) -> Wish:
        """The same as a wish of `fit`."""
        return replace(self, command=FIT, keeps=self.keeps or self.command == "crease",
                       is_merged=self.is_merged or self.command == "coarse")

    def words(self, floor: Union[int, str]) -> list[str]:
        if self.command == FIT:
            return self._words_of_fit(floor)
        if self.edge is not None:
            return [self.command, "--edge", f"{self.edge:.6f}", "--floor", str(floor)]
        scale = f"{self.scale.numerator}/{self.scale.denominator}"
        return [self.command, "--scale", scale, "--floor", str(floor), "--weight", self.weight]

    def _words_of_fit(self, floor: Union[int, str]) -> list[str]:
        aim = f"scale:{self.scale.numerator}/{self.scale.denominator}"
        if self.has_lines:
            aim = "lines"
        elif self.edge is not None:
            aim = f"edge:{self.edge:.6f}"
        return [FIT, "--keep", "lines" if self.keeps else "none", "--patches", "merged" if self.is_merged else "traced",
                "--aim", aim, "--floor", str(floor), "--weight", self.weight, "--spacing", self.spacing]

    def floors(self) -> list[int]:
        """The floors that are tried in place of `auto`, one after the other, where an edge would be there twice and the
        program raises none itself."""
        return [1, 2, RAISED] if self.command == FIT else [1, RAISED]


@dataclass(frozen=True)
class Verdict:
    """What was found of a text that a command wrote."""

    arcs: int
    faces: int
    deviation: Optional[int]
    """As `check` tells it; None where `map` judged the text."""


@dataclass(frozen=True)
class Program:
    """The program at a path. Each call runs it once, over texts in memory; each raises a `Refusal` where it says no."""

    path: Path = field(default_factory=lambda: find_program())
    until: Optional[float] = None
    """When each run has to be done, on the clock of `time.monotonic`."""
    halt: Optional[Halt] = None
    """What ends its runs from another thread."""

    def __post_init__(self) -> None:
        # A name without a folder would be looked for on the PATH, where another program may have it.
        object.__setattr__(self, "path", Path(os.path.abspath(self.path)))

    def within(self, seconds: Optional[float]) -> Program:
        """The same program, whose runs have so much time together from now on. Raises a `WishError` for no time."""
        refuse_time(seconds)
        return self if seconds is None else replace(self, until=time.monotonic() + seconds)

    def remesh(self, text: bytes, wish: Wish) -> bytes:
        """The mesh remeshed, with its certificate. The floor `auto` is 1, and where that doubles an edge a greater one:
        of the arcs along such edges in a `fit` with rounds, else of all arcs."""
        if wish.floor != AUTO or wish.command == "remesh" or self.is_by_need(wish):
            return self._run(wish.words(wish.floor), text)
        *floors, last = wish.floors()
        for floor in floors:
            try:
                return self._run(wish.words(floor), text)
            except Refusal as said:
                if said.status != DOUBLED:
                    raise
        return self._run(wish.words(last), text)

    def judge(self, old: bytes, new: bytes, wish: Wish) -> Verdict:
        """Judges what a command wrote for a text: with `check` where that knows the command, else with `map`."""
        if wish.command == "remesh" or (wish.command == FIT and wish.is_scaled and self.has_check()):
            return self.check(old, new)
        self.map(old, new)
        return Verdict(len(certified_lengths(new).lengths), len(re.findall(rb"^f ", new, re.M)), None)

    def check(self, old: bytes, new: bytes) -> Verdict:
        """Judges what `remesh` or `fit` wrote for a text, anew."""
        said = self._run(["check"], b"\n".join([old, new])).decode(errors="replace")
        found = re.match(r"accepted arcs (\d+) faces (\d+) deviation (\d+)\n", said)
        if found is None:
            raise Refusal(STRANGE, f"check said: {said.strip()[:80]}")
        return Verdict(*map(int, found.groups()))

    def map(self, old: bytes, new: bytes) -> bytes:
        """Where the vertices and faces lie of what a command wrote for a text. It is judged anew."""
        return self._run(["map"], b"\n".join([old, new]))

    def tidy(self, text: bytes) -> bytes:
        """The mesh in the plain form."""
        return self._run(["tidy"], text)

    def answer(self, words: Sequence[str], text: bytes) -> bytes:
        """What any command with its options writes for a text."""
        return self._run([*words], text)

    def commands(self) -> tuple[str, ...]:
        """The first words that the program knows: those that its usage line has, and `map` and `fit` where they are not
        taken for wrong words."""
        _, _, said = run_program(self.path, [], b"", self.until)
        asked, _, _ = run_program(self.path, ["map"], b"", self.until)
        known = [it.split()[0] for it in re.split(r" \| ", said.partition("usage: quadq ")[2]) if it.split()]
        known += ["map"] * (asked != USAGE) + [FIT] * self.has_fit()
        return tuple(dict.fromkeys(known))

    def has_fit(self) -> bool:
        """Whether it takes all wishes together, and judges what comes of that. It is asked once."""
        return self._takes(Wish(command=FIT).words(1))

    def has_spacing(self) -> bool:
        """Whether it puts new points where they are wished, and judges what comes of that. It is asked once."""
        return self._takes(Wish(command=FIT, is_spaced=True).words(1))

    def has_rounds(self) -> bool:
        """Whether its `fit` takes the floor `auto`, raises floors round after round along doubled edges alone, and is
        judged by `check`. It is asked once."""
        return self._takes(Wish(command=FIT).words(AUTO), "check")

    def has_check(self) -> bool:
        """Whether `check` judges what `fit` wrote. It is asked once."""
        return self.has_rounds() or self._takes(Wish(command=FIT).words(1), "check")

    def is_by_need(self, wish: Wish) -> bool:
        """Whether it raises the floors of a wish itself, and no others than it has to."""
        return wish.floor == AUTO and wish.command == FIT and self.has_rounds()

    def best(self, wish: Wish) -> Wish:
        """The same wish, as one of `fit` where floors may rise and rise there by need: that gives the same mesh where
        no edge is doubled, and else fewer faces."""
        return wish.as_fit() if wish.floor == AUTO and self.has_rounds() else wish

    def _takes(self, words: list[str], judge: str = "map") -> bool:
        """Whether it takes these words, and judges what comes of them. A program that says no is asked again: one that
        fails now and then must not decide for all that comes later."""
        key = self.path, (*words, judge)
        if key not in _TAKES:
            _TAKES[key] = self._says_yes(words, judge) or self._says_yes(words, judge)
        return _TAKES[key]

    def _says_yes(self, words: list[str], judge: str) -> bool:
        try:
            self._run([judge], b"\n".join([SQUARE, self._run(words, SQUARE)]))
        except Refusal as said:
            if said.status >= SIGNALLED or said.status in UNANSWERED:
                raise
            return False
        return True

    def _run(self, words: list[str], text: bytes) -> bytes:
        status, out, said = run_program(self.path, words, text, self.until, self.halt)
        if status == 0:
            return out
        line = said[len("quadq: "):] if said.startswith("quadq: ") else said
        raise Refusal(status, line or f"the program ended with status {status}, and said nothing")


def find_program() -> Path:
    """The program: that of the variable QUADQ, of this package, of the checkout around it, or on the PATH."""
    here = Path(__file__).resolve().parent
    root = here.parents[1]
    named: Optional[str] = os.environ.get("QUADQ")
    around = [here / "bin/quadq", root / "dist/quadq", root / "build/quadq", Path(shutil.which("quadq") or "")]
    for path in [Path(named)] if named else around:
        if path.is_file() and os.access(path, os.X_OK):
            return path
    if named:
        raise FileNotFoundError(f"QUADQ names {named}, which is no program")
    raise FileNotFoundError("the program quadq is not there: set QUADQ to its path")
