"""What came of each file: a line of JSON as it ends, and a table of all."""

from __future__ import annotations

import csv
import io
import json
from dataclasses import dataclass, field, fields
from fractions import Fraction
from pathlib import Path
from typing import Any, Iterable, Mapping, Optional, Sequence

from .results import Report
from .settings import Settings

APART = ("jobs", "folder")
"""The settings that change no result."""
FACTS = (
    "faces_before", "faces_after", "command", "spacing", "scale", "edge", "parts", "arcs", "arcs_at_floor",
    "arcs_raised", "rounds", "deviation", "inverted_before", "inverted_after", "least_before", "least_after",
    "greatest_distance",
)
"""What is told of a remesh, in the order of the table."""
COLUMNS = (
    "file", "output", "status", "faces before", "faces after", "command", "spacing", "scale", "edge", "parts", "arcs",
    "arcs at the floor", "arcs whose floor rose", "rounds", "deviation", "inverted before", "inverted after",
    "least scaled Jacobian before", "least scaled Jacobian after", "greatest distance", "seconds", "said",
)
NOT_REACHED = "not reached"
AGAIN = "to be done again"


@dataclass(frozen=True)
class Row:
    """What came of a file."""

    source: str
    target: str
    status: Optional[int]
    """None where the work ended before it."""
    words: str
    """The refusal, or a summary."""
    settings: dict[str, Any] = field(default_factory=dict)
    program: str = ""
    """Checksums, by SHA-256: of the program, of what was read, and of what was written."""
    read: str = ""
    written: str = ""
    seconds: float = 0.0
    facts: dict[str, Any] = field(default_factory=dict)
    """The figures of a remesh, by the names of `FACTS`."""
    warnings: tuple[dict[str, Any], ...] = ()
    is_as_before: bool = False
    """Whether an earlier run has done it."""

    @property
    def is_good(self) -> bool:
        return self.status == 0

    def line(self) -> bytes:
        """A line of JSON."""
        told = {"input": self.source, "output": self.target, "status": self.status, "words": self.words,
                "settings": self.settings, "program_sha256": self.program, "input_sha256": self.read,
                "output_sha256": self.written, "seconds": round(self.seconds, 3), **self.facts,
                "warnings": list(self.warnings)}
        return json.dumps(told).encode() + b"\n"

    @staticmethod
    def of_line(line: bytes) -> Row:
        """The row of a line. Raises a `ValueError` where it is none."""
        try:
            told = json.loads(line)
            row = Row(told["input"], told["output"], told["status"], told["words"], told["settings"],
                      told["program_sha256"], told["input_sha256"], told["output_sha256"], told["seconds"],
                      {name: told[name] for name in FACTS if name in told}, tuple(told["warnings"]), True)
        except (KeyError, TypeError, RecursionError) as error:
            raise ValueError("this is no line of a log") from error
        if not row._is_told():
            raise ValueError("this is no line of a log")
        return row

    def _is_told(self) -> bool:
        """Whether all that JSON has brought is of the kinds that a row has."""
        warned = [it.get("words") if isinstance(it, dict) else None for it in self.warnings]
        texts = [self.source, self.target, self.words, self.program, self.read, self.written, *warned]
        counts = [self.facts.get(name, 0) for name in ("faces_before", "faces_after")]
        kinds: list[tuple[Iterable[object], set[type]]] = [
            (texts, {str}), ([self.status], {int, type(None)}), (counts, {int}), ([self.seconds], {int, float}),
            ([self.settings], {dict}), (self.facts.values(), {str, int, float, type(None)})]
        return all(type(it) in kind for some, kind in kinds for it in some)

    def cells(self) -> list[str]:
        """The row of the table."""
        values = [self.facts.get(name) for name in FACTS]
        said = "; ".join(it["words"] for it in self.warnings) if self.is_good else self.words
        return [self.source, self.target, "" if self.status is None else str(self.status),
                *("" if it is None else str(it) for it in values), f"{self.seconds:.2f}", said]


def settings_in_words(settings: Settings, files: Mapping[str, str] = {}) -> dict[str, Any]:
    """The settings on which a result depends, as JSON has them, with the checksums of the files that they name."""
    values = {it.name: getattr(settings, it.name) for it in fields(settings) if it.name not in APART}
    return {**{name: _plain(it) for name, it in values.items()}, **({"files": dict(files)} if files else {})}


def _plain(value: Any) -> Any:
    if isinstance(value, Fraction):
        return f"{value.numerator}/{value.denominator}"
    if isinstance(value, tuple):
        return list(value)
    return value if value is None or isinstance(value, (bool, int, float, str)) else str(value)


def facts_of(report: Report) -> dict[str, Any]:
    """The figures of a remesh, by the names of `FACTS`."""
    before, after = report.before, report.after
    values = (before.faces, after.faces, report.command, report.spacing, _plain(report.scale), _plain(report.edge),
              report.parts, report.arcs, report.arcs_at_floor, report.arcs_raised, report.rounds, report.deviation,
              before.quality.inverted, after.quality.inverted, round(before.quality.least, 4),
              round(after.quality.least, 4), float(f"{report.greatest_distance:.6g}"))
    return dict(zip(FACTS, values))


def warnings_of(report: Report) -> tuple[dict[str, Any], ...]:
    return tuple({"kind": it.kind, "count": it.count, "words": it.words} for it in report.notices)


def table_of(rows: Sequence[Row]) -> bytes:
    """The table as CSV."""
    text = io.StringIO()
    writer = csv.writer(text)
    writer.writerow(COLUMNS)
    writer.writerows(it.cells() for it in rows)
    return text.getvalue().encode("utf-8", "surrogateescape")


def summary_of(rows: Sequence[Row]) -> str:
    """One line over all files."""
    good = [it for it in rows if it.is_good]
    before, after = (sum(it.facts.get(name, 0) for it in good) for name in ("faces_before", "faces_after"))
    left = sum(it.status is None for it in rows)
    again = sum(it.is_as_before for it in rows)
    refused = len(rows) - len(good) - left
    parts = [f"{len(good)} files remeshed", f"{refused} refused"]
    parts += [f"{left} not reached"] if left else []
    parts += [f"{again} of them as before"] if again else []
    return f"{', '.join(parts)}; faces {before} -> {after}"


def unreached(source: Path, target: Path, words: str = NOT_REACHED) -> Row:
    return Row(str(source), str(target), None, words)
