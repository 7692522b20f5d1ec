"""The statuses and the lines on standard error: what the definitions of a run say, and the tables of the documents."""

from __future__ import annotations

import itertools
import pathlib
import re
from typing import Iterator

from documented.repository import MAN_PAGE, ROOT, Fault, line_at, plain

SPECS = ROOT / "crates/def_run/specs"
README = ROOT / "README.md"
PIECE = re.compile(r'codes "((?:[^"\\]|\\.)*)"')
# What stands for a number in a line, and for all that may come behind.
HOLE = "#"
REST = ".."


def equations(file: pathlib.Path) -> dict[str, list[tuple[str, str]]]:
    """The equations of each function of a file, as left and right sides without the function's name."""
    found: dict[str, list[tuple[str, str]]] = {}
    text = re.sub(r"^ *--[^\n]*", "", file.read_text(), flags=re.M)
    for name, left, right in re.findall(r"^(\w+)((?: [^\n=]*)?) =((?:[^\n]*\n(?: +[^\n]*\n)*))", text, re.M):
        found.setdefault(name, []).append((left.strip(), " ".join(right.split())))
    return found


def pieces_of(side: str) -> list[str]:
    """A right side, cut at each `++` that stands in no brackets."""
    pieces, depth, start = [], 0, 0
    for at, letter in enumerate(side):
        depth += {"(": 1, ")": -1}.get(letter, 0)
        if depth == 0 and side.startswith("++", at):
            pieces.append(side[start:at].strip())
            start = at + 2
    return [*pieces, side[start:].strip()]


def lines_of(side: str, texts: dict[str, list[tuple[str, str]]]) -> list[str]:
    """The lines that a right side stands for, with a sign for each number."""
    ways = []
    for piece in pieces_of(side):
        choice = re.fullmatch(r"\(if .* then (.*) else (.*)\)", piece)
        head = piece.split(" ")[0]
        if literal := PIECE.fullmatch(piece):
            ways.append([literal[1]])
        elif choice:
            ways.append([*lines_of(choice[1], texts), *lines_of(choice[2], texts)])
        elif piece == "[]":
            ways.append([""])
        elif head in texts:
            ways.append([it for _, right in texts[head] for it in lines_of(right, texts)])
        else:
            ways.append([HOLE])
    return ["".join(it) for it in itertools.product(*ways)]


def defined() -> dict[int, set[str]]:
    """The lines of each status, as the definitions have them."""
    texts = equations(SPECS / "ErrorLines.antt")
    reasons = {left.split()[1].strip("("): right for left, right in texts["reason_text"]}
    found: dict[int, set[str]] = {}
    for left, right in equations(SPECS / "Status.antt")["status_of"]:
        answer = left.strip("()").split()[0]
        lines = {it for it in lines_of(reasons[answer], texts) if not it.endswith(": ")}
        found.setdefault(int(right), set()).update(lines - {""})
    return found


def with_holes(line: str) -> str:
    """A line of a document: capital letters stand for numbers, and two points at the end for anything."""
    return re.sub(r"\b[A-Z]\b", HOLE, line)


def are_alike(said: str, line: str) -> bool:
    return line.startswith(said.removesuffix(REST)) if said.endswith(REST) else line == said


def told_by_readme() -> Iterator[tuple[int, int, list[str]]]:
    """The rows of the table: the line in the file, the status, and the lines on standard error."""
    for number, text in enumerate(README.read_text().splitlines(), 1):
        if row := re.fullmatch(r"\| (\d+) \|([^|]*)\| .* \|", text):
            yield number, int(row[1]), re.findall(r"`([^`]*)`", row[2])


def told_by_man_page() -> Iterator[tuple[int, int, list[str]]]:
    """The same of the man page: below each status its lines in bold."""
    page = plain(MAN_PAGE.read_text())
    for entry in re.finditer(r"^\.TP(?: 5)?\n(\d+)\n((?:\.B [^\n]*\n(?:\.br\n)?)*)", page, re.M):
        yield line_at(page, entry.start(1)), int(entry[1]), re.findall(r"^\.B (.*)$", entry[2], re.M)


def faults_of(file: pathlib.Path, rows: list[tuple[int, int, list[str]]]) -> Iterator[Fault]:
    wanted = defined()
    for number, status, said in rows:
        for line in said:
            if not any(are_alike(with_holes(line), it) for it in wanted.get(status, ())):
                yield Fault(file, number, f"no answer with the status {status} writes `{line}`")
    last = rows[-1][0] if rows else 1
    for status, lines in sorted(wanted.items()):
        told = [with_holes(line) for _, it, said in rows for line in said if it == status]
        if status not in {it for _, it, _ in rows}:
            yield Fault(file, last, f"the status {status} is missing")
        for line in sorted(lines):
            if not any(are_alike(it, line) for it in told):
                yield Fault(file, last, f"with the status {status} the line `{line}` is missing")
    for number, status, _ in rows:
        if status not in wanted:
            yield Fault(file, number, f"no answer has the status {status}")


def faults() -> Iterator[Fault]:
    yield from faults_of(README, list(told_by_readme()))
    yield from faults_of(MAN_PAGE, list(told_by_man_page()))
