"""Joins the lines of right sides and breaks them again, so that they take few lines of at most 120 columns."""

from __future__ import annotations

import re

from shortening.terms import Declaration, indent_of

COLUMNS = 120
NO_BREAK = re.compile(r"(λ( [^\s().]+)*| =| :| [∙≡≢+*≤<×→∷-]| ↦| at)$")
LONE_HEAD = re.compile(r"(^|[(∙,=≡] ?|\bin )[^\s()]+$")
ITEM = re.compile(r"\||let |--|where|module |open |abbrev |pub |unfolding |[)\]}]|[^\s(){};,\[\]]+ [=:] ")
OPEN_END = (" in", ";", ",", "[", "{", "(", "where")


def depth_of(text: str) -> int:
    return sum((letter in "([{") - (letter in ")]}") for letter in text)


def goes_on(line: str, next_line: str) -> bool:
    """Whether the next line goes on with a term of the line, and begins no part of its own."""
    text, behind = line.strip(), next_line.strip()
    if not text or not behind or ITEM.match(behind) or text.startswith("--"):
        return False
    return not text.endswith(OPEN_END) and not re.fullmatch(r"[\])};]+", text)


def in_text(before: str) -> bool:
    """Whether what stands before a place leaves a text literal open."""
    return re.sub(r"\\.", "", before).count('"') % 2 == 1


def breaks(text: str) -> int | None:
    """Where a line that is too long is best broken: outside of brackets, late, before an operator."""
    depth, best, score = 0, None, 0
    for at, letter in enumerate(text[: COLUMNS + 1]):
        depth += (letter in "([{") - (letter in ")]}")
        if letter != " " or at <= indent_of(text) + 15 or NO_BREAK.search(text[:at]) or in_text(text[:at]):
            continue
        here = depth * 30 - at - 12 * (text[at + 1 : at + 2] in "∙≡") + 18 * bool(LONE_HEAD.search(text[:at]))
        if best is None or here <= score:
            best, score = at, here
    return best


def broken(text: str, indent: int) -> list[str]:
    """The text in lines of which those behind the first are that far in."""
    lines = []
    while len(text) > COLUMNS:
        at = breaks(text)
        if at is None:
            break
        lines.append(text[:at].rstrip())
        text = " " * indent + text[at + 1 :]
    return [*lines, text]


def refolded(lines: list[str]) -> list[str]:
    """Runs of lines that go on with each other, each filled where that takes fewer, and wide lines broken."""
    found, at = [], 0
    while at < len(lines):
        end = at + 1
        while end < len(lines) and goes_on(lines[end - 1], lines[end]):
            end += 1
        line = lines[at]
        own = indent_of(line) + (0 if line.lstrip().startswith("let ") else 4)
        inner = indent_of(lines[at + 1]) if end > at + 1 else own
        new = broken(" ".join([line.rstrip(), *(it.strip() for it in lines[at + 1 : end])]), inner)
        is_wide = any(len(it) > COLUMNS for it in lines[at:end])
        found += new if is_wide or len(new) < end - at else lines[at:end]
        at = end
    return found


def closing_line(lines: list[str], at: int) -> int | None:
    """The line that closes the bracket at the end of another."""
    depth = 1
    for end in range(at + 1, len(lines)):
        for letter in lines[end]:
            depth += (letter in "([{") - (letter in ")]}")
            if depth == 0:
                return end
    return None


def in_one_line(lines: list[str], at: int, end: int) -> str:
    """A bracket over several lines as one line."""
    first, last = lines[at].rstrip(), lines[end].strip()
    inner = [line.strip() for line in lines[at + 1 : end]]
    if first.endswith("["):
        return f"{first} {' | '.join(line.removeprefix('| ') for line in inner)} {last}"
    gap = " " if first.endswith("{") else ""
    text = " ".join(inner if last[0] in ")}" else [*inner, last])
    return f"{first}{gap}{text.rstrip(',;')}{gap}{last}" if last[0] in ")}" else f"{first}{gap}{text}"


def is_plain(first: str, inner: list[str]) -> bool:
    """Whether what a bracket holds reads well in one line: no `let`, no comment, and branches of one line each."""
    if any("let " in line or line.lstrip().startswith("--") for line in inner):
        return False
    if first.rstrip().endswith("["):
        return all(line.lstrip().startswith("| ") and depth_of(line) == 0 for line in inner[:-1])
    return not any(line.lstrip().startswith("|") for line in inner)


def collapsed(lines: list[str]) -> list[str]:
    """Brackets over several lines that fit in one are put there."""
    found, at = list(lines), 0
    while at < len(found):
        end = closing_line(found, at) if found[at].rstrip().endswith(("(", "{", "[")) else None
        if end is not None:
            line = in_one_line(found, at, end)
            if len(line) <= COLUMNS and is_plain(found[at], found[at + 1 : end + 1]):
                found[at : end + 1] = [line]
                at = max(at - 1, 0)
                continue
        at += 1
    return found


def refilled(declaration: Declaration, lines: list[str]) -> list[str]:
    """The lines of a declaration with each clause in few lines."""
    found, at = [], 0
    while at < len(lines):
        end = at + 1
        if declaration.begins_clause(lines[at]):
            while end < len(lines) and not declaration.ends_clause(lines[end]):
                end += 1
            clause, before = lines[at:end], None
            while clause != before:
                before, clause = clause, refolded(collapsed(clause))
            is_wide = any(len(it) > COLUMNS for it in lines[at:end])
            found += clause if is_wide or len(clause) <= end - at else lines[at:end]
        else:
            found.append(lines[at])
        at = end
    return found
