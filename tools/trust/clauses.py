"""The clauses of the public functions and of the traits of a Rust file, and its ghost members."""

import re
from dataclasses import dataclass
from functools import cache

# A function's head, with its visibility and its name, or a sign that begins or ends something.
STEP = re.compile(r"(?:\bpub(\([^)]*\))?\s+)?(?:(?:const|unsafe|extern)\s+)*\bfn\s+(\w+)|[{};]")
SIGN = re.compile(r"[()\[\]{;]")
CLAUSE = re.compile(r"\b(?:requires|ensures)\*?(?:\s+(\w+))?\s*$")
MEMBER = re.compile(r"\bghost\s+(\w+)\s*(?::[^=]*)?=\s*$|\bghost\s+(\w+)\s*:\s*$")
TRAIT = re.compile(r"\bpub\s+trait\b|\bimpl\b.*\bfor\b", re.S)


@dataclass(frozen=True)
class Clause:
    """A clause: the function that has it, its own name where it has one, and where its text begins.

    A ghost member is a clause of no function, with the member's name.
    """

    function: str
    name: str
    start: int
    text: str


def end_of_block(text: str, start: int) -> int:
    """The place behind the brace that closes the one at the start."""
    depth = 0
    for found in re.finditer(r"[{}]", text[start:]):
        depth += 1 if found[0] == "{" else -1
        if depth == 0:
            return start + found.end()
    return len(text)


def clauses_of(text: str, start: int, function: str) -> tuple[list[Clause], int]:
    """The clauses of the function whose name ends at the start, and the place behind it."""
    clauses: list[Clause] = []
    depth, head, at = 0, start, start
    while found := SIGN.search(text, at):
        sign, at = found[0], found.end()
        depth += {"(": 1, "[": 1, ")": -1, "]": -1}.get(sign, 0)
        if depth:
            continue
        if sign == ";":
            return clauses, at
        if sign == "{":
            end = end_of_block(text, found.start())
            clause = CLAUSE.search(text[head : found.start()])
            if not clause:
                return clauses, end
            clauses.append(Clause(function, clause[1] or "", found.start(), text[found.start() : end]))
            head = at = end
    return clauses, len(text)


@cache
def public_clauses(text: str) -> tuple[Clause, ...]:
    """The clauses of public functions and of traits, and ghost members."""
    clauses: list[Clause] = []
    around: list[str] = []
    at, head = 0, 0
    while found := STEP.search(text, at):
        begin, at = found.start(), found.end()
        if found[2]:
            mine, at = clauses_of(text, at, found[2])
            if (found[0].startswith("pub") and not found[1]) or (around and TRAIT.search(around[-1])):
                clauses += mine
        elif found[0] == "{":
            member = MEMBER.search(text[head:begin])
            if member:
                at = end_of_block(text, begin)
                clauses.append(Clause("", member[1] or member[2], begin, text[begin:at]))
            else:
                around.append(text[head:begin])
        elif found[0] == "}":
            around = around[:-1]
        head = at
    return tuple(clauses)
