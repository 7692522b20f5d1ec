"""Reads files of proofs as far as it takes to find their declarations, the terms in these and the calls in those."""

from __future__ import annotations

import re
from collections.abc import Iterator
from dataclasses import dataclass, field

SIGNATURE = re.compile(r"(\s*)(?:pub )?([^\s(){};.,@\"«»\[\]|:=↦]+) : (.*)")
TOKEN = re.compile(r"--[^\n]*|[(){}\[\];,]|[^\s(){}\[\];,]+")
WORD = re.compile(r"[^\s(){};,@\"«»\[\]|]+")
CLOSING = {"(": ")", "{": "}", "[": "]"}
TACTICS = {"search", "grind", "omega", "simp", "cc", "assumption", "rw", "unfolding"}
WITH_FACTS = TACTICS - {"rw", "unfolding"}
OPERATORS = set("∙ = → ≡ + - * < ≤ ∷ ++ % / ^ : ↦ at ×".split())
NO_DECLARATION = ("--", "let ", "in ", "|", "use ", "open ")
BINDER = re.compile(r"[|\[] [^↦\[\]|]*↦|λ [^.]*\.(?=\s)|(?<!\S)let (\([^)]*\)|\S+)")


def indent_of(line: str) -> int:
    return len(line) - len(line.lstrip())


def heads_in(text: str) -> set[str]:
    """The names in a text, each without what stands behind its first dot."""
    return {word.split(".")[0] for word in WORD.findall(text)}


def bound_in(text: str) -> set[str]:
    """The names that a term binds, in branches, functions and `let`s, and those of their types."""
    return {name for match in BINDER.finditer(text) for name in heads_in(match.group())}


@dataclass(frozen=True)
class Span:
    """A term of a declaration: what it is to the term around it, and the characters that it takes."""

    kind: str
    start: int
    end: int


@dataclass(frozen=True)
class Call:
    """The application of a name: what it takes as a whole, and each argument."""

    name: str
    start: int
    end: int
    arguments: tuple[tuple[int, int], ...]


@dataclass(frozen=True)
class Right:
    """The right side of one clause: its characters in the declaration, and what stands left of it."""

    start: int
    end: int
    left: str


@dataclass
class Declaration:
    """A lemma or an answer, from its line `first` to before `end`; its clauses, on names of a `where` too, follow."""

    name: str
    first: int
    clauses: int
    lines: list[str]
    names: dict[str, int] = field(default_factory=dict)

    @property
    def end(self) -> int:
        return self.first + len(self.lines)

    @property
    def text(self) -> str:
        return "\n".join(self.lines)

    def is_signature(self, line: str) -> bool:
        match = SIGNATURE.fullmatch(line)
        return bool(match and match[2] in self.names and len(match[1]) == self.names[match[2]])

    def begins_clause(self, line: str) -> bool:
        words = line.split()
        return bool(words) and self.names.get(words[0]) == indent_of(line) and not SIGNATURE.fullmatch(line)

    def ends_clause(self, line: str) -> bool:
        text = line.strip()
        other = text in ("", "where") or text.startswith(("--", "module ", "open ", "abbrev ", "unfolding "))
        return other or self.begins_clause(line) or self.is_signature(line)

    def rights(self) -> Iterator[Right]:
        """The right sides without comments."""
        starts = [0]
        for line in self.lines:
            starts.append(starts[-1] + len(line) + 1)
        for first in range(self.clauses - self.first, len(self.lines)):
            if not self.begins_clause(self.lines[first]):
                continue
            end = first + 1
            while end < len(self.lines) and not self.ends_clause(self.lines[end]):
                end += 1
            clause = self.text[starts[first] : starts[end] - 1]
            at = Terms(clause).outside(0, {"="})
            if at is not None and "--" not in clause:
                text = re.sub(r"\swhere$", "", clause)
                yield Right(starts[first] + at + 1, starts[first] + len(text), clause[:at])


def names_below(lines: list[str], name: str, indent: int, clauses: int) -> dict[str, int]:
    """The declared name and those of a `where`, each with how far in it stands."""
    found = {name: indent}
    for line in lines[clauses:]:
        match = SIGNATURE.fullmatch(line)
        if match and len(match[1]) > indent and " = " not in line and not line.lstrip().startswith(NO_DECLARATION):
            found.setdefault(match[2], len(match[1]))
    return found


def last_line(lines: list[str], clauses: int, name: str, indent: int) -> int:
    """The line behind a declaration whose clauses begin there."""
    end = clauses
    while end < len(lines):
        text = lines[end].lstrip()
        same = indent_of(lines[end]) == indent and text.startswith((f"{name} ", ")", "]", "}"))
        if text and indent_of(lines[end]) <= indent and not same:
            break
        if not text:
            behind = next((n for n in range(end, len(lines)) if lines[n].strip()), len(lines))
            has_where = any(re.search(r"(^|\s)where$", line) for line in lines[clauses:end])
            if behind == len(lines) or indent_of(lines[behind]) <= indent or not has_where:
                break
        end += 1
    return end


def declarations(lines: list[str]) -> Iterator[Declaration]:
    """The declarations of a file whose clauses follow their signature."""
    at = 0
    while at < len(lines):
        match = SIGNATURE.fullmatch(lines[at])
        if not match or lines[at].lstrip().startswith(NO_DECLARATION):
            at += 1
            continue
        indent, name, clauses = len(match[1]), match[2], at + 1
        while clauses < len(lines) and lines[clauses].strip() and indent_of(lines[clauses]) > indent:
            clauses += 1
        end = last_line(lines, clauses, name, indent)
        if end > clauses and lines[clauses].lstrip().startswith((f"{name} ", "unfolding ")):
            own = lines[at:end]
            yield Declaration(name, at, clauses, own, names_below(own, name, indent, clauses - at))
        at = max(end, at + 1)


class Terms:
    """The terms and the calls in a text."""

    def __init__(self, text: str) -> None:
        self.text = text
        self.tokens = [(match.group(), match.start(), match.end()) for match in TOKEN.finditer(text)]
        self.partner: dict[int, int] = {}
        self.spans: list[Span] = []
        self.calls: list[Call] = []
        opened: list[int] = []
        for at, (word, _, _) in enumerate(self.tokens):
            if word in CLOSING:
                opened.append(at)
            elif word in (")", "}", "]") and opened:
                self.partner[opened.pop()] = at
        self.is_whole = not opened

    def word(self, at: int) -> str:
        return self.tokens[at][0]

    def behind(self, at: int) -> int:
        return self.partner.get(at, at) + 1

    def find(self, at: int, end: int, words: set[str]) -> int | None:
        """The first token of these outside of brackets."""
        while at < end and self.word(at) not in words:
            at = self.behind(at)
        return at if at < end else None

    def outside(self, at: int, words: set[str]) -> int | None:
        """The character at which the first token of these stands outside of brackets."""
        found = self.find(at, len(self.tokens), words) if self.is_whole else None
        return None if found is None else self.tokens[found][1]

    def pieces(self, at: int, end: int, separator: str) -> Iterator[tuple[int, int]]:
        """What separators that stand in no bracket and in no `let` part."""
        begin, depth = at, 0
        while at < end:
            depth += {"let": 1, "in": -1}.get(self.word(at), 0)
            if self.word(at) == separator and depth == 0:
                yield begin, at
                begin = at + 1
            at = self.behind(at)
        if begin < end:
            yield begin, end

    def read(self) -> Terms:
        if self.is_whole:
            self.term(0, len(self.tokens), "whole")
        return self

    def term(self, at: int, end: int, kind: str | None) -> None:
        """Notes the terms of a range: itself under that kind, and those in it."""
        if at >= end:
            return
        if kind:
            self.spans.append(Span(kind, self.tokens[at][1], self.tokens[end - 1][2]))
        first = self.word(at)
        if first == "let":
            self.let(at, end)
        elif first == "λ":
            body = next((n for n in range(at, end) if self.word(n).endswith(".")), end)
            self.term(body + 1, end, "body of a function")
        else:
            self.application(at, end)

    def end_of_let(self, at: int) -> int | None:
        """Where the `in` of a `let` stands."""
        depth, to = 0, at
        while to < len(self.tokens):
            depth += {"let": 1, "in": -1}.get(self.word(to), 0)
            if depth == 0:
                return to
            to = self.behind(to)
        return None

    def let(self, at: int, end: int) -> None:
        to = self.end_of_let(at)
        if to is None or to >= end:
            return
        equals = self.find(at + 1, to, {"="})
        if equals is not None:
            typed = self.find(at + 1, equals, {":"}) is not None
            self.term(equals + 1, to, "value of a let" if typed else None)
        self.term(to + 1, end, "body of a let")

    def application(self, at: int, end: int) -> None:
        self.note_calls(at, end)
        before = ""
        while at < end:
            word = self.word(at)
            if word in ("let", "λ"):
                return self.term(at, end, None)
            if word in CLOSING:
                self.bracket(at, before)
                before = ""
            else:
                before = word
            at = self.behind(at)
        return None

    def bracket(self, at: int, before: str) -> None:
        """The terms in a bracket, which what stands before it tells apart."""
        word, begin, end = self.word(at), at + 1, self.partner[at]
        if before in TACTICS:
            for piece in self.pieces(begin, end, ","):
                self.term(*piece, None)
        elif word == "{" and before == "record":
            for first, last in self.pieces(begin, end, ";"):
                self.term((self.find(first, last, {"="}) or last) + 1, last, "field")
        elif word == "[":
            for first, last in self.pieces(begin, end, "|"):
                self.term((self.find(first, last, {"↦"}) or last) + 1, last, "branch")
        elif word == "(":
            parts = list(self.pieces(begin, end, ","))
            for piece in parts:
                self.term(*piece, "part" if len(parts) > 1 else "argument")

    def note_calls(self, at: int, end: int) -> None:
        """The calls of one range outside of brackets."""
        while at < end and self.word(at) not in ("let", "λ"):
            head, at, arguments = at, self.behind(at), []
            while at < end and self.word(at) not in OPERATORS | {"let", "λ", ",", ";", "|"}:
                start, last = self.tokens[at][1], self.behind(at)
                while last < end and self.word(last)[0] == "." and self.tokens[last][1] == self.tokens[last - 1][2]:
                    last += 1
                arguments.append((start, self.tokens[last - 1][2]))
                at = last
            if arguments and self.word(head) not in CLOSING | dict.fromkeys(OPERATORS | TACTICS | {"record", "elim"}):
                self.calls.append(Call(self.word(head), self.tokens[head][1], arguments[-1][1], tuple(arguments)))
