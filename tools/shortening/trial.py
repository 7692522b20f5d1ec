"""Tries other texts of declarations: each stands, under a name of its own, in a copy that `rt check` accepts or not."""

from __future__ import annotations

import re
import subprocess
from collections.abc import Iterator, Sequence
from contextlib import contextmanager
from dataclasses import dataclass, replace
from itertools import takewhile
from pathlib import Path

from shortening.lines import refilled
from shortening.terms import (
    TACTICS, WITH_FACTS, WORD, Call, Declaration, Right, Span, Terms, bound_in, declarations, heads_in
)

GIVEN = {"search": "rules", "grind": "arith"}
BOUNDS = {"search": " fits 100 steps 500000", "grind": " steps 250000"}
COMMON = "Rattle.std.proofs.Common"
MODULES = {"rules": COMMON, "arith": COMMON, "common_steps": "Rattle.std.proofs.lemmas.Grind"}
MOST_FACTS = 14
LEAST = 60
STATEMENT = re.compile(r"[≡≤≢<↔×⊎¬⊥]|^(Is|Are|Has|All|Holds)")
NO_LEMMA = TACTICS | {"arith", "rules", "common_steps", "refl", "absurd", "sym", "ap", "subst", "elim"}
BY_TACTIC = re.compile(r"\((omega|search|grind|cc|sym|rw|simp|subst|record|λ)|λ|refl$|_$")
ERROR = re.compile(r"^(?:\./)?(proofs/[^\s:]+\.antt):(\d+)\S* error: (.*)$", re.MULTILINE)
Error = tuple[Path, int, str]
LONE = re.compile(rf"(?<![^\s(\[{{])({'|'.join(sorted(WITH_FACTS))}) \(\s*([^\s(){{}},;]+),?\s*\)")
UNREAD = re.compile(r"expected|unexpected|this line|`=` cannot")


class NoVerdict(Exception):
    """What `rt check` said where it failed for another reason than the proofs, or `rt fmt` where it failed."""


@dataclass(frozen=True)
class Edit:
    """Another text for characters of a declaration: a tactic with these facts, `_`, or any other."""

    path: Path
    first: int
    start: int
    end: int
    facts: tuple[str, ...] | None
    tactic: str = "search"
    other: str | None = None

    @property
    def place(self) -> tuple[Path, int]:
        return self.path, self.first

    def has(self, other: Edit) -> bool:
        return self.place == other.place and self.start <= other.start and other.end <= self.end

    def text(self, is_bounded: bool = False) -> str:
        if self.other is not None:
            return self.other
        if self.facts is None:
            return "_"
        names = ", ".join((GIVEN[self.tactic], *self.facts))
        return f"{self.tactic} {f'({names})' if self.facts else names}{BOUNDS[self.tactic] if is_bounded else ''}"


def edited(text: str, edits: Sequence[Edit], is_bounded: bool = False) -> str:
    for it in sorted(edits, key=lambda it: -it.start):
        text = text[: it.start] + it.text(is_bounded) + text[it.end :]
    # What several facts leave of a list is no tuple.
    return LONE.sub(r"\1 \2", text)


def outermost(edits: Sequence[Edit]) -> list[Edit]:
    """Those of one declaration that stand in no other."""
    found: list[Edit] = []
    for it in sorted(edits, key=lambda it: (it.start, -it.end)):
        if not found or it.start >= found[-1].end:
            found.append(it)
    return found


def result_of(signature: str) -> str:
    """What a signature ends in, behind its last arrow outside of brackets."""
    depth = begin = 0
    for at, letter in enumerate(signature):
        depth += (letter in "({[") - (letter in ")}]")
        if letter == "→" and not depth:
            begin = at + 1
    return signature[begin:].strip()


def lemmas(root: Path) -> set[str]:
    """The names of lemmas and sets of lemmas, of the kit and of all crates."""
    kit = Path(subprocess.run(["rt", "doc"], capture_output=True, text=True, check=True).stdout.strip()).parent
    found: set[str] = set()
    for path in [*kit.glob("**/*.antt"), *root.glob("crates/*/*/**/*.antt")]:
        text = path.read_text(encoding="utf-8", errors="replace")
        found.update(re.findall(r"^\s*(?:pub )?ruleset (?:pub )?(\S+)", text, re.MULTILINE))
        for name, signature in re.findall(r"^\s*(?:pub )?(\S+) : (.*(?:\n +[^\s=].*)*)", text, re.MULTILINE):
            if STATEMENT.search(result_of(re.sub(r"\s+", " ", signature))):
                found.add(name)
    return found - NO_LEMMA


class File:
    """A file of proofs as it stood at first."""

    def __init__(self, path: Path, known: set[str]) -> None:
        self.path, self.text = path, path.read_text(encoding="utf-8")
        self.lines = self.text.split("\n")
        self.declarations = {it.first: it for it in declarations(self.lines)}
        imports = "\n".join(line for line in self.lines if line.startswith("use "))
        words = {word.rsplit(".", 1)[-1] for word in WORD.findall(imports)}
        names = words | {it.name for it in self.declarations.values()}
        self.scope, self.values = names & known, names - known | NO_LEMMA

    def terms(self) -> Iterator[tuple[Declaration, Right, Terms]]:
        """The right sides of the file's declarations."""
        for it in self.declarations.values():
            for right in it.rights():
                yield it, right, Terms(it.text[right.start : right.end]).read()

    def tactics(self) -> Iterator[tuple[Edit, Edit, Edit]]:
        """What may stand for each term of the file: what is tried first, and what where that fails."""
        for of, right, terms in self.terms():
            for span in terms.spans:
                facts = self.facts(of, right.left, terms, span)
                if facts is not None:
                    first = Edit(self.path, of.first, right.start + span.start, right.start + span.end, facts)
                    calls = self.calls(terms, span)
                    grind = replace(first, facts=("common_steps", *calls), tactic="grind")
                    yield first, grind, replace(first, facts=calls)

    def blanks(self) -> Iterator[Edit]:
        """Arguments of the file's calls, each as `_`."""
        for of, right, terms in self.terms():
            for call in terms.calls:
                for start, end in arguments_of(of, terms, call):
                    yield Edit(self.path, of.first, right.start + start, right.start + end, None)

    def facts(self, of: Declaration, left: str, terms: Terms, span: Span) -> tuple[str, ...] | None:
        """The lemmas that a term names and the calls of its own declaration, if a search may pay in its stead."""
        text = terms.text[span.start : span.end]
        if len(text) < LEAST and "\n" not in text or re.fullmatch(r"(search|omega|grind|cc)( \w+| \([^()]*\))?", text):
            return None
        near = (self.scope | set(of.names)) - set(WORD.findall(left)) - {of.name}
        named = [word for word in dict.fromkeys(WORD.findall(text)) if word in near and word not in NO_LEMMA]
        own = [
            re.sub(r"\s+", " ", terms.text[it.start : it.end])
            for it in terms.calls
            if it.name == of.name and span.start <= it.start and it.end <= span.end
        ]
        return (*named[:MOST_FACTS], *dict.fromkeys(own))

    def calls(self, terms: Terms, span: Span) -> tuple[str, ...]:
        """The calls in a term, each with its first arguments that name nothing which the term binds."""
        bound, found = bound_in(terms.text[span.start : span.end]), list[str]()
        for it in terms.calls:
            within = span.start <= it.start and it.end <= span.end
            if within and it.name not in self.values and it.name.split(".")[0] not in bound:
                texts = [re.sub(r"\s+", " ", terms.text[start:end]) for start, end in it.arguments]
                free = list(takewhile(lambda text: not BY_TACTIC.match(text) and not bound & heads_in(text), texts))
                found += [" ".join([it.name, *free])] if free or it.name in self.scope else []
        longest = [it for it in dict.fromkeys(found) if not any(other.startswith(f"{it} ") for other in found)]
        return tuple(longest[:MOST_FACTS])


def arguments_of(of: Declaration, terms: Terms, call: Call) -> Iterator[tuple[int, int]]:
    """The arguments of a call that others may determine."""
    for start, end in call.arguments if call.name != of.name else ():
        text = terms.text[start:end]
        if len(text) > 2 and text[0] not in "{[" and not BY_TACTIC.match(text):
            yield start, end


class Proofs:
    """The proofs of one crate, and what `rt check` says of other texts."""

    def __init__(self, crate: Path, paths: list[Path], known: set[str]) -> None:
        self.crate = crate
        self.files = {path: File(path, known) for path in paths}

    def declaration(self, place: tuple[Path, int]) -> Declaration:
        return self.files[place[0]].declarations[place[1]]

    def lines(self, edits: Sequence[Edit]) -> list[str]:
        """The lines of the declaration of these edits, with them."""
        of = self.declaration(edits[0].place)
        return refilled(of, edited(of.text, edits).split("\n"))

    def gain(self, edits: Sequence[Edit]) -> int:
        return len(self.declaration(edits[0].place).lines) - len(self.lines(edits)) if edits else 0

    def check(self) -> list[Error]:
        """Where `rt check` refuses the crate's proofs, and why."""
        ran = subprocess.run(["rt", "check"], cwd=self.crate, capture_output=True, text=True, check=False)
        said = ran.stdout + ran.stderr
        found = [(self.crate / path, int(line), why) for path, line, why in ERROR.findall(said)]
        if ran.returncode and not found:
            raise NoVerdict(said)
        return found

    def holding(self, tried: Sequence[Sequence[Edit]], is_bounded: bool = True) -> set[int]:
        """The numbers of those of these edits, each of one declaration, that are accepted."""
        todo, lost = set(range(len(tried))), set[int]()
        while todo:
            refused, unread = self.refused({number: tried[number] for number in sorted(todo)}, is_bounded)
            lost |= refused or unread
            todo = unread - lost
        return set(range(len(tried))) - lost

    @contextmanager
    def copied(self, paths: Sequence[Path]) -> Iterator[dict[Path, Path]]:
        """Where copies of these files stand: those of lemmas in modules of their own, which nothing above rests on."""
        library = self.crate / "proofs" / "Lib.antt"
        old = library.read_text(encoding="utf-8") if library.exists() else ""
        own = [path for path in paths if path.name != "Answers.antt"] if old else []
        to = {path: library.with_name(f"Tried{number}.antt") for number, path in enumerate(own)}
        try:
            if to:
                library.write_text("".join(f"mod {it.stem}\n" for it in to.values()) + old, encoding="utf-8")
            yield {path: to.get(path, path) for path in paths}
        finally:
            if to:
                library.write_text(old, encoding="utf-8")
            for path in paths:
                if path in to:
                    to[path].unlink(missing_ok=True)
                else:
                    path.write_text(self.files[path].text, encoding="utf-8")

    def refused(self, tried: dict[int, Sequence[Edit]], is_bounded: bool) -> tuple[set[int], set[int]]:
        """Those that are refused, and those in files that one of them made unreadable."""
        refused, unread = set[int](), set[int]()
        with self.copied(sorted({edits[0].path for edits in tried.values()})) as to:
            stands = {at: self.write_copies(path, at, tried, is_bounded) for path, at in to.items()}
            for path, line, why in self.check():
                refused.update(int(number) for number in re.findall(r"\btried(\d+)_", why))
                refused.update(number for at, number in stands.get(path, ()) if line in at)
                if UNREAD.match(why):
                    unread.update(number for _, number in stands.get(path, ()))
        return refused, unread

    def write_copies(
        self, path: Path, to: Path, tried: dict[int, Sequence[Edit]], is_bounded: bool
    ) -> list[tuple[range, int]]:
        """Writes a file with a copy of its declaration for each of the edits, and says on which lines each stands."""
        file, found, at = self.files[path], list[str](), 0
        stands: list[tuple[range, int]] = []
        mine = [(number, edits) for number, edits in tried.items() if edits[0].path == path]
        for number, edits in sorted(mine, key=lambda pair: pair[1][0].first):
            of = self.declaration(edits[0].place)
            found += file.lines[at : of.end]
            at = max(at, of.end)
            copy = renamed(of, edited(of.text, edits, is_bounded), f"tried{number}_{of.name}").split("\n")
            stands.append((range(len(found) + 1, len(found) + 1 + len(copy)), number))
            found += copy
        lines, shift = imported([*found, *file.lines[at:]])
        to.write_text("\n".join(lines), encoding="utf-8")
        return [(range(at.start + shift, at.stop + shift), number) for at, number in stands]


def renamed(of: Declaration, text: str, name: str) -> str:
    """The text of a declaration under another name, and private."""
    return re.sub(rf"(?<![^\s(\[{{,]){re.escape(of.name)}(?![^\s)\]}},;])", name, re.sub(r"^(\s*)pub ", r"\1", text))


def imported(lines: list[str]) -> tuple[list[str], int]:
    """The lines with imports of what calls of tactics name beside lemmas, and how many lines that puts before them."""
    found, shift = list(lines), 0
    for name, module in MODULES.items():
        named = re.compile(rf"(?<![^\s({{,.]){name}(?![^\s)}},])")
        uses = [line for line in found if line.startswith("use ")]
        text = [line for line in found if not line.startswith("use ") and not line.lstrip().startswith("--")]
        if any(map(named.search, uses)) or not any(map(named.search, text)):
            continue
        head = f"use {module}.{{"
        at = next((n for n, line in enumerate(found) if line.startswith(head) and len(line + name) < 119), None)
        if at is not None:
            found[at] = found[at].replace(head, f"{head}{name}, ", 1)
        else:
            first = next(n for n, line in enumerate(found) if not line.startswith("--"))
            found.insert(first, f"{head}{name}}}")
            shift += 1
    return found, shift
