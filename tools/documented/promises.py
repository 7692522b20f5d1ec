"""The promises: each link names a public function or type, with the clauses or methods and the edits of its row."""

from __future__ import annotations

import functools
import pathlib
import re
from typing import Iterator, NamedTuple

from documented.repository import ROOT, Fault

PROMISES = ROOT / "docs/PROMISES.md"
LINK = re.compile(r"\[([^\]]*)\]\((\.\./crates/(\w+)/[\w/]*\.rt)\)")
WORD = re.compile(r"`([^`]*)`")
# The words behind a link, up to the next one: clauses of a function, or methods of a type.
BEHIND = re.compile(r":((?: ?,?(?: and)? `\w+`)+)")
EDIT = re.compile(r"`(?:(\w+)/must-fail|(\w+))`(?: of `(\w+)`)?")
EDITS = "wrong bodies that are refused"


class Code(NamedTuple):
    """A file of code: its text, its crate, and the texts of all files of that crate."""

    text: str
    crate: str
    whole: str


@functools.cache
def code_of(file: pathlib.Path, crate: str) -> Code:
    files = sorted((ROOT / "crates" / crate / "src").rglob("*.rt"))
    return Code(file.read_text(), crate, "\n".join(it.read_text() for it in files))


def function(text: str, name: str) -> str | None:
    """The heads of the functions with this name that others can call, up to their bodies: public, or of a trait."""
    traits = re.findall(r"^(?:pub trait|impl)\b[^\n{]*(?:\n[^\n{]*)?\{\n(?:[^}\n].*\n|\n)*", text, re.M)
    traits = [it for it in traits if re.match(r"pub trait|impl\b[^{]*\bfor\b", it)]
    heads = [re.search(rf"^( *)pub (?:const )?fn {name}\b(?:.*\n)*?\1(?:\{{|[^\n]*;$)", text, re.M)]
    heads += [re.search(rf"^( +)fn {name}\b(?:.*\n)*?\1?(?:\{{$|[^\n]*;$)", it, re.M) for it in traits]
    return "\n".join(it[0] for it in heads if it) or None


def is_type(text: str, name: str) -> bool:
    return bool(re.search(rf"^pub (?:struct|enum|trait) {name}\b", text, re.M))


@functools.cache
def fields() -> dict[str, set[str]]:
    """The public fields of each record that definitions have."""
    texts = "\n".join(it.read_text() for it in sorted(ROOT.glob("crates/*/specs/*.antt")))
    records = re.findall(r"^pub record (\w+)([^\n]*\n(?:[ ]+[^\n]*\n)*)", texts, re.M)
    return {name: set(re.findall(r"^  pub (\w+) :", body, re.M)) for name, body in records}


def clauses_of(head: str) -> set[str]:
    """The names of a function's clauses, and of the fields of each record that is a clause."""
    records = re.findall(r"ensures(?: \w+)? \{ (\w+)", head)
    return set(re.findall(r"ensures (\w+) \{", head)).union(*(fields().get(it, set()) for it in records))


def faults_of_link(name: str, behind: list[str], code: Code) -> Iterator[str]:
    """What a link says wrongly of a name and of the words behind it."""
    bare = name.rpartition("::")[2]
    head = function(code.text, bare)
    if is_type(code.text, bare):
        yield from (f"{bare} has no public `{it}`" for it in behind if not function(code.whole, it))
    elif head is None:
        yield f"`{name}` is no public function or type there"
    else:
        # (a trait's function has its clauses where the trait is declared)
        clauses = clauses_of(head + (function(code.whole, bare) or ""))
        yield from (f"`{name}` has no clause `{it}`" for it in behind if it not in clauses)


def faults_of_edits(cell: str, crates: list[str]) -> Iterator[str]:
    """The edits are those of the row's crates, or of the crate that is named with them."""
    for every, edit, named in EDIT.findall(cell):
        folders = [named or every] if named or every else crates
        pattern = f"{edit}.edit" if edit else "*.edit"
        if re.search(rf"of `{every or edit}`", cell):
            continue
        if not any(any((ROOT / "crates" / it / "must-fail").glob(pattern)) for it in folders):
            yield f"there is no edit {every or edit} in {' or '.join(folders)}"


def has_clause(name: str, behind: list[str], code: Code) -> bool:
    """Whether a call has a clause, or a method of a type: one of those behind it, where any are."""
    if is_type(code.text, name) and not behind:
        return "ensures" in code.whole
    return any("ensures" in (function(code.whole, it) or "") for it in ([name] if not behind else [name, *behind]))


def faults_of_row(cells: list[str], edits: int) -> Iterator[str]:
    """What a row says wrongly of the code."""
    crates: list[str] = []
    row = " | ".join(cells)
    shown = "each contract" in row
    for link in LINK.finditer(row):
        path, crate = PROMISES.parent / link[2], link[3]
        crates.append(crate)
        if not path.exists():
            continue
        behind = BEHIND.match(row, link.end())
        words = re.findall(r"`(\w+)`", behind[1]) if behind else []
        for name in WORD.findall(link[1]):
            yield from faults_of_link(name, words, code_of(path, crate))
            shown = shown or has_clause(name.rpartition("::")[2], words, code_of(path, crate))
    yield from faults_of_edits(cells[edits], crates or ["*"])
    # (no state stands in an item: all of a list is proved)
    if not shown and not "".join(cells[edits + 1 :]).startswith("tested"):
        yield "this is told as proved, and nothing that is linked has a clause"


def faults_in(text: str) -> Iterator[Fault]:
    """What the tables and the lists of a text say wrongly."""
    edits = 0
    for number, line in enumerate(text.splitlines(), 1):
        cells = [it.strip() for it in line.split("|")]
        found: Iterator[str] = iter(())
        if EDITS in cells:
            edits = cells.index(EDITS)
        elif line.startswith("- "):
            promise, _, refused = line.partition(" Refused: ")
            found = faults_of_row([promise, refused], 1)
        elif len(cells) > edits + 1 and not line.startswith("|---"):
            found = faults_of_row(cells, edits)
        yield from (Fault(PROMISES, number, it) for it in found)


def faults() -> Iterator[Fault]:
    yield from faults_in(PROMISES.read_text())
