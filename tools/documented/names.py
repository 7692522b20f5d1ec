"""The definitions, laws and functions that documents name: they exist, and where a link points to a file, there."""

from __future__ import annotations

import functools
import pathlib
import re
from typing import Iterator

from documented.promises import PROMISES, fields
from documented.repository import ROOT, Fault, documents, line_at

COLUMNS = ("rests on", "where it stands")
LINK = re.compile(r"\[([^\]]*`[^\]]*)\]\(([\w./-]*crates/(\w+)/[\w/]*\.(?:rt|antt))\)")
NAME = re.compile(r"`(?:\w+::)*(\w+)`")
# What an item of a list rests on stands before its call, and what a paragraph does in brackets of its own.
IN_ITEMS = re.compile(r"((?:`\w+`(?:, | with )?)+), (?:in|by) \[|\(((?:`\w+`(?:, )?)+)\)")
DEFINITION = re.compile(r"^(?:abbrev )?pub (?:record |data )?(\w+)\b", re.M)
CODE = re.compile(
    r"^ *(?:ghost |pub(?:\(crate\))? )*(?:const |unsafe |extern \S+ )*(?:fn|struct|enum|trait|const|type|mod) (\w+)",
    re.M,
)
LEMMA = re.compile(r"^ *pub (\w+) :", re.M)
OF_STD = re.compile(r"Rattle\.std\w*\.[\w.]+\.\{([^}]*)\}")


@functools.cache
def names_of(file: pathlib.Path) -> set[str]:
    """What a file of definitions, of proofs or of code defines."""
    kind = CODE if file.suffix == ".rt" else LEMMA if "proofs" in file.parts else DEFINITION
    return set(kind.findall(file.read_text()))


@functools.cache
def defined() -> set[str]:
    """What the crates define for contracts, and what they take from std."""
    specs = [it.read_text() for it in sorted(ROOT.glob("crates/*/specs/**/*.antt"))]
    uses = [it.read_text() for it in sorted(ROOT.glob("crates/*/src/**/*.rt"))]
    own = {it for text in specs for it in DEFINITION.findall(text)}
    return own.union(*(re.findall(r"\w+", it) for text in [*specs, *uses] for it in OF_STD.findall(text)))


def faults_of_links(file: pathlib.Path, text: str) -> Iterator[Fault]:
    """Names in a link to a file that does not have them."""
    for link in LINK.finditer(text):
        target = file.parent / link[2]
        for name in NAME.findall(link[1]) if target.exists() else []:
            if name not in names_of(target) | {link[3]}:
                yield Fault(file, line_at(text, link.start()), f"`{name}` is not in {link[2]}")


def cells_of(text: str) -> Iterator[tuple[int, str, str]]:
    """The cells of the columns that name definitions: each with its line and the head of its column."""
    heads: list[str] = []
    for number, line in enumerate(text.splitlines(), 1):
        cells = [it.strip() for it in line.split("|")]
        heads = heads if len(cells) > 2 else []
        if not heads and len(cells) > 2:
            heads = cells
        yield from ((number, head, cell) for head, cell in zip(heads, cells) if head in COLUMNS and head != cell)


def faults_of_cells(file: pathlib.Path, text: str) -> Iterator[Fault]:
    """Names that promises rest on, or where a part of the headline stands, and that no definition has."""
    named = [(number, cell) for number, _, cell in cells_of(text)]
    if file.name == PROMISES.name:
        lines = [(number, line) for number, line in enumerate(text.splitlines(), 1) if not line.startswith("|")]
        named += [(number, it[1] or it[2]) for number, line in lines for it in IN_ITEMS.finditer(line)]
    known = defined().union(*fields().values())
    for number, cell in named:
        # (a crate may stand behind `of`)
        for name in NAME.findall(re.sub(r" of `\w+`", "", cell)):
            if name not in known:
                yield Fault(file, number, f"there is no definition `{name}`")


def faults() -> Iterator[Fault]:
    for file in documents():
        text = file.read_text()
        yield from faults_of_links(file, text)
        yield from faults_of_cells(file, text)
