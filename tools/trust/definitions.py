"""The definitions of the trusted base, and which others each of them rests on."""

import re
from collections.abc import Iterable, Iterator
from dataclasses import dataclass, field
from pathlib import Path

from trust.sources import Import, Source, crates_of, is_trusted, sources_of

HEAD = re.compile(r"(?m)^(?:abbrev (?:pub )?|pub (?:record|data) )([^\s:]+)")
ITEM = re.compile(r"(?m)^pub (?:const fn|const|static|struct|enum|type|trait|fn) (\w+)")
CONSTRUCTOR = re.compile(r"(?m)^\s+(?:pub )?(\w+) :")
FIELD = re.compile(r"(?m)^  pub (\w+) :")
# A word of a term, with the alias of a module in front where it has one.
TERM = re.compile(r"(?<![\w.'-])(?:(\w+)\.)?([\w][\w'-]*)")
BINDERS = re.compile(r"[({]([^(){}:]+) : |λ ([^.()]*)(?:\(([\w' ]+) :[^)]*\))?\.|\blet ([\w']+)")


@dataclass(frozen=True)
class Definition:
    """A definition of a `specs/` or an item of Rust code; `lines` counts those that are no comment and not empty, and
    `said` is its text with its strings, each white space as one blank."""

    crate: str
    file: Path
    name: str
    line: int
    lines: int
    text: str = field(repr=False, compare=False)
    said: str = field(repr=False, compare=False)
    constructors: tuple[str, ...] = field(default=(), compare=False)

    @property
    def is_item(self) -> bool:
        return self.file.suffix == ".rt"

    @property
    def fields(self) -> list[tuple[str, str]]:
        """The names of a record's fields, each with what the field says."""
        parts = FIELD.split(self.text)[1:] if self.text.startswith("pub record") else []
        return list(zip(parts[::2], parts[1::2]))


def definitions_in(source: Source) -> Iterator[Definition]:
    heads = list((ITEM if source.is_rust else HEAD).finditer(source.text))
    for head, following in zip(heads, [*heads[1:], None]):
        text = source.text[head.start() : following.start() if following else len(source.text)]
        if source.is_rust:
            text = text[: item_end(text)]
        lines = sum(1 for it in text.splitlines() if it.strip())
        data = text.startswith("pub data")
        constructors = tuple(CONSTRUCTOR.findall(text)) if data else ()
        said = " ".join(source.said[head.start() : head.start() + len(text)].split())
        yield Definition(source.crate, source.file, head[1], source.line(head.start()), lines, text, said, constructors)


def item_end(text: str) -> int:
    """Where a Rust item ends: behind its block, or behind its semicolon."""
    found = re.search(r"\n\}|;\n|\}\n", text)
    return found.end() if found else len(text)


@dataclass
class Base:
    """All definitions of the `def_` crates, by the paths under which files import them."""

    root: Path
    crates: list[str]
    sources: dict[Path, Source] = field(default_factory=dict)
    definitions: list[Definition] = field(default_factory=list)
    by_file: dict[Path, list[Definition]] = field(default_factory=dict)
    by_path: dict[str, Definition] = field(default_factory=dict)
    uses: dict[Definition, frozenset[Definition]] = field(default_factory=dict)

    def named(self, imports: Iterable[Import], source: Source | None = None) -> dict[str, Definition]:
        """What each name of a file means, by its imports and, for a file of the base, by its own definitions.

        A name within a module that is imported as a whole has the module's name in front.
        """
        names: dict[str, Definition] = {}
        for it in imports:
            if found := self.at(it.path):
                names[it.name] = found
            elif it.path.startswith("Rattle.def_"):
                within = [path for path in self.by_path if path.startswith(f"{it.path}.")]
                names |= {it.name + path.removeprefix(it.path): self.by_path[path] for path in within}
        own = self.by_file.get(source.file, []) if source else []
        if source and source.is_rust and is_trusted(source.crate):
            own = [it for file, found in self.by_file.items() if is_code_of(file, source.crate) for it in found]
        return names | {name: it for it in own for name in (it.name, *it.constructors)}

    def names_in(self, file: Path) -> dict[str, Definition]:
        source = self.sources[file]
        return self.named(source.imports, source)

    def at(self, path: str) -> Definition | None:
        """The definition that a path leads to: a definition, an item, a constant or a variant of an enum."""
        parts = path.split(".")
        for end in range(len(parts), 2, -1):
            if found := self.by_path.get(".".join(it for it in parts[:end] if it != "TheConstants")):
                return found
        return self.by_path.get(path)


def base_of(root: Path) -> Base:
    crates = crates_of(root)
    base = Base(root, [it for it in crates if is_trusted(it)])
    for crate in base.crates:
        for source in [*sources_of(root, crate, "specs"), *sources_of(root, crate, "src")]:
            base.sources[source.file] = source
            base.by_file[source.file] = list(definitions_in(source))
            base.definitions += base.by_file[source.file]
            for it in base.by_file[source.file]:
                base.by_path |= dict.fromkeys(paths_of(source, it), it)
    for file, found in base.by_file.items():
        names = base.names_in(file)
        for it in found:
            base.uses[it] = frozenset(words_in(it.text, names, it.name)) - {it}
    return base


def is_code_of(file: Path, crate: str) -> bool:
    return file.parts[1:3] == (crate, "src")


def paths_of(source: Source, it: Definition) -> list[str]:
    """The paths under which it is imported, in clauses and definitions and in Rust code."""
    within = f"{source.module}." if source.module else ""
    if source.is_rust:
        return [f"Rattle.{it.crate}.specs.declared.{within}{it.name}", f"{it.crate}::{it.name}"]
    return [f"Rattle.{it.crate}.specs.{within}{name}" for name in (it.name, *it.constructors)]


def words_in(text: str, names: dict[str, Definition], own: str = "") -> Iterator[Definition]:
    """The definitions that a term names. A name that the term binds means what it binds from there on."""
    for part in text.split(f"\n{own} ") if own else [text]:
        bound: dict[str, int] = {}
        for found in BINDERS.finditer(part):
            for name in " ".join(filter(None, found.groups())).split():
                bound.setdefault(name, found.start())
        for found in TERM.finditer(part):
            alias, name = found.groups()
            meant = (names.get(f"{alias}.{name}") or names.get(alias)) if alias else names.get(name)
            if meant and bound.get(alias or name, len(part)) > found.start():
                yield meant


def behind(base: Base, first: Iterable[Definition]) -> set[Definition]:
    """The definitions, all that they rest on, and all that these rest on."""
    found, waiting = set[Definition](), list(first)
    while waiting:
        it = waiting.pop()
        if it not in found:
            found.add(it)
            waiting += base.uses[it]
    return found
