"""Where the trusted base is not what it is said to be: each place by its file and line."""

import re
from collections import defaultdict
from collections.abc import Iterator
from dataclasses import dataclass
from pathlib import Path

from trust.clauses import public_clauses
from trust.definitions import Base
from trust.sources import WORD, Source, bare, crates_of, is_trusted, sources_of

# A path of the prover's names: its crate and the rest. `specs.declared` are the types of the Rust code itself.
PATH = re.compile(r"Rattle\.(\w+)\.(?:specs|proofs)\.(?!declared\b)([\w.]+)")
ANY_PATH = re.compile(r"Rattle\.(\w+)[\w.]*\w")
# The ghost members that say what a type is seen as.
SEEN = ("Value", "view")


@dataclass(frozen=True, order=True)
class Fault:
    file: Path
    line: int
    words: str

    def __str__(self) -> str:
        return f"{self.file}:{self.line}: {self.words}"


def is_outside(path: str, own: set[str]) -> bool:
    """Whether the path leads to definitions of a crate of this repository that is no `def_` crate."""
    found = PATH.match(path)
    return bool(found) and found[1] in own and not is_trusted(found[1])


def citations(source: Source, own: set[str]) -> Iterator[Fault]:
    """A clause of a public call that cites a definition outside the trusted base."""
    names = {it.name: it.path for it in source.imports}
    for clause in public_clauses(source.text):
        if not clause.function and clause.name not in SEEN:
            continue
        named = [(it.start(), names.get(bare(it[0]), "")) for it in WORD.finditer(clause.text)]
        named += [(it.start(), it[0]) for it in PATH.finditer(clause.text)]
        for at, path in named:
            if is_outside(path, own):
                yield Fault(source.file, source.line(clause.start + at), f"a clause cites {shown(path)}")


def foreign_paths(source: Source, own: set[str]) -> Iterator[Fault]:
    """A definition of a `def_` crate that stands on another crate's."""
    for found in ANY_PATH.finditer(source.text):
        if found[1] in own and not is_trusted(found[1]):
            yield Fault(source.file, source.line(found.start()), f"a definition stands on {shown(found[0])}")


def names_twice(base: Base) -> Iterator[Fault]:
    """A name that two modules of `def_` crates define."""
    places: dict[str, list[tuple[Path, int]]] = defaultdict(list)
    for it in base.definitions:
        for name in {it.name, *it.constructors}:
            places[name].append((it.file, it.line))
    for name, found in places.items():
        first, *others = sorted(found)
        for file, line in others:
            yield Fault(file, line, f"{name} is defined in {first[0]}, too")


def prelude_names(base: Base, prelude: set[str]) -> Iterator[Fault]:
    for it in base.definitions:
        for name in sorted({it.name, *it.constructors} & prelude):
            yield Fault(it.file, it.line, f"{name} is a name of the prelude")


def two_paths(sources: list[Source]) -> Iterator[Fault]:
    """A name that these files of one crate import from two paths."""
    paths: dict[str, str] = {}
    for source in sources:
        for it in source.imports:
            if it.path.startswith("Rattle.") and paths.setdefault(it.name, it.path) != it.path:
                line = source.line(source.text.find(it.path.rpartition(".")[0]))
                words = f"{it.name} is {shown(it.path)} here, and {shown(paths[it.name])} elsewhere"
                yield Fault(source.file, line, words)


def shown(path: str) -> str:
    return path.removeprefix("Rattle.")


def faults_of(root: Path, base: Base, prelude: set[str]) -> list[Fault]:
    crates = crates_of(root)
    own = set(crates)
    found = [*names_twice(base), *prelude_names(base, prelude)]
    for crate in crates:
        code = sources_of(root, crate, "src")
        specs = sources_of(root, crate, "specs") if is_trusted(crate) else []
        found += two_paths([*specs, *code])
        found += [fault for it in code for fault in citations(it, own)]
        found += [fault for it in specs for fault in foreign_paths(it, own)]
    return sorted(set(found))
