"""The files of a checkout: their text without comments, what they import, and the crates that they are in."""

import re
from collections.abc import Iterator
from dataclasses import dataclass
from pathlib import Path

# A name with its operator's places, as `◌+◌`, or an operator by itself.
WORD = re.compile(r"[\w◌][\w'◌-]*|[^\s\w(){},;.]+")
USE = re.compile(r"\b(?:ghost )?use (Rattle\.[\w.]+?)(?:\.\{([^}]*)\}| as (\w+))?;?(?=\s|$)")
RUST_USE = re.compile(r"\buse (def_\w+)::(?:\{([^}]*)\}|(\w+))\s*;")
IN_RUST = r'//[^\n]*|"(?:[^"\\]|\\.)*"|b?\'(?:[^\'\\\n]|\\[^\n])\''
IN_SPECS = r'--[^\n]*|"(?:[^"\\]|\\.)*"'
COMMENT = ("--", "//")


@dataclass(frozen=True)
class Import:
    """A name, as the file that imports it says it, and the path that it comes from."""

    name: str
    path: str


@dataclass(frozen=True)
class Source:
    """A file of a crate. In its text comments, strings and characters are blank, and in what it says comments alone;
    each other letter is in its place."""

    crate: str
    file: Path
    text: str
    said: str
    imports: tuple[Import, ...]

    @property
    def is_rust(self) -> bool:
        return self.file.suffix == ".rt"

    @property
    def module(self) -> str:
        """The path of its module within the folder of the crate that it is in, by dots; nothing for a root file."""
        parts = self.file.with_suffix("").parts[3:]
        return ".".join(parts) if parts != ("lib",) else ""

    def line(self, at: int) -> int:
        return self.text.count("\n", 0, at) + 1


def blanked(text: str, parts: str, only: tuple[str, ...] = ("",)) -> str:
    """The text with blanks in place of these parts, or only of those that begin so."""
    return re.sub(parts, lambda it: re.sub(r"[^\n]", " ", it[0]) if it[0].startswith(only) else it[0], text)


def bare(name: str) -> str:
    """The name as it is used: an operator without the places of its arguments."""
    return name.strip().strip("◌")


def imports_of(text: str) -> Iterator[Import]:
    for path, listed, alias in USE.findall(text):
        for item in filter(None, (it.strip() for it in listed.split(","))):
            said, _, renamed = item.partition(" as ")
            yield Import(bare(renamed or said), f"{path}.{said.strip()}")
        if not listed:
            yield Import(alias or path.rpartition(".")[2], path)


def rust_imports_of(text: str) -> Iterator[Import]:
    for crate, listed, single in RUST_USE.findall(text):
        for item in filter(None, (it.strip() for it in (listed or single).split(","))):
            said, _, renamed = item.partition(" as ")
            yield Import((renamed or said).strip(), f"{crate}::{said.strip()}")


def read(root: Path, file: Path) -> Source:
    whole, place = file.read_text(), file.relative_to(root)
    rust = file.suffix == ".rt"
    parts = IN_RUST if rust else IN_SPECS
    text, said = blanked(whole, parts), blanked(whole, parts, COMMENT)
    return Source(place.parts[1], place, text, said, (*imports_of(text), *(rust_imports_of(text) if rust else ())))


def crates_of(root: Path) -> list[str]:
    """The crates of crates.txt, in its order."""
    lines = (root / "crates.txt").read_text().splitlines()
    return [it.split(":")[0].split()[0] for it in (line.partition("#")[0] for line in lines) if ":" in it]


def is_trusted(crate: str) -> bool:
    return crate.startswith("def_")


def sources_of(root: Path, crate: str, folder: str) -> list[Source]:
    """The files of one of a crate's folders, `src` or `specs`, by name."""
    suffix = "rt" if folder == "src" else "antt"
    return [read(root, it) for it in sorted((root / "crates" / crate / folder).rglob(f"*.{suffix}"))]
