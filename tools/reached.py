"""Which lines of proofs goals of some functions lead to, by the names that they hold.

Files are read by paragraphs, lines with no blank one between them. Goals are the answers and the invariants of a
function, and the lemmas that its attribute names; examples and what definitions import count as goals too.
"""

from __future__ import annotations

import re
import subprocess
from collections.abc import Iterator
from dataclasses import dataclass
from pathlib import Path

from shortening.unneeded import PART

DECLARED = re.compile(rf"\s*(?:abbrev |record |data |ruleset )?(?:pub )?({PART.pattern})(?: :| \(| \{{)")
USE = re.compile(r"(?:pub |ghost )?use ")
FUNCTION = re.compile(r"\bfn (\w+)")
USING = re.compile(r"\busing\(([^)]*)\)(?:(?!\bfn ).)*\bfn (\w+)", re.DOTALL)
LEFT_OUT = ("use ", "mod ", "pub mod ")

Place = tuple[Path, int]


def functions_at(root: Path, revision: str) -> set[str]:
    """The names of the functions that the sources had at a revision."""
    words = ["git", "grep", "-hE", r"\bfn \w+", revision, "--", "crates/*/src/*.rt"]
    ran = subprocess.run(words, cwd=root, capture_output=True, text=True, check=True)
    return set(FUNCTION.findall(ran.stdout))


def parts(text: str) -> Iterator[str]:
    """What commas outside of braces part."""
    depth = begin = 0
    for at, letter in enumerate(text):
        depth += (letter == "{") - (letter == "}")
        if letter == "," and depth == 0:
            yield text[begin:at].strip()
            begin = at + 1
    yield text[begin:].strip()


def paths_in(use: str) -> Iterator[str]:
    """Each path that a `use` names, with its braces written out."""
    head, brace, inner = use.partition("{")
    if not brace:
        yield use.split(" as ")[0]
    else:
        for part in parts(inner.rsplit("}", 1)[0]):
            yield from (head + path for path in paths_in(part))


def imports_in(text: str) -> Iterator[str]:
    """The path of each name that a file imports."""
    lines = iter(text.splitlines())
    for line in lines:
        if begin := USE.match(line):
            use = line[begin.end() :]
            while use.count("{") > use.count("}"):
                use += " " + next(lines).strip()
            yield from paths_in(use.rstrip(";"))


@dataclass
class Paragraph:
    """Lines of a file: what they declare, and the names in them outside of comments."""

    size: int
    declared: set[str]
    names: set[str]


def paragraphs(text: str) -> Iterator[Paragraph]:
    """The paragraphs of a file but for its imports."""
    lines = ["" if line.startswith(LEFT_OUT) else line for line in text.splitlines()]
    for block in re.split(r"\n{2,}", re.sub(r"^\s+$", "", "\n".join(lines), flags=re.MULTILINE)):
        own = block.strip("\n").split("\n")
        told = [line for line in own if not line.lstrip().startswith("--")]
        found = {match[1] for line in told if (match := DECLARED.match(line))}
        yield Paragraph(len(own), found, set(PART.findall("\n".join(told))))


class Proofs:
    """The proofs of all crates, and what of them is reached."""

    def __init__(self, root: Path) -> None:
        self.crates = root / "crates"
        self.texts = {path: path.read_text(encoding="utf-8") for path in self.crates.glob("*/proofs/**/*.antt")}
        self.paragraphs = {path: list(paragraphs(text)) for path, text in self.texts.items()}
        self.imports = {
            path: {name.rsplit(".", 1)[-1]: to for name in imports_in(text) if (to := self.file_of(name))}
            for path, text in self.texts.items()
        }
        self.places: dict[tuple[Path, str], list[Place]] = {}
        for path, own in self.paragraphs.items():
            for at, it in enumerate(own):
                for name in it.declared:
                    self.places.setdefault((path, name), []).append((path, at))
        self.reached: set[Place] = set()

    def file_of(self, name: str) -> Path | None:
        """The file of proofs in which an imported name stands, however deep in it."""
        words = name.split(".")
        if len(words) < 4 or words[0] != "Rattle" or words[2] != "proofs":
            return None
        ways = ("/".join(words[3:end]) for end in range(len(words), 3, -1))
        files = (self.crates / words[1] / "proofs" / f"{way}.antt" for way in ways)
        return next((path for path in files if path in self.texts), None)

    def goals(self, functions: set[str]) -> Iterator[Place]:
        """Where the proofs for these functions begin."""
        for path in self.texts:
            is_goal = path.stem in ("Answers", "Invariants") and path.parent.name in functions
            if is_goal or path.stem.endswith("Examples"):
                yield from ((path, at) for at in range(len(self.paragraphs[path])))
        named = [name for path in self.crates.glob("*/specs/**/*.antt") for name in imports_in(path.read_text("utf-8"))]
        for path in self.crates.glob("*/src/**/*.rt"):
            text, crate = path.read_text("utf-8"), path.relative_to(self.crates).parts[0]
            named += imports_in(text)
            lists = [match[1] for match in USING.finditer(text) if match[2] in functions]
            lemmas = [lemma.strip() for it in lists for lemma in it.split(",")]
            named += ["Rattle." + re.sub("^crate", crate, it).replace("::", ".") for it in lemmas]
        for name in named:
            if to := self.file_of(name):
                yield from self.places.get((to, name.rsplit(".", 1)[-1]), [])

    def reach(self, functions: set[str]) -> None:
        """Follows the names from these functions' goals through the files and their imports."""
        left = list(self.goals(functions))
        while left:
            place = left.pop()
            if place not in self.reached:
                self.reached.add(place)
                path, at = place
                for name in self.paragraphs[path][at].names:
                    left += self.places.get((path, name), [])
                    if to := self.imports[path].get(name):
                        left += self.places.get((to, name), [])

    def lines_beside(self, path: Path) -> int:
        """How many lines of a file are for none of the functions: what declares something and is not reached."""
        mine = [(it, (path, at) in self.reached) for at, it in enumerate(self.paragraphs[path]) if it.declared]
        names = set[str]().union(*(it.names for it, is_reached in mine if is_reached))
        if not names:
            return len(self.texts[path].splitlines())
        uses = [line for line in self.texts[path].splitlines() if line.startswith("use ")]
        unread = sum(1 for line in uses if not names & read_by(line))
        return unread + sum(it.size + 1 for it, is_reached in mine if not is_reached)


def read_by(use: str) -> set[str]:
    """The names that a `use` in one line gives, operators as they are written."""
    return {path.rsplit(".", 1)[-1].replace("◌", "") for path in imports_in(use)}


def lines_for(root: Path, functions: set[str]) -> int:
    """How many lines of proofs are for these functions."""
    proofs = Proofs(root)
    proofs.reach(functions)
    return sum(len(text.splitlines()) - proofs.lines_beside(path) for path, text in proofs.texts.items())
