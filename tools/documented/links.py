"""Where the documents point to: relative links, the headings behind `#`, and paths in code."""

from __future__ import annotations

import pathlib
import re
from typing import Iterator

from documented.repository import ROOT, Fault, documents, line_at

LINK = re.compile(r"!?\[[^\]]*\]\(([^)\s]+)\)")
PATH = re.compile(r"`((?:crates|docs|tools|bench|examples|dist)/[\w./*-]*\w[\w./*-]*)`")
# What is there only when something was built, and what stands for any crate.
MADE = ("crates/NAME", "bench/build", "dist/")


def anchor_of(heading: str) -> str:
    return re.sub(r"[^\w\- ]", "", heading.strip().lower()).replace(" ", "-")


def anchors_of(file: pathlib.Path) -> set[str]:
    return {anchor_of(it) for it in re.findall(r"^#+ (.*)$", file.read_text(), re.M)}


def leads(file: pathlib.Path, link: str) -> bool:
    path, _, anchor = link.partition("#")
    target = (file.parent / path) if path else file
    return target.exists() and (not anchor or anchor in anchors_of(target))


def faults() -> Iterator[Fault]:
    for file in documents():
        text = file.read_text()
        for link in LINK.finditer(text):
            if not link[1].startswith(("http:", "https:", *MADE)) and not leads(file, link[1]):
                yield Fault(file, line_at(text, link.start()), f"the link leads nowhere: {link[1]}")
        for path in PATH.finditer(text):
            if not path[1].startswith(MADE) and not any(ROOT.glob(path[1].rstrip("/"))):
                yield Fault(file, line_at(text, path.start()), f"there is no {path[1]}")
