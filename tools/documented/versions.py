"""The version: the file VERSION has it, and what cannot read that file says the same."""

from __future__ import annotations

import re
from typing import Iterator

from documented.repository import ROOT, Fault, line_at

VERSION = ROOT / "VERSION"
COPIES = {
    "blender/blender_manifest.toml": re.compile(r'^version = "(.*)"$', re.M),
    "blender/__init__.py": re.compile(r'^    "version": \((.*)\),$', re.M),
    "README.md": re.compile(r"quadq_([0-9.]+)_amd64\.deb"),
    "CHANGELOG.md": re.compile(r"^## (\S+)$", re.M),
}
"""Where the version stands, in the first match."""


def faults() -> Iterator[Fault]:
    wanted = VERSION.read_text().strip()
    for name, pattern in COPIES.items():
        file = ROOT / name
        text = file.read_text()
        found = pattern.search(text)
        if found is None:
            yield Fault(file, 1, "the version is missing")
        elif found[1].replace(", ", ".") != wanted:
            yield Fault(file, line_at(text, found.start()), f"the version is {wanted}, and here {found[1]}")
