"""The kit that the README trusts: the one that built dist/quadq."""

from __future__ import annotations

import re
from typing import Iterator

from documented.repository import ROOT, Fault, line_at

KIT = re.compile(r"`(rattle-kit-\w+ logic \w+)`")


def faults() -> Iterator[Fault]:
    readme, told = ROOT / "README.md", ROOT / "dist/README.md"
    built = KIT.search(told.read_text()) if told.exists() else None
    text = readme.read_text()
    for named in KIT.finditer(text):
        if built and named[1] != built[1]:
            yield Fault(readme, line_at(text, named.start()), f"dist/quadq was built with another kit, {built[1]}")
