"""The limits that documents name as numbers: those of the constants in the definitions' crates."""

from __future__ import annotations

import pathlib
import re
from fractions import Fraction
from typing import Iterator, NamedTuple

from documented.repository import MAN_PAGE, ROOT, Fault, line_at, plain

README, TEXT, FIT = ROOT / "README.md", ROOT / "docs/TEXT.md", ROOT / "docs/FIT.md"
PROMISES = ROOT / "docs/PROMISES.md"
FILES = [README, TEXT, FIT, PROMISES, MAN_PAGE]
CONSTANT = re.compile(r"^pub const (\w+): \w+ = ([\d_]+);", re.M)
NUMBER = r"(\d+(?:,\d{3})*(?:\.\d+|\^\d+| MiB)?)"
LARGE = 1_000_000
"""From here on each number of these documents is a limit."""


class Limit(NamedTuple):
    """Words around a number, which stands for the last `N`: so many times the constant, and so many more."""

    words: str
    constant: str
    times: Fraction = Fraction(1)
    more: int = 0


LIMITS = [
    Limit("file is larger than N", "MAX_BYTES"),
    Limit("text of more than N", "MAX_BYTES"),
    Limit("input has more than N", "MAX_BYTES"),
    Limit("longer than N bytes", "MAX_LINE"),
    Limit("a line more than N bytes", "MAX_LINE"),
    Limit("at most N bytes are kept", "MAX_LINE", more=1),
    Limit("one `v` line more than N", "MAX_V_LINES"),
    Limit("N `v` lines", "MAX_V_LINES"),
    Limit("more than N vertices", "MAX_V_LINES"),
    Limit("one `f` line more than N", "MAX_F_LINES"),
    Limit("N `f` lines", "MAX_F_LINES"),
    Limit("vertices (?:and|or) N faces", "MAX_F_LINES"),
    Limit("With more than N it is beyond what quadq reads", "MAX_F_LINES"),
    Limit("decimal** has at most N bytes", "MAX_DECIMAL"),
    Limit("above N millionths", "MAX_MICRO"),
    Limit("0.000001 to N", "MAX_MICRO", Fraction(1, 10**6)),
    Limit("coordinate is beyond N", "MAX_MICRO", Fraction(1, 10**6)),
    Limit("whole numbers from 1 to N", "MAX_PART"),
    Limit("K`? is a whole number from 1 to N", "MAX_MULTIPLE"),
    Limit(r"\.I N is a whole number from 1 to N", "MAX_SIZE"),
    Limit("mesh from the number `N`, from 1 to N", "MAX_SIZE"),
    Limit("wish(?: is)? above N", "MAX_WISH"),
    Limit("thousandths of an edge, from 0 to N", "MAX_WISH"),
    Limit("arc(?: has old edges)?, up to N", "MAX_WEIGHT"),
    Limit("new mesh has at most N faces", "MAX_NEW_FACES"),
    Limit("mesh would have (?:`N` faces, )?more than N", "MAX_NEW_FACES"),
    Limit("more than N faces are too fine", "MAX_NEW_FACES"),
    Limit("at most N points", "MAX_NEW_FACES", Fraction(4)),
    Limit("each patch, is above N", "MAX_TANGLE"),
    Limit("greatest tangle that is not refused is N", "MAX_TANGLE"),
    Limit("more than N patches", "MAX_TANGLE", Fraction(1, 128)),
    Limit("at most N vertices", "MAX_VERTICES"),
    Limit("add up to (?:at most|more than) N", "MAX_TARGETS"),
]


def constants() -> dict[str, int]:
    """The constants of the definitions' crates, each name with its number."""
    files = sorted(ROOT.glob("crates/def_*/src/**/*.rt"))
    return {name: int(number) for file in files for name, number in CONSTANT.findall(file.read_text())}


def value(number: str) -> Fraction:
    """The number that a document writes: `1,048,576`, `2^20`, `512 MiB` or `0.5`."""
    bare = number.replace(",", "")
    if bare.endswith(" MiB"):
        return Fraction(bare.removesuffix(" MiB")) * 2**20
    base, _, power = bare.partition("^")
    return Fraction(base) ** int(power or 1)


def pattern_of(words: str) -> re.Pattern[str]:
    """Words in which a blank is any space, two stars are no repetition, and the last `N` is the number."""
    before, _, behind = words.replace("**", r"\*\*").replace(" ", r"\s+").rpartition("N")
    return re.compile(before + NUMBER + behind)


def text_of(file: pathlib.Path) -> str:
    return plain(file.read_text()) if file == MAN_PAGE else file.read_text()


def faults_of(file: pathlib.Path, text: str, known: dict[str, int]) -> Iterator[Fault]:
    """What a document says wrongly of limits, and each large number that is none of them."""
    told: set[int] = set()
    for limit in LIMITS:
        wanted = known[limit.constant] * limit.times + limit.more
        for found in pattern_of(limit.words).finditer(text):
            told.add(found.start(1))
            if value(found[1]) != wanted:
                what = f"{limit.constant} makes this {wanted}, and here it is {found[1]}"
                yield Fault(file, line_at(text, found.start(1)), what)
    for found in re.finditer(rf"(?<![\w.,]){NUMBER}", text):
        if found.start(1) not in told and "," in found[1] and value(found[1]) >= LARGE:
            yield Fault(file, line_at(text, found.start(1)), f"{found[1]} is no limit that documented/limits.py has")


def faults() -> Iterator[Fault]:
    texts, known = {file: text_of(file) for file in FILES}, constants()
    for file, text in texts.items():
        yield from faults_of(file, text, known)
    for limit in LIMITS:
        if not any(pattern_of(limit.words).search(it) for it in texts.values()):
            yield Fault(README, 1, f"no document says `{limit.words}` of {limit.constant}")
