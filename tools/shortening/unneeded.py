"""Finds what right sides may do without: facts of tactics, `let`s that nothing names, and short ones named once.

And lemmas that nothing names.
"""

from __future__ import annotations

import re
from collections import Counter
from collections.abc import Iterable, Iterator
from pathlib import Path

from shortening.terms import BINDER, TACTICS, WITH_FACTS, WORD, Terms, bound_in, declarations, heads_in
from shortening.trial import MODULES, Edit, File

NO_VALUE = TACTICS | {"elim", "record", "let", "λ"}
PART = re.compile(r"[^\s(){};,.:@\"«»\[\]|]+")
SHORT = 50

Change = tuple[int, int, str]


def unneeded(file: File) -> Iterator[Edit]:
    """The edits of a file's right sides of several lines: what goes, and values that go where their `let` was read."""
    for of, right, terms in file.terms():
        if "\n" in terms.text.strip() and terms.is_whole:
            for at, (word, _, _) in enumerate(terms.tokens):
                found = fewer_facts(terms, at) if word in WITH_FACTS else fewer_lets(terms, at) if word == "let" else ()
                for start, end, text in found:
                    yield Edit(file.path, of.first, right.start + start, right.start + end, (), other=text)


def fewer_facts(terms: Terms, at: int) -> Iterator[Change]:
    """A tactic's list without each of its facts."""
    opening = at + 1
    if opening == len(terms.tokens) or terms.word(opening) != "(":
        return
    spans = [
        (terms.tokens[first][1], terms.tokens[last - 1][2])
        for first, last in terms.pieces(opening + 1, terms.partner[opening], ",")
    ]
    texts = [terms.text[start:end] for start, end in spans]
    if len(spans) == 2 and texts[0] in MODULES:
        yield terms.tokens[opening][1], terms.tokens[terms.partner[opening]][2], texts[0]
    for number, (start, end) in enumerate(spans):
        if len(spans) < 3 or (number == 0 and texts[0] in MODULES):
            continue
        is_last = number + 1 == len(spans)
        yield (spans[number - 1][1], end, "") if is_last else (start, spans[number + 1][0], "")


def fewer_lets(terms: Terms, at: int) -> Iterator[Change]:
    """A term without its `let`: where nothing names it, or where its short value stands in the place that does."""
    name, to = terms.word(at + 1), terms.end_of_let(at)
    if to is None or to + 1 >= len(terms.tokens) or name == "(":
        return
    start, body = terms.tokens[at][1], terms.tokens[to + 1][1]
    named = [it for it in WORD.finditer(terms.text, body) if it.group().split(".")[0] == name]
    equals = terms.find(at + 1, to, {"="})
    if not named:
        yield start, body, ""
    elif len(named) == 1 and equals is not None and terms.find(at + 1, equals, {":"}) is None:
        value = " ".join(terms.text[terms.tokens[equals][2] : terms.tokens[to][1]].split())
        is_plain = len(value) <= SHORT and value.split()[0] not in NO_VALUE and not re.search(BINDER, value)
        if is_plain and not bound_in(terms.text[body:]) & heads_in(value):
            put = value if " " not in value else f"({value})"
            yield start, named[0].end(), terms.text[body : named[0].start()] + put + named[0].group()[len(name) :]


def unread(root: Path, files: Iterable[Path]) -> Iterator[tuple[Path, int, str]]:
    """The lemmas of these files that no text names: a tactic may not need what the term in its place named."""
    parts = ("src/**/*.rt", "specs/**/*.antt", "proofs/**/*.antt")
    texts = (it.read_text(encoding="utf-8") for part in parts for it in root.glob(f"crates/*/{part}"))
    named = Counter(word for text in texts for word in PART.findall(text))
    for path in files:
        lines = path.read_text(encoding="utf-8").split("\n")
        for it in declarations(lines) if not path.stem.endswith("Examples") else ():
            is_goal = path.name == "Answers.antt" and lines[it.first].startswith("pub ")
            if not is_goal and named[it.name] == PART.findall(it.text).count(it.name):
                yield path, it.first + 1, it.name
