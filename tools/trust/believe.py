"""The list of what one has to read to believe each clause of `run`, and what other public calls rest on."""

import hashlib
from collections import defaultdict
from collections.abc import Iterable
from pathlib import Path

from trust.clauses import public_clauses
from trust.definitions import Base, Definition, behind, words_in
from trust.sources import Source, crates_of, read, sources_of

RUN = Path("crates/qm_top/src/command.rt")
HEADLINE = "IsRemeshed"
HEAD = """# What to believe

`tools/trusted_base --write` makes this page from the definitions and the clauses, and the gate compares it.

If a promise of `run` says what you want, and the definitions behind it say what their names and comments tell, then you
need not read anything else: the proofs are checked. Below stand the definitions behind each promise, by file. A file
rests on those above it alone, so that is an order in which to read them. Lines are those of the definitions that are
needed, without comments, and the sum is the first of the SHA-256 of their text: where a definition changes, so does
this page, and a review sees it. What std and the kit's crates define comes besides, and so do the traits `Source` and
`Sink` of [`qm_io`](../crates/qm_io/src/traits.rt). At the streams and words of the process, which tell nothing, a
clause says nothing of bytes: `main` and the three adapters that it makes are trusted, and tested.
[The map](ARCHITECTURE.md#how-to-read-a-clause) says how to read a clause.
"""


def promises_of_run(base: Base) -> list[tuple[str, set[Definition]]]:
    """What `run` keeps, each with what is behind it: its clauses, and the fields of a record that a clause cites."""
    source = read(base.root, base.root / RUN)
    names = base.named(source.imports)
    found = []
    for clause in public_clauses(source.text):
        if clause.function != "run":
            continue
        cited = list(words_in(clause.text, names))
        for record in (it for it in cited if it.fields):
            within = base.names_in(record.file)
            found += [(name, behind(base, words_in(text, within))) for name, text in record.fields]
        found.append((clause.name or "the clause itself", behind(base, cited)))
    return found


def behind_calls(base: Base, source: Source) -> set[Definition]:
    """What the public calls, the traits and the ghost members of a file rest on."""
    names = base.named(source.imports, source)
    cited = [word for it in public_clauses(source.text) for word in words_in(it.text, names)]
    return behind(base, cited)


def behind_run(base: Base) -> set[Definition]:
    return set[Definition]().union(*(it for _, it in promises_of_run(base)))


def reading_order(base: Base, needed: set[Definition]) -> list[Path]:
    """The files of these definitions, each behind those that it rests on."""
    below: dict[Path, set[Path]] = defaultdict(set)
    for it in needed:
        below[it.file] |= {other.file for other in base.uses[it] & needed}
    order: list[Path] = []
    begun = set[Path]()

    def visit(file: Path) -> None:
        if file not in begun:
            begun.add(file)
            for other in sorted(below[file], key=lambda it: (base.crates.index(it.parts[1]), it)):
                visit(other)
            order.append(file)

    for file in sorted(below, key=lambda it: (base.crates.index(it.parts[1]), it)):
        visit(file)
    return order


def counted(needed: Iterable[Definition]) -> str:
    """How many there are, as `323 definitions in 1,035 lines, and 34 types and constants in 100`."""
    listed = list(needed)
    specs, items = [it for it in listed if not it.is_item], [it for it in listed if it.is_item]
    parts = []
    if specs:
        parts.append(f"{plural(len(specs), 'definition')} in {plural(sum(it.lines for it in specs), 'line')}")
    if items:
        words = "type or constant" if len(items) == 1 else "types and constants"
        parts.append(f"{len(items)} {words} of the code in {plural(sum(it.lines for it in items), 'line')}")
    return " and ".join(parts) or "nothing"


def plural(count: int, word: str) -> str:
    return f"{count:,} {word}{'' if count == 1 else 's'}"


def table(base: Base, needed: set[Definition]) -> list[str]:
    lines = ["| file | definitions | lines | sum |", "|---|--:|--:|---|"]
    for file in reading_order(base, needed):
        mine = [it for it in needed if it.file == file]
        name = "/".join(file.with_suffix("").parts[1:])
        lines.append(f"| [`{name}`](../{file}) | {len(mine)} | {sum(it.lines for it in mine):,} | `{sum_of(mine)}` |")
    return [*lines, ""]


def sum_of(definitions: list[Definition]) -> str:
    """Eight digits that tell the text of some definitions of a file from another, comments and layout apart."""
    text = "\n".join(it.said for it in sorted(definitions, key=lambda it: it.line))
    return hashlib.sha256(text.encode()).hexdigest()[:8]


def headline_part(base: Base) -> tuple[list[str], set[Definition]]:
    first = next(it for it in base.definitions if it.name == HEADLINE)
    needed = behind(base, [first])
    words = f"That a remesh is what it should be is one statement: {counted(needed)}."
    return [f"## The headline: `{HEADLINE}`", "", words, "", *table(base, needed)], needed


def run_part(base: Base, known: set[Definition]) -> list[str]:
    words = f"Behind all that it keeps stand {counted(behind_run(base))}. Each table has what those before it lack."
    lines = [f"## What [`run`](../{RUN}) keeps", "", words, ""]
    for name, needed in promises_of_run(base):
        more = needed - known
        known = known | needed
        lines += [f"### {f'`{name}`' if ' ' not in name else name.capitalize()}", ""]
        lines += [f"{counted(needed).capitalize()}{'.' if more else ', all of them above.'}", ""]
        lines += table(base, more) if more else []
    return lines


def others_part(base: Base) -> list[str]:
    known, behind_any = behind_run(base), set[Definition]()
    lines = ["## Other public calls", "", "What the public calls of a crate rest on that is not behind `run`.", ""]
    lines += ["| crate | definitions | lines | in |", "|---|--:|--:|---|"]
    for crate in crates_of(base.root):
        needed = set[Definition]().union(*(behind_calls(base, it) for it in sources_of(base.root, crate, "src")))
        behind_any |= needed
        more = needed - known
        if more:
            files = ", ".join(f"`{it.parts[1]}/{it.stem}`" for it in reading_order(base, more))
            lines.append(f"| `{crate}` | {len(more)} | {sum(it.lines for it in more):,} | {files} |")
    rest = [it for it in base.definitions if it not in behind_any | known]
    if rest:
        names = ", ".join(f"`{it.name}`" for it in rest)
        lines += ["", f"Behind no public clause, and there for laws, proofs and examples: {names}."]
    return [*lines, ""]


def page(base: Base) -> str:
    """The text of docs/BELIEVE.md."""
    headline, known = headline_part(base)
    return "\n".join([HEAD, *headline, *run_part(base, known), *others_part(base)])
