#!/usr/bin/env python3
"""Draws the way of a mesh through the crates: crates.svg beside this file; and writes their table in the map.

The crates and what each uses are those of crates.txt; way.txt says where each stands and what it hands on; way.py leads
the arrows. With --check it compares picture and table with what stands there, and says what is stale.
"""

import re
import sys
from pathlib import Path

from draw import BLUE, FAINT, GREEN, INK, SIDES, Picture
from way import BOX, FLOW, HIGH, MARGIN, WIDE, Arrow, Plan, Way, left_of, read_way

ROOT = Path(__file__).resolve().parent.parent.parent
sys.path.insert(0, str(ROOT / "tools"))

from trust.believe import behind_run  # noqa: E402
from trust.definitions import base_of  # noqa: E402

PICTURE = ROOT / "docs/pictures/crates.svg"
MAP = ROOT / "docs/ARCHITECTURE.md"
TABLE = re.compile(r"\| crate \| what it is \| stands on \|\n(?:\|.*\n)+")
# Each way's colour.
INKS = {"all": INK, "remesh": BLUE, "check": "#b8560b", "graph": GREEN, "part": FAINT}
LEGEND = {
    "all": "every command",
    "remesh": "remesh and its kin",
    "check": "check and map, where they leave that of remesh",
    "graph": "graph and other reports",
    "part": "what helps another",
}
COLOURS = "Blue boxes do something. Green: what is believed of run. White: what is believed of other calls. Grey: laws."
# Room above the layers.
TOP = 56


def uses_and_bands() -> tuple[dict[str, list[str]], dict[str, int]]:
    """Which crates of the repository each crate of crates.txt uses, and in which section it stands."""
    uses: dict[str, list[str]] = {}
    band_of: dict[str, int] = {}
    band = 0
    for line in (ROOT / "crates.txt").read_text().splitlines():
        words, _, _ = line.partition("#")
        if line.startswith("# "):
            band += 1
        elif ":" in words:
            kind, _, used = words.partition(":")
            name = kind.split()[0]
            uses[name], band_of[name] = used.split(), band
    return {name: [it for it in used if it in uses] for name, used in uses.items()}, band_of


def above_its_user(uses: dict[str, list[str]], band_of: dict[str, int]) -> list[str]:
    """What is wrong where a crate uses one of a later section."""
    pairs = [(name, it) for name, used in uses.items() for it in used]
    return [f"crates.txt has {it} in a section behind {name}" for name, it in pairs if band_of[it] > band_of[name]]


def below(name: str, uses: dict[str, list[str]]) -> set[str]:
    """All crates that a crate stands on."""
    return {other for it in uses[name] for other in (it, *below(it, uses))}


def nearest(name: str, uses: dict[str, list[str]]) -> list[str]:
    """The crates that a crate uses, without those on which another of them stands."""
    further = {other for it in uses[name] for other in below(it, uses)}
    return [it for it in uses[name] if it not in further]


def what_it_is(name: str) -> str:
    """The first sentence that a crate says of itself."""
    source = ROOT / "crates" / name / "src"
    file = source / ("lib.rt" if (source / "lib.rt").exists() else "main.rt")
    said = re.match(r"(?://! ?.*\n)+", file.read_text())
    words = " ".join(re.sub(r"(?m)^//! ?", "", said[0]).split()) if said else ""
    return re.split(r"\.(?=\s|$)", words)[0]


def table(way: Way, uses: dict[str, list[str]]) -> str:
    lines = ["| crate | what it is | stands on |", "|---|---|---|"]
    for layer, names in way.layers():
        lines.append(f"| **{layer}** | | |")
        for name in names:
            used = ", ".join(f"`{it}`" for it in nearest(name, uses))
            lines.append(f"| `{name}`: {way.names[name]} | {what_it_is(name)} | {used} |")
    return "\n".join(lines) + "\n"


def picture(way: Way, believed: set[str]) -> str:
    plan = Plan(way)
    drawn = Picture("The way of a mesh through the crates, from bytes to bytes", WIDE, plan.high + TOP, 1)
    draw_legend(drawn)
    for at, row in enumerate(way.rows):
        if at == 0 or way.rows[at - 1].layer != row.layer:
            draw_title(drawn, row.layer, plan.high - plan.begin_of(at))
    paths = [[(x, plan.high - y) for x, y in plan.points(i)] for i in range(len(way.arrows))]
    for points, arrow in zip(paths, way.arrows):
        drawn.line(points, INKS[arrow.way], 1 if arrow.way == "part" else 1.6, arrow=True)
    for name, (row, column) in plan.place.items():
        draw_crate(drawn, left_of(column), plan.high - way.rows[row].top, way.names[name], name, name in believed)
    for points, arrow in zip(paths, way.arrows):
        draw_value(drawn, points, arrow)
    draw_ends(drawn, plan)
    return drawn.svg()


def draw_legend(drawn: Picture) -> None:
    high = drawn.height - 16
    drawn.text((MARGIN, high), f"{COLOURS} Each arrow names what it carries.", 11, INK, "start")
    left = MARGIN
    for way, words in LEGEND.items():
        drawn.line([(left, high - 18), (left + 34, high - 18)], INKS[way], 1.6, arrow=True)
        drawn.text((left + 40, high - 22), words, 11, INK, "start")
        left += 62 + 6.2 * len(words)


def draw_title(drawn: Picture, title: str, high: float) -> None:
    """The title of a layer over its definitions, and a line above all of it."""
    drawn.line([(MARGIN / 2, high), (WIDE - MARGIN / 2, high)], "#ccc", 0.8)
    drawn.text((left_of(FLOW), high - 18), title, 12, INK, "start", bold=True)


def draw_value(drawn: Picture, points: list[tuple[float, float]], arrow: Arrow) -> None:
    """What goes along an arrow: over its longest piece from side to side, or beside its head where it has none."""
    pieces = [(a, b) for a, b in zip(points, points[1:]) if a[1] == b[1] and abs(a[0] - b[0]) > 8]
    if pieces:
        (a, high), (b, _) = max(pieces, key=lambda it: abs(it[0][0] - it[1][0]))
        far = min(abs(a - b) / 2, 70)
        where, anchor = (a + (far if a < b else -far), high + 2.5), "middle"
    else:
        (low, high), (_, before) = points[-1], points[-2]
        where, anchor = (low + 4, high + (12 if high < before else -14)), "start"
    drawn.text(where, arrow.value, 8.5, INKS[arrow.way], anchor, halo=True)


def draw_ends(drawn: Picture, plan: Plan) -> None:
    """The bytes that come from the outside and go there."""
    for name in ("qm_prog", "qm_lib", "qm_rows"):
        draw_end(drawn, plan, name, (30, 0))
    draw_end(drawn, plan, "qm_output", (-HIGH, -HIGH - 30))


def draw_end(drawn: Picture, plan: Plan, name: str, span: tuple[float, float]) -> None:
    row, column = plan.place[name]
    middle, high = left_of(column) + BOX / 2, plan.high - plan.way.rows[row].top
    drawn.line([(middle, high + span[0]), (middle, high + span[1])], INK, 2.2, arrow=True)
    drawn.text((middle + 6, high + sum(span) / 2 - 2), "bytes", 10.5, INK, "start", bold=True)


def draw_crate(drawn: Picture, left: float, high: float, words: str, name: str, is_believed: bool) -> None:
    right, low = left + BOX, high - HIGH
    fill = "#eee" if name.endswith("_laws") else SIDES[0]
    if name.startswith("def_"):
        fill = SIDES[1] if is_believed else "white"
    ink = GREEN if name.startswith("def_") else INK
    drawn.area([(left, low), (right, low), (right, high), (left, high)], fill, ink, 1)
    drawn.text(((left + right) / 2, low + 19), name, 10.5, INK, bold=True)
    drawn.text(((left + right) / 2, low + 6), words, 9)


def main() -> int:
    uses, band_of = uses_and_bands()
    way = read_way()
    wrong = above_its_user(uses, band_of) + way.wrong(set(uses))
    if wrong:
        return tell(wrong)
    believed = {it.crate for it in behind_run(base_of(ROOT))}
    text = MAP.read_text()
    made = {PICTURE: picture(way, believed), MAP: TABLE.sub(lambda _: table(way, uses), text)}
    if sys.argv[1:] == ["--check"]:
        stale = [it for it, made_now in made.items() if not it.exists() or it.read_text() != made_now]
        wrong += [f"{it.relative_to(ROOT)} is stale: docs/pictures/draw_crates.py" for it in stale]
    else:
        for file, made_now in made.items():
            file.write_text(made_now)
    return tell(wrong)


def tell(wrong: list[str]) -> int:
    """Says what is wrong, and the status."""
    for it in wrong:
        print(it, file=sys.stderr)
    return int(bool(wrong))


if __name__ == "__main__":
    sys.exit(main())
