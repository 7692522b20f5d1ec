"""The commands with their options, as they stand in the definition, the usage line, README, man page, completions."""

from __future__ import annotations

import pathlib
import re
from typing import Callable, Iterator, NamedTuple

from documented.repository import MAN_PAGE, ROOT, Fault, plain
from documented.statuses import defined, equations

# Each command with its options.
Commands = dict[str, set[str]]
DEFINITION = ROOT / "crates/def_run/specs/CommandLines.antt"
CODE = ROOT / "crates/qm_top/src/error_line.rt"
README = ROOT / "README.md"
BASH = ROOT / "tools/completions/quadq.bash"
ZSH = ROOT / "tools/completions/_quadq"
USAGE_STATUS = 2
UNNAMED = frozenset({"fit", "grids", "layout", "map"})
"""The commands that the usage line leaves out."""


class Copy(NamedTuple):
    """A list of the commands, the file where it stands, and the commands that it may leave out."""

    file: pathlib.Path
    read: Callable[[], Commands]
    lacks: frozenset[str] = frozenset()


def options_in(text: str) -> set[str]:
    return set(re.findall(r"--([a-z][a-z-]*)", text))


def names_in(text: str, records: dict[str, str], lists: dict[str, list[tuple[str, str]]]) -> set[str]:
    """The names of options that a definition lists, in its own words or in those of what it cites."""
    found = set(re.findall(r'codes "([a-z-]+)"', text))
    for word in re.findall(r"\w+", re.sub(r'"[^"]*"', "", text)):
        if word in records:
            options = " ".join(re.findall(r"AreOptions (.*?) words", records[word]))
            found |= names_in(options, {}, lists)
        elif word in lists and word.endswith("_options"):
            found |= names_in(lists[word][0][1], {}, lists)
    return found


def by_definition() -> Commands:
    """Names by `name_of`, options by `HasOptions`."""
    lists = equations(DEFINITION)
    records = dict(re.findall(r"^pub record (\w+) ([^\n]*\n(?: +[^\n]*\n)*)", DEFINITION.read_text(), re.M))
    variant = {left.strip("()").split()[0]: right for left, right in lists["name_of"]}
    found = {re.sub(r'codes "(.*)"', r"\1", right): set[str]() for right in variant.values()}
    for left, right in lists["HasOptions"]:
        name = variant.get(left.lstrip("(").split()[0].rstrip(")"))
        if name:
            found[re.sub(r'codes "(.*)"', r"\1", name)] = names_in(right, records, lists)
    return found


def of_usage(line: str) -> Commands:
    ways = line.partition("quadq ")[2].strip().split(" | ")
    return {it.split()[0]: options_in(it) for it in ways}


def by_usage() -> Commands:
    """The line that the definition has the program say of its usage."""
    return of_usage(min(defined()[USAGE_STATUS]))


def by_code() -> Commands:
    said = re.search(r'const USAGE: &str =\s*"((?:[^"\\]|\\.)*)"', CODE.read_text(), re.DOTALL)
    return of_usage(re.sub(r"\\\n *", "", said[1])) if said else {}


def by_readme() -> Commands:
    """Each section `quadq COMMAND`, with the options of its first words in code."""
    sections = re.findall(r"^## quadq (\w+)\n\n[^`]*`([^`]*)`", README.read_text(), re.M)
    return {name: options_in(synopsis) for name, synopsis in sections}


def by_man_page() -> Commands:
    text = re.sub(r"\n\.(?:[BIR]+|br)\b", " ", plain(MAN_PAGE.read_text()))
    synopsis = text.partition(".SH SYNOPSIS")[2].partition(".SH ")[0]
    return {it.split()[0]: options_in(it) for it in synopsis.split("quadq ")[1:]}


def by_bash() -> Commands:
    """The first words of the completion, and the options that it has for each."""
    text = BASH.read_text()
    first = re.search(r'^ +words="([a-z ]*)"$', text, re.M)
    options = {name: options_in(words) for name, words in re.findall(r'^ +(\w+)\) words="([^"]*)" ;;$', text, re.M)}
    return {name: options.get(name, set()) for name in first[1].split()} if first else {}


def by_zsh() -> Commands:
    text = ZSH.read_text()
    options = {
        name: set(re.findall(r"'--([a-z-]+)=?\[", words))
        for name, words in re.findall(r"^ +(\w+)\) _arguments((?:.|\n)*?);;$", text, re.M)
    }
    return {name: options.get(name, set()) for name in re.findall(r"^ +'(\w+):[^']*'$", text, re.M)}


COPIES = [
    Copy(ROOT / "crates/def_run/specs/ErrorLines.antt", by_usage, UNNAMED),
    Copy(CODE, by_code, UNNAMED),
    Copy(README, by_readme),
    Copy(MAN_PAGE, by_man_page),
    Copy(BASH, by_bash),
    Copy(ZSH, by_zsh),
]


def left_out(text: str, known: Commands) -> set[str]:
    """The commands that the sentence on the usage line says it leaves out."""
    said = re.search(r"leaves out(.*?)(?:\|\n|\n\.TP)", text, re.DOTALL)
    return set(re.findall(r"\w+", said[1])) & known.keys() if said else set()


def listed(options: set[str]) -> str:
    return ", ".join(sorted(f"--{it}" for it in options)) or "none"


def faults() -> Iterator[Fault]:
    wanted = by_definition()
    for file in (README, MAN_PAGE):
        if (found := left_out(file.read_text(), wanted)) != UNNAMED:
            names = ", ".join(sorted(UNNAMED ^ found))
            yield Fault(file, 1, f"the usage line and what is said of it differ in {names}")
    for copy in COPIES:
        found = copy.read()
        for name in sorted(wanted.keys() - found.keys() - copy.lacks):
            yield Fault(copy.file, 1, f"the command {name} is missing")
        for name in sorted(found.keys() - wanted.keys()):
            yield Fault(copy.file, 1, f"there is no command {name}")
        for name in sorted(wanted.keys() & found.keys()):
            if wanted[name] != found[name]:
                yield Fault(
                    copy.file, 1, f"the options of {name} are {listed(wanted[name])}, and here {listed(found[name])}"
                )
