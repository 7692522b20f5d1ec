"""What was found of files as SARIF 2.1.0, which code hosts show beside the lines of files."""

from __future__ import annotations

from pathlib import Path
from typing import Any, Sequence
from urllib.parse import quote

from .checking import Checked, Fault
from .version import VERSION

SCHEMA = "https://json.schemastore.org/sarif-2.1.0.json"
RULES = {
    1: "refused", 3: "not-an-obj-line", 4: "not-a-quad", 5: "number-out-of-range", 6: "limit", 7: "not-a-manifold",
    12: "not-readable", 14: "out-of-memory", 70: "please-report",
}
"""A name for each status."""
OTHER = "refused"


def rule_of(status: int) -> str:
    return f"quadq/{RULES.get(status, OTHER)}"


def sarif_of(found: Sequence[Checked]) -> dict[str, Any]:
    """One run over all files."""
    statuses = sorted({fault.status for it in found for fault in it.faults})
    rules = {rule_of(it): it for it in statuses}
    return {
        "$schema": SCHEMA, "version": "2.1.0",
        "runs": [{
            "tool": {"driver": {
                "name": "quadq-check", "version": VERSION, "rules": [_rule(name, it) for name, it in rules.items()]}},
            "results": [_result(it, fault) for it in found for fault in it.faults],
        }],
    }


def _rule(name: str, status: int) -> dict[str, Any]:
    words = name.partition("/")[2].replace("-", " ")
    advice = Fault(status, "").advice
    more = {"help": {"text": advice}} if advice else {}
    return {"id": name, "name": words.title().replace(" ", ""), "shortDescription": {"text": words},
            "properties": {"status": status}, **more}


def _result(it: Checked, fault: Fault) -> dict[str, Any]:
    place: dict[str, Any] = {"artifactLocation": _location(it.path)}
    if fault.line is not None:
        place["region"] = {"startLine": fault.line}
    location: dict[str, Any] = {"physicalLocation": place}
    if fault.part:
        location["logicalLocations"] = [{"name": fault.part}]
    return {"ruleId": rule_of(fault.status), "level": "error",
            "message": {"text": f"{fault.words}. {fault.advice}".rstrip()}, "locations": [location]}


def _location(path: Path) -> dict[str, str]:
    """A file by its path below the folder at hand, which a code host takes for its root, or by its whole path."""
    whole = Path(path).absolute()
    try:
        return {"uri": quote(whole.relative_to(Path.cwd()).as_posix()), "uriBaseId": "%SRCROOT%"}
    except ValueError:
        return {"uri": whole.as_uri()}
