"""The names of std's prelude, which files import from one place and none may define again.

They are kept in a list beside this file, so that no kit is needed to read them.
"""

import re
import shutil
import subprocess
from pathlib import Path

LIST = Path(__file__).resolve().parent / "prelude.txt"


def listed() -> set[str]:
    return set(LIST.read_text().split())


def of_the_kit() -> set[str] | None:
    """The names as the kit has them, where there is one."""
    if not shutil.which("rt"):
        return None
    told = subprocess.run(["rt", "doc"], capture_output=True, text=True, check=False).stdout.strip()
    file = Path(told).parent / "rattle/std/specs/Prelude.antt"
    if not told or not file.exists():
        return None
    groups = re.findall(r"\.\{([^}]*)\}", file.read_text())
    return {name.strip() for group in groups for name in group.split(",")}


def write(names: set[str] | None) -> None:
    if names is not None:
        LIST.write_text("\n".join(sorted(names)) + "\n")
