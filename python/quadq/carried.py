"""Scripts of `tools/` that this package carries. They have to run with any Python and no package, so it is there that
their code stands."""

from __future__ import annotations

import importlib
import sys
from pathlib import Path
from threading import Lock
from types import ModuleType

_HERE = Path(__file__).resolve().parent
_FOLDERS = (_HERE, _HERE.parents[1] / "tools")
_SCRIPTS = ("obj_text", "mark_features")
_OURS = f"{__name__}."
"""Before the name of a script: so it is a module of this package, and no other has that name."""
_one_at_a_time = Lock()


def carried(name: str) -> ModuleType:
    """The script `name.py` as a module: that beside this file, as installed, or that of the checkout around it."""
    with _one_at_a_time:
        if _OURS + name not in sys.modules:
            _load(name)
        return sys.modules[_OURS + name]


def _load(name: str) -> None:
    """Loads a script and those that it imports. They know each other by their plain names, which afterwards are free
    again."""
    folder = next((it for it in _FOLDERS if (it / f"{name}.py").is_file()), _HERE)
    path = sys.path[:]
    others = {it: sys.modules.pop(it) for it in _SCRIPTS if it in sys.modules}
    sys.modules.update({it: sys.modules[_OURS + it] for it in _SCRIPTS if _OURS + it in sys.modules})
    try:
        sys.path.insert(0, str(folder))
        importlib.import_module(name)
    finally:
        for it in _SCRIPTS:
            if it in sys.modules:
                sys.modules[_OURS + it] = sys.modules.pop(it)
        sys.modules.update(others)
        sys.path[:] = path
