"""The type of arrays, whose shapes and kinds stand in the docstrings, and values that keep theirs."""

from __future__ import annotations

from typing import Any

import numpy as np
from numpy.typing import NDArray

Array = NDArray[Any]
Numbers = NDArray[np.float64]


class Kept:
    """A frozen dataclass whose arrays cannot be written to: they are views of those that it was made of."""

    def __post_init__(self) -> None:
        self.__dict__.update((name, kept(value)) for name, value in self.__dict__.items())


def kept(value: Any) -> Any:
    """An array, or each array of a tuple or of a table by name, so that it cannot be written to through this value."""
    if isinstance(value, np.ndarray) and value.flags.writeable:
        value = value.view()
        value.flags.writeable = False
    elif isinstance(value, tuple):
        value = tuple(map(kept, value))
    elif isinstance(value, dict):
        value = {name: kept(it) for name, it in value.items()}
    return value
