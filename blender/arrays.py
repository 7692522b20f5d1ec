"""Tables of numbers out of Blender's collections, and into them; and names."""

from __future__ import annotations

from typing import Any

import numpy as np

from .quadq.arrays import Array


def column(items: Any, name: str, dtype: Any, width: int = 1) -> Array:
    """(items, width) or (items,): a property of all items."""
    values = np.zeros(len(items) * width, dtype=dtype)
    items.foreach_get(name, values)
    return values if width == 1 else values.reshape(-1, width)


def put_column(items: Any, name: str, values: Array) -> None:
    """Sets a property of all items to values (items,) or (items, width)."""
    flat = np.ascontiguousarray(values).ravel()
    items.foreach_set(name, flat.tolist() if flat.dtype == bool else flat)


def flat(values: Array) -> Array:
    """(items, width): values (items, ..)."""
    return values.reshape(len(values), int(np.prod(values.shape[1:])))


def name_of(block: Any) -> str:
    """The name of anything of Blender's. A file can have names that are no text."""
    try:
        return str(block.name)
    except (UnicodeDecodeError, SystemError):
        return "unnamed"
