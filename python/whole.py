"""Builds the package of this folder where the whole repository is installed: `pip install .` at its root, as pre-commit
does it."""

from __future__ import annotations

import os
import pathlib
from typing import Any, Optional

from setuptools import build_meta

HERE = pathlib.Path(__file__).resolve().parent


def get_requires_for_build_wheel(config_settings: Optional[dict[str, Any]] = None) -> list[str]:
    os.chdir(HERE)
    return list(build_meta.get_requires_for_build_wheel(config_settings))


def build_wheel(
    wheel_directory: str, config_settings: Optional[dict[str, Any]] = None, metadata_directory: Optional[str] = None
) -> str:
    target = os.path.abspath(wheel_directory)
    os.chdir(HERE)
    return str(build_meta.build_wheel(target, config_settings))
