# SPDX-License-Identifier: Apache-2.0
"""The package, the commands and the tests are clean to flake8, pylint and mypy --strict, by the settings of the repository: run by
-m lint alone."""
import os
import subprocess
import sys
from pathlib import Path

import pytest
from room import TOP, needs

pytestmark = [pytest.mark.plain, pytest.mark.lint]
COMMANDS = sorted(str(path) for path in (TOP / "press").iterdir()
                  if path.is_file() and path.read_bytes().startswith(b"#!/usr/bin/env python3"))


def check(folder: Path, *words: str | Path) -> None:
    """Runs a tool that has to find nothing."""
    done = subprocess.run(words, cwd=folder, capture_output=True, text=True, check=False,
                          env={**os.environ, "PYTHONDONTWRITEBYTECODE": "1", "PYTHONPATH": str(TOP / "python")})
    assert done.returncode == 0, done.stdout + done.stderr


@needs("flake8")
def test_flake8() -> None:
    """Names that are not used, and how lines are written."""
    check(TOP, "flake8", "python/press", "press/tests", *COMMANDS)


@needs("pylint")
def test_pylint() -> None:
    """The package and the commands."""
    check(TOP / "python", "pylint", "--rcfile", TOP / "pyproject.toml", "--persistent", "n", "press", *COMMANDS)


@needs("mypy")
def test_types_of_the_package(tmp_path: Path) -> None:
    """mypy --strict finds the types of the package right."""
    check(TOP / "python", "mypy", "--strict", "--config-file", TOP / "pyproject.toml", "--python-executable", sys.executable,
          "--cache-dir", tmp_path, "-p", "press")
