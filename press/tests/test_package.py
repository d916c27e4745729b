# SPDX-License-Identifier: Apache-2.0
"""The package as a whole: its layers, that steps print nothing, and the example of the documents."""
import ast
import re
import subprocess
import sys
from collections.abc import Iterator
from pathlib import Path

import pytest
from room import TOP

PACKAGE = TOP / "python" / "press"
MODULES = sorted(path.stem for path in PACKAGE.glob("*.py") if path.stem != "__init__")
# What prints for the commands, or starts one.
PRINTERS = {"command", "printing", "start", "farm_client", "farm_slots"}


def layers() -> dict[str, int]:
    """The layer of each module, by the table of docs/DESIGN.md."""
    text = (TOP / "docs" / "DESIGN.md").read_text(encoding="utf-8")
    rows = re.findall(r"^\| [a-z ]+ \| ([a-z_, ]+) \|", text.partition("| Layer | Modules |")[2].partition("\n\n")[0], re.M)
    return {name: number for number, row in enumerate(rows) for name in row.split(", ")}


def imports_of(module: str) -> Iterator[str]:
    """The modules of the package that a module imports."""
    for node in ast.walk(ast.parse((PACKAGE / f"{module}.py").read_text(encoding="utf-8"))):
        if isinstance(node, ast.ImportFrom) and node.level == 1:
            yield from [node.module.partition(".")[0]] if node.module else [one.name for one in node.names]


@pytest.mark.parametrize("module", MODULES)
def test_layers(module: str) -> None:
    """A module imports modules of its own layer and of the layers above it in the table."""
    layer = layers()
    assert module in layer, f"{module} is in no layer of docs/DESIGN.md"
    assert not [name for name in imports_of(module) if layer[name] > layer[module]]


@pytest.mark.parametrize("module", sorted(set(MODULES) - PRINTERS))
def test_steps_print_nothing(module: str) -> None:
    """A step calls print only to write into a file, and does not read the command line."""
    for node in ast.walk(ast.parse((PACKAGE / f"{module}.py").read_text(encoding="utf-8"))):
        if isinstance(node, ast.Call) and getattr(node.func, "id", "") == "print":
            assert any(word.arg == "file" for word in node.keywords), f"{module}: line {node.lineno}"
        assert not (isinstance(node, ast.Attribute) and node.attr == "argv"), module


def test_example_of_the_documents(tmp_path: Path, built: None) -> None:
    """The example of docs/PRESS.md, as it stands there, traps the label and prints its events."""
    text = (TOP / "docs" / "PRESS.md").read_text(encoding="utf-8").partition("\n## From Python\n")[2].partition("\n## ")[0]
    lines = re.findall(r"^    (.*)$", text, re.M)
    assert 8 <= len(lines) <= 12
    for name in ("python", "examples"):
        (tmp_path / name).symlink_to(TOP / name)
    done = subprocess.run([sys.executable, "-c", "\n".join(lines)], cwd=tmp_path, capture_output=True, text=True, check=False)
    assert done.returncode == 0, done
    assert "StepDone(page=2, step='traps'" in done.stdout and "RunDone(failed=())" in done.stdout, done
    assert (tmp_path / "out/page-002/trapped/report").is_file()
