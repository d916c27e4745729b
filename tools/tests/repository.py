# SPDX-License-Identifier: Apache-2.0
"""A small repository for a test: programs that print where they are from, and the real tools."""
import os
import shutil
import subprocess
import tempfile
import time
import unittest
from pathlib import Path

TOP = Path(__file__).resolve().parent.parent.parent
PROGRAMS = ("trap", "trapsheet", "traprun", "trappool", "trapset", "presscheck", "trapkeep")
# File times are a few milliseconds apart at least.
STEP = 0.05


def write_program(path: Path, text: str) -> None:
    """Writes a shell script that can be run."""
    path.parent.mkdir(parents=True, exist_ok=True)
    path.write_text("#!/bin/sh\n" + text, encoding="utf-8")
    path.chmod(0o755)


class RepositoryTest(unittest.TestCase):
    """Gives each test a repository with one library, `lists`, below the programs, and the real tools."""

    def setUp(self) -> None:
        folder = tempfile.TemporaryDirectory()
        self.addCleanup(folder.cleanup)
        self.place = Path(folder.name)
        self.top = self.place / "repository"
        self.path = f"{self.place / 'bin'}:{os.environ['PATH']}"
        for name in ("tools", "bin"):
            shutil.copytree(TOP / name, self.top / name, symlinks=True, ignore=shutil.ignore_patterns("__pycache__"))
        for name in ("programs.txt", "LICENSE", "NOTICE", "THIRD-PARTY"):
            shutil.copy(TOP / name, self.top)
        for name in ("src/lib.rt", "specs/Lists.antt", "proofs/Lists.antt"):
            self.write(f"crates/lists/{name}", "-- a library\n")
        for name in PROGRAMS:
            self.write(f"crates/{name}/src/main.rt", f"//! The program {name}.\n")
        self.write("crates.txt", "lists:\n" + "".join(f"{name}: lists\n" for name in PROGRAMS))

    def write(self, name: str, text: str) -> Path:
        """Writes a file of the repository."""
        path = self.top / name
        path.parent.mkdir(parents=True, exist_ok=True)
        path.write_text(text, encoding="utf-8")
        return path

    def change(self, name: str, text: str = "\n") -> None:
        """Appends to a source, later than all that was made before."""
        time.sleep(STEP)
        with open(self.top / name, "a", encoding="utf-8") as file:
            file.write(text)

    def run_tool(self, *words: str) -> "subprocess.CompletedProcess[str]":
        """Runs a tool or a program of the repository."""
        surroundings = {**os.environ, "PATH": self.path, "PYTHONDONTWRITEBYTECODE": "1"}
        return subprocess.run([str(self.top / words[0]), *words[1:]], cwd=self.top, env=surroundings,
                              capture_output=True, text=True, check=False, timeout=300)
