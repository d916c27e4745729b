# SPDX-License-Identifier: Apache-2.0
"""The tables programs.txt and crates.txt, and the stamp of a program's sources."""
import hashlib
from pathlib import Path
from typing import NamedTuple

TOP = Path(__file__).resolve().parent.parent
# The crate of the library, which is stamped and released as the programs are.
LIBRARY = "trap_c"
LINKED = ("library/calls.c",)
PARTS = ("src", "specs", "proofs")


class Program(NamedTuple):
    """A row of programs.txt."""

    name: str
    statuses: tuple[int, ...]
    heap: str
    usage: str


class Crate(NamedTuple):
    """A line of crates.txt: the crate, whether it is a static library, and the crates that it uses."""

    name: str
    is_static: bool
    uses: tuple[str, ...]
    line: str


def rows(path: Path) -> list[str]:
    """The lines of a table, without comments and blank lines."""
    lines = path.read_text(encoding="utf-8").splitlines()
    return [line for line in lines if line.strip() and not line.startswith("#")]


def programs(top: Path = TOP) -> list[Program]:
    """The programs, in the order of the table."""
    found = []
    for row in rows(top / "programs.txt"):
        name, statuses, heap, usage = row.split(None, 3)
        found.append(Program(name, tuple(int(status) for status in statuses.split(",")), heap, usage.strip()))
    return found


def names(top: Path = TOP) -> list[str]:
    """The names of the programs."""
    return [program.name for program in programs(top)]


def crates(top: Path = TOP) -> dict[str, Crate]:
    """The crates by name."""
    found = {}
    for line in rows(top / "crates.txt"):
        head, _, uses = line.partition(":")
        name, *kind = head.split()
        found[name] = Crate(name, "staticlib" in kind, tuple(uses.split()), line)
    return found


def below(crate: str, known: dict[str, Crate]) -> list[str]:
    """The crate and all crates of the repository that it uses, directly or not: each after those that it uses."""
    order: list[str] = []

    def walk(name: str) -> None:
        if name in order or name not in known:
            return
        for one in known[name].uses:
            walk(one)
        order.append(name)

    walk(crate)
    return order


def stamp(roots: list[str], top: Path = TOP) -> str:
    """A checksum of every text that these crates are made of: src/, specs/ and proofs/ of each crate below, and its
    line in crates.txt; for the library also what is linked with it."""
    known = crates(top)
    used = {name for root in roots for name in below(root, known)}
    lines = sorted((known[name].line for name in used), key=str.encode)
    folders = [top / "crates" / name / part for name in used for part in PARTS]
    files = [path for folder in folders for path in folder.rglob("*") if path.is_file()]
    files += [top / file for file in LINKED if LIBRARY in roots and (top / file).is_file()]
    text = "".join(line + "\n" for line in lines)
    for place, path in sorted((path.relative_to(top).as_posix(), path) for path in files):
        text += f"{hashlib.sha256(path.read_bytes()).hexdigest()}  {place}\n"
    return hashlib.sha256(text.encode()).hexdigest()
