# SPDX-License-Identifier: Apache-2.0
"""What the job language has, by the tables of docs/JOBS.md: the parameters, and the kinds of ink.
"""
import functools
import itertools
import os
from dataclasses import dataclass

from .errors import PressError, Status
from .tools import TOP

PLACE = os.path.join(TOP, "docs", "JOBS.md")


@dataclass(frozen=True)
class Kind:
    """Whether inks of a kind count towards densities, and whether traps keep away from them."""

    counts: bool
    keeps_away: bool


@functools.lru_cache(maxsize=None)
def document() -> list[list[str]]:
    """The lines of the document, each as its cells without marks of code."""
    try:
        with open(PLACE, encoding="utf-8") as file:
            return [[cell.strip().strip("`") for cell in line.strip().strip("|").split("|")] for line in file]
    except OSError as fault:
        raise PressError(Status.NO_TOOL, f"the tables of the job language are not there: no {PLACE}") from fault


def rows_of(*head: str) -> list[list[str]]:
    """The rows of the table whose header begins with these cells."""
    lines = document()
    start = next(at for at, cells in enumerate(lines) if cells[:len(head)] == list(head))
    return list(itertools.takewhile(lambda cells: len(cells) > 1, lines[start + 2:]))


@functools.lru_cache(maxsize=None)
def parameters() -> tuple[str, ...]:
    """The keys of a dictionary before settrapparams that are parameters."""
    return tuple(cells[0] for cells in rows_of("Entry", "Unit"))


@functools.lru_cache(maxsize=None)
def kinds() -> dict[str, Kind]:
    """The kinds of ink by name."""
    return {name.strip("/"): Kind(counts == "yes", keeps_away == "yes")
            for name, counts, _, keeps_away, *_ in rows_of("ColorantType", "Counts as density")}


def counts(kind: str) -> bool:
    """Whether an ink of this kind counts towards densities: the density of a varnish or a foil counts for nothing."""
    return kinds()[kind].counts


def is_seen(kind: str) -> bool:
    """Whether an ink of this kind is drawn in pictures: it darkens what it covers, or traps keep away from it.
    A varnish is not."""
    return kinds()[kind].counts or kinds()[kind].keeps_away
