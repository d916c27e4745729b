# SPDX-License-Identifier: Apache-2.0
"""Supercells: squares of pixels that hold a whole number of screen periods both ways, so that angle and frequency
come out as they are asked for."""
import itertools
import math
from collections.abc import Iterator, Sequence
from dataclasses import dataclass
from typing import NamedTuple

from .errors import UsageError

ROUND, ELLIPTIC, LINE = "round", "elliptic", "line"
SHAPES = (ROUND, ELLIPTIC, LINE)
# How far an angle may be off in degrees; and a frequency as a part of itself, the next part if none fits.
MOST_TURN, STRETCHES = 0.01, (0.002, 0.005, 0.01)
LEAST_SIDE, MOST_SIDE = 256, 4096
# How many cells of each ink are tried beside those of the others, and which beat in lines per inch is slow enough.
MOST_CELLS, SLOW = 40, 0.02
LEAST_PERIOD = 2
STRONG = 3
Vector = tuple[float, float]


@dataclass(frozen=True)
class Screen:
    """A screen as it is asked for: the angle in degrees, counterclockwise from the horizontal, lines per inch, and the
    shape of its dots."""

    angle: float
    lpi: float
    shape: str = ROUND


class Cell(NamedTuple):
    """A supercell: `across` periods to the right and `upward` periods up in a square of `side` pixels."""

    across: int
    upward: int
    side: int

    @property
    def angle(self) -> float:
        """The angle in degrees."""
        return math.degrees(math.atan2(self.upward, self.across)) % 180

    @property
    def periods(self) -> float:
        """Periods along the screen's own direction in the square."""
        return math.hypot(self.across, self.upward)

    def lpi(self, dpi: float) -> float:
        """Lines per inch."""
        return dpi * self.periods / self.side

    def vector(self, dpi: float) -> Vector:
        """The frequency as lines per inch to the right and up."""
        return dpi * self.across / self.side, dpi * self.upward / self.side


def turned_by(one: float, other: float) -> float:
    """How many degrees lie between two directions of a screen, which repeats after half a turn."""
    return abs((one - other + 90) % 180 - 90)


def cells(screen: Screen, dpi: float) -> list[Cell]:
    """The supercells whose angle and frequency are the screen's, but for the limits, the smallest first."""
    if dpi / screen.lpi < LEAST_PERIOD:
        raise UsageError(f"{screen.lpi:g} lines per inch at {dpi:g} dpi: a line needs at least {LEAST_PERIOD} pixels")
    found = [cell for cell in nearest_cells(screen, dpi) if turned_by(cell.angle, screen.angle) <= MOST_TURN]
    for stretch in STRETCHES:
        if near := [cell for cell in found if abs(cell.lpi(dpi) / screen.lpi - 1) <= stretch]:
            return near
    raise UsageError(f"no supercell of {screen.angle:g} degrees and {screen.lpi:g} lines per inch at {dpi:g} dpi "
                     f"within {MOST_TURN} degrees: take another angle or frequency")


def nearest_cells(screen: Screen, dpi: float) -> Iterator[Cell]:
    """For each side the supercell that is nearest to a screen, and its neighbours along the screen's direction."""
    turn = math.radians(screen.angle)
    for side in range(LEAST_SIDE, MOST_SIDE + 1):
        periods = side * screen.lpi / dpi
        places = {(round(length * math.cos(turn)), round(length * math.sin(turn)))
                  for length in (periods, periods * 0.995, periods * 1.005)}
        yield from (Cell(across, upward, side) for across, upward in sorted(places) if across or upward)


# Moire

def quarter_turns(vector: Vector, shape: str) -> list[Vector]:
    """A frequency in all the directions in which the screen has it: a line screen has two, dots have four."""
    x, y = vector
    return [(x, y), (-x, -y)] if shape == LINE else [(x, y), (-y, x), (-x, -y), (y, -x)]


def beat(vectors: Sequence[Vector], shapes: Sequence[str]) -> float:
    """The lowest frequency that three screens make together, in lines per inch: 0 is none."""
    one, *others = vectors
    choices = itertools.product(*(quarter_turns(vector, shape) for vector, shape in zip(others, shapes[1:])))
    return min(math.hypot(one[0] + sum(x for x, _ in chosen), one[1] + sum(y for _, y in chosen)) for chosen in choices)


def closing(choices: Sequence[Sequence[Cell]], dpi: float, screens: Sequence[Screen]) -> list[Cell] | None:
    """Supercells of one side that make no beat at all: of the smallest number of periods, and the frequency that is
    nearest to what is asked for."""
    by_side: dict[int, list[list[Cell]]] = {}
    for at, cells_of_ink in enumerate(choices):
        for cell in cells_of_ink:
            by_side.setdefault(cell.side, [[] for _ in choices])[at].append(cell)
    shapes = [screen.shape for screen in screens]
    found = [list(chosen) for inks in by_side.values() for chosen in itertools.product(*inks)
             if beat([cell.vector(dpi) for cell in chosen], shapes) < 1e-9]

    def rank(chosen: Sequence[Cell]) -> tuple[float, float]:
        periods = sum(cell.across ** 2 + cell.upward ** 2 for cell in chosen)
        return periods, sum(abs(cell.lpi(dpi) - screen.lpi) for cell, screen in zip(chosen, screens))

    return min(found, key=rank) if found else None


def cells_together(screens: Sequence[Screen], dpi: float) -> list[Cell]:
    """The supercells of the strong inks: such that make no beat, or else the smallest of those that make a slow one, or
    else those of the slowest."""
    choices, shapes = [cells(screen, dpi) for screen in screens], [screen.shape for screen in screens]
    if len(screens) < STRONG:
        return [cells_of_ink[0] for cells_of_ink in choices]
    found: list[Cell] | None = closing(choices, dpi, screens)
    if found is not None:
        return found

    def rank(chosen: Sequence[Cell]) -> tuple[float, int]:
        slowest = beat([cell.vector(dpi) for cell in chosen], shapes)
        return max(slowest, SLOW), sum(cell.side ** 2 for cell in chosen)

    combinations = [list(one) for one in itertools.product(*(found[:MOST_CELLS] for found in choices))]
    return min(combinations, key=rank)
