# SPDX-License-Identifier: Apache-2.0
"""What the owner says of two inks that meet: which one spreads, how wide, or that nothing is trapped between them.

The job language has densities and zones. A direction becomes a density; a width and "never" become zones where the two
inks meet. What neither can say is refused with the line of the table.
"""
from __future__ import annotations

import re
from collections.abc import Iterator, Sequence
from dataclasses import dataclass, replace
from typing import Any

import numpy as np
import numpy.typing as npt

from . import bits
from .errors import PressError, Status, UsageError
from .files import beside
from .inks import Ink, Origin, entries_of, ink_called
from .names import readable
from .settings import Settings, house_file
from .strokes import Box, Edges, edges_of, steps_of
from .strokes import Ink as StrokeInk
from .strokes import Rule
from .tables import counts

Marks = npt.NDArray[np.bool_]
# By how much a density is moved past another one.
STEP = 0.01
# A place is refused if more than this share of its edges belongs to other inks.
MOST_FOREIGN = 0.25
BAND_ROWS = 256
LEAST_TILE, TILE_WIDTHS = 16, 4


@dataclass(frozen=True)
class PairRule:
    """A line of a table of pairs: two inks as the PDF or the job names them, and one of: the first spreads under the
    second (`under`), the factor of the trap's width, 0 being no trap; and the place of the line."""

    one: bytes
    other: bytes
    under: bool
    factor: float
    place: str


@dataclass(frozen=True)
class PairPlaces:
    """Where two inks meet: boxes of pixels, the factor of the width there, and the reason."""

    boxes: tuple[Box, ...]
    factor: float
    reason: str


def read_pairs(path: str) -> list[PairRule]:
    """The lines of a table of pairs: two inks, and "under", "never" or a factor of the width such as 0.5, with tabs
    between them."""
    found = []
    for number, line in entries_of(path):
        parts = [part for part in line.split("\t") if part]
        place = f"{path}: line {number}"
        if len(parts) != 3:
            raise UsageError(f'{place}: a pair is two inks and "under", "never" or a factor, with tabs between them')
        one, other, what = parts
        is_factor = re.fullmatch(r"\d{1,2}(\.\d*)?|\.\d+", what)
        if what not in ("under", "never") and not (is_factor and 0 < float(what) <= 10):
            raise UsageError(f'{place}: what holds for a pair is "under", "never" or a factor to 10, not \'{what}\'')
        factor = float(what) if is_factor else 1.0 if what == "under" else 0.0
        found.append(PairRule(one.encode(), other.encode(), what == "under", factor, place))
    return found


def pairs_file(settings: Settings, path: str) -> str | None:
    """The table of pairs of a file: that of --pairs, NAME.pairs beside the file, or pairs.inks of the house."""
    return settings.pairs or next(iter(beside(path, "pairs")), None) or house_file("pairs.inks")


def number_of(inks: Sequence[Ink], name: bytes) -> int | None:
    """Which ink of a page has a name."""
    return ink_called(name, [(ink.colorant, ink.name.encode()) for ink in inks])


# Directions

def directed(inks: Sequence[Ink], rules: Sequence[PairRule]) -> list[Ink]:
    """The inks with densities by which the first ink of each rule for a direction is the lighter one, so that it
    spreads under the second. A density is moved only if no other ink's lies between."""
    out = list(inks)
    for rule in rules:
        one, other = number_of(out, rule.one), number_of(out, rule.other)
        if not rule.under or one is None or other is None:
            continue
        lighter, darker = out[one], out[other]
        if lighter.kind != "Normal":
            message = f"{readable(lighter.colorant)} is {lighter.kind}, and no trap spreads it"
            raise PressError(Status.USAGE, message, rule.place)
        if float(lighter.density) < float(darker.density):
            continue
        for at, density in ((one, float(darker.density) - STEP), (other, float(lighter.density) + STEP)):
            if density >= 0.001 and is_free(out, at, density, (one, other)):
                origin = Origin("told", f"{rule.place}: by its direction")
                out[at] = replace(out[at], density=f"{density:.2f}", density_from=origin)
                break
        else:
            between = ", ".join(readable(ink.colorant) for ink in between_of(out, lighter, darker))
            message = (f"the job language gives directions by densities, and {between} lies between those of "
                       f"{readable(lighter.colorant)} and {readable(darker.colorant)}")
            raise PressError(Status.USAGE, message, rule.place)
    return out


def between_of(inks: Sequence[Ink], lighter: Ink, darker: Ink) -> list[Ink]:
    """The inks whose densities lie between those of two."""
    low, high = sorted((float(lighter.density), float(darker.density)))
    return [ink for ink in inks if counts(ink.kind) and ink.has_ink and ink not in (lighter, darker)
            and low <= float(ink.density) <= high]


def is_free(inks: Sequence[Ink], at: int, density: float, pair: tuple[int, int]) -> bool:
    """Whether a density can be moved there without passing that of an ink beside the pair."""
    low, high = sorted((float(inks[at].density), density))
    return not any(low <= float(ink.density) <= high for number, ink in enumerate(inks)
                   if number not in pair and ink.has_ink and counts(ink.kind))


# Widths

def pair_places(planes: Sequence[Any], inks: Sequence[Ink], rules: Sequence[PairRule], rule: Rule,
                resolution: int) -> Iterator[PairPlaces]:
    """Where the inks of the rules for a width meet. Refuses a pair that meets where other inks do too."""
    for one in rules:
        first, second = number_of(inks, one.one), number_of(inks, one.other)
        if one.under or first is None or second is None:
            continue
        names = f"{readable(inks[first].colorant)} and {readable(inks[second].colorant)}"
        boxes, own, foreign = meeting_boxes(planes, inks, (first, second), rule, resolution)
        if own and foreign > MOST_FOREIGN * (own + foreign):
            message = (f"{names} meet where other inks do too: the job language has one width for a zone, and "
                       f"{foreign} of {own + foreign} edges there are others")
            raise PressError(Status.USAGE, message, one.place)
        if boxes:
            what = "not trapped" if not one.factor else f"{one.factor:g} times the trap width"
            yield PairPlaces(tuple(boxes), one.factor, f"{names} ({what}, {one.place}):")


def meeting_boxes(planes: Sequence[Any], inks: Sequence[Ink], pair: tuple[int, int], rule: Rule,
                  resolution: int) -> tuple[list[Box], int, int]:
    """The boxes of tiles in which two inks meet, with the trap around; how many edges there are theirs, and how many
    are those of others."""
    kept = [at for at, ink in enumerate(inks) if counts(ink.kind) and ink.has_ink]
    if not set(pair) <= set(kept):
        return [], 0, 0
    steps = steps_of([StrokeInk(float(inks[at].density)) for at in kept], rule)
    height, width = planes[0].shape
    pixels = rule.width * resolution / 72
    tile, around = max(LEAST_TILE, int(TILE_WIDTHS * pixels)), int(pixels) + 1
    found: list[tuple[Box, int, int]] = []
    for top in range(0, height, tile):
        rows = [np.ascontiguousarray(planes[at][top:min(height, top + tile + 1)]) for at in kept]
        of_pair = edges_of([rows[kept.index(at)] for at in pair], [steps[kept.index(at)] for at in pair])
        mine = marks_of(of_pair, tile, width)
        if mine.any():
            found += tiles_of(mine, marks_of(edges_of(rows, steps), tile, width), tile, top)
    return ([box.grown(around) for box, _, _ in found], sum(own for _, own, _ in found),
            sum(foreign for _, _, foreign in found))


def tiles_of(mine: Marks, everything: Marks, tile: int, top: int) -> Iterator[tuple[Box, int, int]]:
    """Of each tile of a row of tiles that has edges of two inks: the box around these, how many they are, and how many
    are those of others."""
    for column in np.unique(np.flatnonzero(mine.any(axis=0)) // tile):
        part = np.s_[:, column * tile:(column + 1) * tile]
        down, across = np.nonzero(mine[part])
        left = int(column) * tile
        box = Box(left + int(across.min()), top + int(down.min()), left + int(across.max()) + 2,
                  top + int(down.max()) + 2)
        yield box, int(mine[part].sum()), int((everything[part] & ~mine[part]).sum())


def marks_of(edges: Edges, rows: int, width: int) -> Marks:
    """The pixels of a tile's own rows that have an edge to the right or below that calls for a trap."""
    return bits.unpacked((edges.right_calls | edges.lower_calls)[:rows], width)
