# SPDX-License-Identifier: Apache-2.0
"""Which screen each ink has: by options, by a table of screens, or as is usual."""
import os
import re
from collections.abc import Mapping, Sequence
from dataclasses import dataclass, replace

from .errors import PressError, Status, UsageError
from .files import table_lines
from .inks import Ink
from .names import readable
from .screen_cell import SHAPES, Screen
from .screen_dots import LINEAR, Curve
from .settings import number, one_of

LETTERS = {"C": "Cyan", "M": "Magenta", "Y": "Yellow", "K": "Black"}
USUAL_ANGLES = {"Cyan": 15.0, "Magenta": 75.0, "Yellow": 0.0, "Black": 45.0}
# Angles of spots in their order, so that no neighbours have the same.
SPOT_ANGLES = (45.0, 75.0, 15.0)
LEAST_LPI, MOST_LPI = 10, 600
COLUMNS = "a line has an ink, and after it, with tabs between them, an angle, lpi, a shape, a least dot and a curve"


@dataclass(frozen=True)
class InkScreen:
    """How an ink is screened: its screen, the least dot in per cent, the compensation curve and its name."""

    screen: Screen
    least: float = 0.0
    curve: Curve = LINEAR
    curve_name: str = "linear"


def angles_of(text: str) -> dict[str, float]:
    """The angles of C15,M75,Y0,K45, or of NAME=ANGLE, by the inks' names."""
    found = {}
    for part in text.split(","):
        match = re.fullmatch(r"([CMYK])([\d.]+)|(.+)=([\d.]+)", part.strip())
        if not match:
            raise UsageError(f"--angles is C15,M75,Y0,K45 or NAME=ANGLE, and not '{part}'")
        name, angle = (LETTERS[match[1]], match[2]) if match[1] else (match[3], match[4])
        found[name] = number(angle, 0, 180, f"--angles: {name}")
    return found


def read_curve(path: str) -> Curve:
    """A curve: lines of two numbers, a tint and what is to be printed for it, both in per cent."""
    points = {0.0: 0.0, 100.0: 100.0}
    for count, line in enumerate(table_lines(path), 1):
        words = line.partition("#")[0].split()
        if not words:
            continue
        place = f"{path}: line {count}"
        if len(words) != 2:
            raise PressError(Status.INPUT, "a line of a curve has two numbers, from 0 to 100", place)
        tint, wanted = (number(word, 0, 100, place) for word in words)
        points[tint] = wanted
    curve = tuple(sorted(points.items()))
    if points[0.0] or points[100.0] != 100:
        raise PressError(Status.INPUT, "a curve leaves 0 and 100 as they are", path)
    if any(after[1] < before[1] for before, after in zip(curve, curve[1:])):
        raise PressError(Status.INPUT, "a curve never falls", path)
    return curve


def with_curve(one: InkScreen, name: str, folder: str) -> InkScreen:
    """The same with the curve of that name: linear, or a file."""
    if name == "linear":
        return replace(one, curve=LINEAR, curve_name=name)
    return replace(one, curve=read_curve(os.path.join(folder, name)), curve_name=os.path.basename(name))


def read_line(words: Sequence[str], usual: InkScreen, place: str, folder: str) -> InkScreen:
    """The screen of a table's line. What is left out, or is -, is as usual."""
    given = [*words[1:], *("-" for _ in range(6 - len(words)))]
    angle, lpi, shape, least, curve = ("" if word == "-" else word for word in given)
    screen = Screen(number(angle, 0, 180, f"{place}: the angle") if angle else usual.screen.angle,
                    number(lpi, LEAST_LPI, MOST_LPI, f"{place}: lpi") if lpi else usual.screen.lpi,
                    one_of(f"{place}: the shape", SHAPES)(shape) if shape else usual.screen.shape)
    if least:
        usual = replace(usual, least=number(least, 0, 50, f"{place}: the least dot"))
    one = replace(usual, screen=screen)
    return with_curve(one, curve, folder) if curve else one


def read_table(path: str, usual: Mapping[str, InkScreen],
               inks: Sequence[Ink]) -> tuple[dict[str, InkScreen], list[str]]:
    """The screens of a table by the inks' names in the job; and its lines that are of no ink of the page."""
    found, strangers = {}, []
    for count, line in enumerate(table_lines(path), 1):
        words = [word.strip() for word in line.rstrip().split("\t")]
        if not line.strip() or line.startswith("#"):
            continue
        place = f"{path}: line {count}"
        if len(words) > 6:
            raise UsageError(f"{place}: {COLUMNS}")
        ink = ink_called(words[0], inks)
        if ink is None:
            strangers.append(f"{place}: no ink of the page is called {words[0]}")
            continue
        found[ink.name] = read_line(words, usual[ink.name], place, os.path.dirname(path))
    return found, strangers


def ink_called(name: str, inks: Sequence[Ink]) -> Ink | None:
    """The ink of that name, as the PDF or the job spells it."""
    return next((ink for ink in inks if name in (ink.name, readable(ink.colorant))), None)


def usual_screens(inks: Sequence[Ink], angles: Mapping[str, float], usual: InkScreen) -> dict[str, InkScreen]:
    """The screen of each ink without a table: the angle that was given, or the usual one."""
    by_name = dict(USUAL_ANGLES)
    for name, angle in angles.items():
        ink = ink_called(name, inks)
        if ink is None and name not in USUAL_ANGLES:
            raise UsageError(f"--angles: no ink of the page is called {name}")
        by_name[ink.name if ink else name] = angle
    spots = [ink.name for ink in inks if ink.name not in by_name]
    by_name.update({name: SPOT_ANGLES[at % len(SPOT_ANGLES)] for at, name in enumerate(spots)})
    return {ink.name: replace(usual, screen=replace(usual.screen, angle=by_name[ink.name])) for ink in inks}
