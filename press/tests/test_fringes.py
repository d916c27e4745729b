# SPDX-License-Identifier: Apache-2.0
"""Coloured fringes at rich black, beside the definition sample by sample."""
from collections.abc import Sequence

import numpy
import pytest

from press.fringes import MARGIN, PAPER, UNCOVERED, Fringes

pytestmark = pytest.mark.quick
Plane = numpy.ndarray
CYAN, MAGENTA, BLACK = range(3)


def slow(planes: Sequence[Plane], radius: int) -> Plane:
    """The definition: some sample near has its ink under black and more of it than every uncovered one near."""
    height, width = planes[BLACK].shape
    out = numpy.zeros((height, width), dtype=bool)
    for y in range(height):
        for x in range(width):
            near = [(v, u) for v in range(max(0, y - radius), min(height, y + radius + 1))
                    for u in range(max(0, x - radius), min(width, x + radius + 1))
                    if (v - y) ** 2 + (u - x) ** 2 <= radius ** 2]
            opened = [at for at in near if planes[BLACK][at] >= UNCOVERED]
            hidden = [at for at in near if planes[BLACK][at] < UNCOVERED]
            out[y, x] = bool(opened) and any(
                min(int(plane[at]) for at in hidden) + MARGIN < min([PAPER, *(int(plane[at]) for at in opened)])
                for plane in planes[:BLACK] if hidden)
    return out


def found(planes: Sequence[Plane], radius: int) -> Plane:
    """The fringes of a whole page."""
    return Fringes([BLACK], [CYAN, MAGENTA], radius).within(planes, range(planes[0].shape[0]))


@pytest.mark.parametrize("radius", [1, 2, 3, 5])
def test_random_planes(radius: int) -> None:
    """The sums over stretches find the samples that the definition names, in each band of rows too."""
    chance = numpy.random.default_rng(radius)
    values = [0, 90, 120, 140, 230, 255]
    planes = [chance.choice(values, (5, 140)).repeat(4, 0).repeat(4, 1).astype("u1") for _ in range(3)]
    whole = slow(planes, radius)
    assert whole.any() and not whole.all()
    assert (found(planes, radius) == whole).all()
    parts = [Fringes([BLACK], [CYAN, MAGENTA], radius).within(planes, rows) for rows in (range(0, 9), range(9, 20))]
    assert (numpy.concatenate(parts) == whole).all()


def test_colour_below_black_shows_at_its_edge_unless_it_is_drawn_back() -> None:
    """A square of rich black has a fringe all around, one that is drawn back by twice the radius none, and black that
    overprints a colour has none where the colour goes on."""
    cyan, magenta, black = (numpy.full((40, 40), PAPER, dtype="u1") for _ in range(3))
    black[10:30, 10:30] = 0
    cyan[10:30, 10:30] = 100
    rich = found([cyan, magenta, black], 1)
    assert rich[9:11, 10:30].all() and not rich[12:28, 12:28].any() and not rich[:9].any()
    drawn_back = numpy.full((40, 40), PAPER, dtype="u1")
    drawn_back[12:28, 12:28] = 100
    assert not found([drawn_back, magenta, black], 1).any()
    assert not found([numpy.full((40, 40), 100, dtype="u1"), magenta, black], 1).any()


def test_two_states_of_a_page() -> None:
    """Before and after are looked at by themselves; a page without black has no fringes."""
    cyan, black = numpy.full((20, 20), 100, dtype="u1"), numpy.full((20, 20), PAPER, dtype="u1")
    black[5:15, 5:15] = 0
    before = [numpy.where(black == 0, 100, PAPER).astype("u1"), numpy.full((20, 20), PAPER, dtype="u1"), black]
    old, new = Fringes([BLACK], [CYAN, MAGENTA], 1).both(before, [cyan, *before[1:]], range(20))
    assert old.any() and not new.any()
    none = Fringes([], [], 1).both(before, before, range(20))
    assert not none[0].any() and not none[1].any()
