# SPDX-License-Identifier: Apache-2.0
"""Pictures of plates: the light of inks, means of squares, shifts, and where traps are drawn."""
from pathlib import Path

import numpy
import pytest

from press import picture
from press.folder import JOB, PageFolder, PageSource, write_table
from press.inks import Ink
from press.plates import thickened, write_pgm

pytestmark = pytest.mark.quick
INKS = (Ink("Cyan", b"Cyan", b"Cyan", "0.61", look=(100, 0, 0, 0)), Ink("Magenta", b"Magenta", b"Magenta", "0.76", look=(0, 100, 0, 0)),
        Ink("Varnish", b"Varnish", b"Varnish", "0.1", "Transparent", (0, 0, 0, 50)))
SIZE = 30, 40


@pytest.fixture(name="page")
def fixture_page(tmp_path: Path) -> PageFolder:
    """A page of cyan beside magenta, whose cyan spreads by two samples, under a varnish."""
    (tmp_path / "trapped").mkdir()
    for place, edge in ((tmp_path, 20), (tmp_path / "trapped", 22)):
        planes = [numpy.full(SIZE, 255, dtype="u1") for _ in INKS]
        planes[0][:, :edge], planes[1][:, 20:], planes[2][:] = 0, 0, 0
        for ink, plane in zip(INKS, planes):
            write_pgm(str(place / f"{ink.name}.pgm"), plane, 255)
    write_table(str(tmp_path), PageSource(b"a.pdf", 1, 600), INKS)
    (tmp_path / JOB).write_text("<< /TrapWidth 0.3 >> settrapparams\n")
    return PageFolder.read(str(tmp_path))


def test_inks_are_laid_over_each_other(page: PageFolder) -> None:
    """A picture has the light of each ink, of two inks less than of either, and nothing of the varnish."""
    painter = picture.Painter(page, True)
    light = painter.picture(painter.after, (0, 0, 40, 30))
    assert light.shape == (30, 40, 3)
    assert tuple(light[0, 0]) == picture.LIGHTS[0] and tuple(light[0, 39]) == picture.LIGHTS[1]
    assert (light[0, 21] <= numpy.minimum(light[0, 0], light[0, 39])).all()


@pytest.mark.parametrize("times", [1, 3, 7, 50])
def test_small_before_and_after(page: PageFolder, times: int) -> None:
    """Both small pictures are those that are drawn one by one."""
    painter = picture.Painter(page, True)
    parts = [painter.small_both(times, rows) for rows in painter.small_rows(times)]
    before, after = (numpy.concatenate(one) for one in zip(*parts))
    assert (before == painter.small(painter.before, times)).all() and (after == painter.small(painter.after, times)).all()
    assert times > 7 or (before != after).any()


def test_traps_are_drawn_in_their_colour(page: PageFolder) -> None:
    """Where ink was added its colour is drawn; the rest is pale."""
    traps = picture.Painter(page, True).traps((0, 0, 40, 30))
    assert {tuple(color) for color in traps[:, 20:22].reshape(-1, 3)} == {picture.LIGHTS[0]}
    assert traps[:, :20].min() >= 205


def test_parts_with_most_traps(page: PageFolder) -> None:
    """The part is found in steps of eight samples; the table counts what was added."""
    painter = picture.Painter(page, True)
    assert painter.most(8, 30) == (16, 0, 8, 30)
    assert painter.table((0, 0, 40, 30))[2].split()[:3] == ["Cyan", str(2 * 30), "0"]


def test_trap_width_and_shifts(page: PageFolder) -> None:
    """No two plates part by more than the narrowest trap, 2.5 samples here."""
    width, shifts = picture.trap_width(page), picture.usual_shifts(page)
    assert width == pytest.approx(2.5)
    assert max((a - c) ** 2 + (b - d) ** 2 for a, b in shifts for c, d in shifts) in (1, 4)


@pytest.mark.parametrize("times, shape", [(1, (7, 9)), (2, (3, 4)), (4, (1, 2)), (9, (1, 1))])
def test_means_of_squares(times: int, shape: tuple[int, int]) -> None:
    """A square becomes its mean; strips that make no square are left out; a page smaller than a square stays a point."""
    plane = numpy.arange(63, dtype="u1").reshape(7, 9)
    small = picture.mean_of(plane, times)
    assert small.shape == shape
    if times in (2, 4):
        assert abs(float(small[0, 0]) - plane[:times, :times].mean()) <= 0.5


def test_shifted_plates() -> None:
    """A plate that is moved leaves paper behind, and what leaves the part is gone."""
    plane = numpy.zeros((4, 4), dtype="u1")
    assert (picture.shifted(plane, (1, 2), (0, 0, 4, 4)) == 0).sum() == 6
    assert picture.shifted(plane, (9, 0), (0, 0, 4, 4)).min() == 255
    assert (picture.shifted(plane, (0, 0), (-1, -1, 6, 6)) == 0).sum() == 16


def test_marks_are_thickened() -> None:
    """A mark grows by a sample to the left and right, above and below."""
    where = numpy.zeros((5, 5), dtype=bool)
    where[2, 2] = True
    assert numpy.argwhere(thickened(where)).tolist() == [[1, 2], [2, 1], [2, 2], [2, 3], [3, 2]]
    assert thickened(thickened(where)).sum() == 13
