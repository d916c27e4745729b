# SPDX-License-Identifier: Apache-2.0
"""Thin strokes on plates: which parts are found, how thick they are, and the width that leaves them a third.
Pages are drawn here."""
import math
import tracemalloc
from dataclasses import replace

import numpy as np
import pytest

from press import canvas, strokes, thin
from press.job_language import Parameters
from press.layout import stroke_rule
from press.strokes import Box, Ink

pytestmark = [pytest.mark.quick, pytest.mark.plain]

# A trap of 1.89 pixels at 600 dpi, as the offset preset has it; and one of 4.72, as flexo.
OFFSET, FLEXO = (replace(stroke_rule(Parameters()), width=width * 72 / 25.4) for width in (0.08, 0.2))
CYAN, MAGENTA, YELLOW, BLACK = Ink(0.61), Ink(0.76), Ink(0.16), Ink(1.7)
INKS = (CYAN, MAGENTA, YELLOW, BLACK)
RED, BLUE, PAPER, GREEN = (0, 240, 240, 0), (255, 153, 0, 51), (0, 0, 0, 0), (230, 0, 230, 0)
FULL_BLACK, RICH = (0, 0, 0, 255), (150, 128, 100, 255)


def page(height, width, ground):
    """Plates of four inks as in PGM files, 0 being full ink, with one colour all over."""
    return [np.full((height, width), 255 - tint, np.uint8) for tint in ground]


def paint(plates, where, colour):
    """Paints a slice or a mask."""
    for plate, tint in zip(plates, colour):
        plate[where] = 255 - tint


def bar(plates, left, upper, width, height, colour):
    """Paints a rectangle."""
    paint(plates, np.s_[upper:upper + height, left:left + width], colour)


def parts_of(plates, rule=OFFSET, inks=INKS, skip=()):
    return strokes.find_strokes(plates, inks, rule, 600, skip)


def lines_of(plates, rule=OFFSET):
    return thin.narrow_lines(parts_of(plates, rule), rule, 600)


def covered(lines, rule=OFFSET):
    """The pixels that get a width of their own, and which."""
    table = {}
    for width, boxes in thin.boxes_by_width(lines, rule, 600).items():
        for box in boxes:
            for row in range(max(0, box.upper), box.lower):
                for column in range(max(0, box.left), box.right):
                    table[row, column] = width * 600 / 72
    return table


# The measure of a stroke

@pytest.mark.parametrize("stroke, reach", [(1.2, 0), (2, 0.5), (2.9, 0.5), (3.3, 1.118), (4.5, 1.118), (5.9, 1.118),
                                           (6.1, 2.0616), (9.2, 3.0414)])
def test_a_stroke_keeps_a_third(stroke, reach):
    """No more pixels are taken on either side than a third of the stroke, in reaches that the engine distinguishes."""
    found = thin.reach_for(stroke)
    assert found == pytest.approx(reach, abs=0.001)
    assert stroke < 3 or stroke - 2 * math.floor(found + 0.5) >= stroke / 3


def test_a_centred_trap_has_twice_the_reach():
    """A line whose traps lie on both sides gets two thirds of the stroke."""
    plates = page(60, 200, (255, 0, 0, 0))
    bar(plates, 20, 30, 160, 4, (0, 255, 0, 0))
    (line,) = lines_of(plates, FLEXO)
    assert line.slides and line.width * 600 / 72 == pytest.approx(2 * 1.118, abs=0.02)


def test_a_stroke_is_as_thick_as_it_is_drawn():
    plates = page(60, 200, RED)
    bar(plates, 20, 30, 160, 4, BLUE)
    (part,) = parts_of(plates)
    assert part.box == Box(20, 30, 180, 34) and part.area == 640 and part.outline == 328
    assert not part.slides and not part.lighter and not part.attached
    (line,) = lines_of(plates)
    assert line.width * 600 / 72 == pytest.approx(1.118, abs=0.02)


def test_thick_shapes_are_left_alone():
    """From three trap widths on a stroke has the page's width."""
    for height, found in ((5, 1), (9, 0)):
        plates = page(80, 300, RED)
        bar(plates, 20, 30, 260, height, BLUE)
        assert len(parts_of(plates)) == found
    plates = page(300, 300, RED)
    bar(plates, 100, 100, 80, 80, BLUE)
    assert not parts_of(plates) and not parts_of(plates, FLEXO)


def test_light_strokes_in_dark_count_too():
    """Their trap lies in the ground around them, and is as narrow."""
    plates = page(60, 200, BLUE)
    bar(plates, 20, 30, 160, 4, RED)
    (part,) = parts_of(plates)
    assert part.lighter
    (line,) = lines_of(plates)
    assert line.reach == pytest.approx(1.118, abs=0.001)


# The hard cases

def test_letters_of_one_word_get_one_width():
    """Strokes of 2, 3 and 4 pixels that stand side by side are one line."""
    plates = page(80, 200, RED)
    for place, width in enumerate((2, 4, 3, 4, 2)):
        bar(plates, 20 + 12 * place, 30, width, 24, BLUE)
    lines = lines_of(plates)
    assert len(lines) == 1 and len(lines[0].parts) == 5
    assert len(set(covered(lines).values())) == 1


def test_lines_apart_have_widths_of_their_own():
    plates = page(200, 200, RED)
    bar(plates, 20, 30, 160, 2, BLUE)
    bar(plates, 20, 150, 160, 5, BLUE)
    assert sorted(line.reach for line in lines_of(plates)) == pytest.approx([0.5, 1.118], abs=0.001)


@pytest.mark.parametrize("rule", (OFFSET, FLEXO))
def test_a_frame_leaves_its_inside_alone(rule):
    """A thin frame around the page is covered by tiles, so the shapes within keep the page's width."""
    plates = page(500, 500, RED)
    for left, upper, width, height in ((20, 20, 460, 4), (20, 476, 460, 4), (20, 20, 4, 460), (476, 20, 4, 460)):
        bar(plates, left, upper, width, height, BLUE)
    bar(plates, 200, 200, 100, 100, BLUE)
    narrow = covered(lines_of(plates, rule), rule)
    assert (22, 250) in narrow and (250, 22) in narrow and (478, 478) in narrow
    assert not any((row, column) in narrow for row in range(60, 440) for column in range(60, 440))


def test_a_rule_that_ends_at_paper_is_bounded_there():
    """Paper and rule are two colours, though no trap lies between them."""
    plates = page(80, 300, RED)
    bar(plates, 200, 0, 100, 80, PAPER)
    bar(plates, 20, 40, 180, 4, BLUE)
    (part,) = parts_of(plates)
    assert part.box == Box(20, 40, 200, 44)


def test_a_stroke_over_two_grounds_is_one_part():
    plates = page(80, 300, RED)
    bar(plates, 150, 0, 150, 80, (0, 0, 255, 0))
    bar(plates, 20, 40, 260, 4, BLUE)
    assert [part.box for part in parts_of(plates)] == [Box(20, 40, 280, 44)]


def test_a_stroke_over_a_gradient_is_found():
    """A ground that fades from red to paper in many small steps."""
    plates = page(120, 400, PAPER)
    for column in range(400):
        share = 1 - column / 400
        paint(plates, np.s_[:, column], (0, int(240 * share), int(240 * share), 0))
    bar(plates, 20, 60, 200, 4, BLUE)
    assert Box(20, 60, 220, 64) in [part.box for part in parts_of(plates)]


@pytest.mark.parametrize("degrees", (10, 30, 45, 80))
def test_a_slanted_stroke_is_as_thick(degrees):
    """A stroke of five pixels measures about as much at any slant."""
    plates = page(300, 300, RED)
    rows, columns = np.mgrid[:300, :300] - 150
    across = columns * math.sin(math.radians(degrees)) - rows * math.cos(math.radians(degrees))
    along = columns * math.cos(math.radians(degrees)) + rows * math.sin(math.radians(degrees))
    paint(plates, (abs(across) < 2.5) & (abs(along) < 100), BLUE)
    found = parts_of(plates, FLEXO)
    assert len(found) == 1 and 3.8 < thin.stroke_of(found) < 6
    assert len(found[0].covers) > 1 or degrees == 10


def test_a_thin_stroke_on_a_thick_block_is_found():
    """What hangs on a block is a part of its own, from a little beside the block on."""
    plates = page(300, 500, RED)
    bar(plates, 40, 60, 150, 150, BLUE)
    bar(plates, 190, 130, 250, 4, BLUE)
    (part,) = parts_of(plates)
    assert part.attached and part.box.right == 440 and 190 <= part.box.left < 205
    (line,) = lines_of(plates)
    share = thin.own_share(plates, INKS, OFFSET, [line], [line.reach])
    assert share > 0.3 and thin.own_share(plates, INKS, OFFSET, [line], [1.89]) < 0.05


def test_corners_and_curves_of_thick_shapes_are_no_strokes():
    plates = page(400, 700, RED)
    rows, columns = np.mgrid[:400, :700]
    paint(plates, (rows - 200) ** 2 + (columns - 150) ** 2 < 90 ** 2, BLUE)
    paint(plates, abs(rows - 200) + abs(columns - 400) < 90, BLUE)
    paint(plates, (rows > 150) & (rows < 250) & (columns > 550) & (columns < 640), BLUE)
    assert not parts_of(plates, OFFSET) and not parts_of(plates, FLEXO)


def test_black_and_strokes_within_black_are_left_out():
    """A trap does not show in black."""
    for ground, colour in ((RED, FULL_BLACK), (RICH, RED)):
        plates = page(80, 300, ground)
        bar(plates, 20, 40, 260, 4, colour)
        assert not parts_of(plates)


def test_inks_that_do_not_count_are_not_looked_at():
    """A varnish over type changes nothing, and type that differs by varnish alone is none."""
    plates = page(80, 300, RED)
    plates[0][40:44, 20:280] = 0
    assert not parts_of(plates, inks=(Ink(0.05, counts=False), MAGENTA, YELLOW, BLACK))


def test_type_on_paper_needs_no_zone():
    """Its edges call for no trap."""
    plates = page(80, 300, PAPER)
    bar(plates, 20, 40, 260, 4, BLUE)
    assert not parts_of(plates)


def test_within_skipped_boxes_nothing_is_looked_at():
    """The places of images, as they come from what the page paints."""
    plates = page(200, 400, RED)
    bar(plates, 20, 40, 360, 4, BLUE)
    grain = np.random.default_rng(1).integers(0, 2, (80, 200), dtype=np.uint8) * 255
    plates[0][100:180, 100:300] = grain
    plates[1][100:180, 100:300] = 255 - grain
    found = parts_of(plates, skip=(Box(100, 100, 300, 180),))
    assert [part.box for part in found] == [Box(20, 40, 380, 44)]


def test_specks_are_pieces_of_strokes_but_not_grain():
    """A pixel that touches a stroke by a corner is found as a part of its own. Where most parts are specks, they are
    grain."""
    plates = page(200, 300, RED)
    bar(plates, 50, 40, 200, 4, BLUE)
    bar(plates, 250, 44, 1, 1, BLUE)
    assert sorted(part.area for part in parts_of(plates)) == [1, 800]
    for place in range(20):
        bar(plates, 50 + 10 * place, 100, 1, 1, BLUE)
    assert [part.area for part in parts_of(plates)] == [800]


def test_strips_are_joined(monkeypatch):
    """A page of many strips has the parts of the page as a whole: a long stroke is one part, with all of its area."""
    plates = page(1500, 300, RED)
    bar(plates, 50, 20, 4, 1400, BLUE)
    bar(plates, 100, 300, 150, 4, BLUE)
    for place in range(12):
        bar(plates, 200 + 3 * place, 700 + 11 * place, 40, 5, BLUE)
    whole = sorted((part.box.left, part.box.upper, part.area, part.outline) for part in parts_of(plates))
    monkeypatch.setattr(strokes, "STRIP_ROWS", 5000)
    assert whole == sorted((part.box.left, part.box.upper, part.area, part.outline) for part in parts_of(plates))
    assert (50, 20, 5600, 2808) in whole


def test_pages_without_strokes():
    assert not parts_of(page(5, 5, RED)) and not parts_of(page(1, 1, PAPER))
    assert not strokes.find_strokes([np.zeros((9, 9), np.uint8)], [CYAN], OFFSET, 600)


def test_more_resolution_leaves_more():
    """At twice the resolution the same stroke has twice the pixels, and the zone's width in points is finer."""
    plates = page(120, 600, RED)
    bar(plates, 40, 60, 500, 7, BLUE)
    lines = thin.narrow_lines(strokes.find_strokes(plates, INKS, OFFSET, 1200), OFFSET, 1200)
    assert [round(line.width * 1200 / 72, 2) for line in lines] == [2.07]


# Boxes, and what traps leave

def test_boxes_of_a_line_are_joined_and_hold_the_page_trap_around():
    plates = page(80, 400, RED)
    for place in range(10):
        bar(plates, 40 + 12 * place, 30, 4, 24, BLUE)
    boxes = thin.boxes_by_width(lines_of(plates), OFFSET, 600)
    (joined,) = boxes.values()
    assert len(joined) == 1
    assert min(box.left for box in joined) == 38 and max(box.right for box in joined) == 154


def test_the_widest_width_comes_first():
    """The narrower one wins where zones overlap, since a later zone takes precedence."""
    plates = page(300, 300, RED)
    for place, height in enumerate((2, 8, 12)):
        bar(plates, 20, 40 + 80 * place, 260, height, BLUE)
    widths = list(thin.boxes_by_width(lines_of(plates, FLEXO), FLEXO, 600))
    assert len(widths) == 3 and widths == sorted(widths, reverse=True)


def test_own_share_by_reach():
    """What is left of a stroke of four pixels: all, two of four, none."""
    plates = page(80, 300, RED)
    bar(plates, 20, 40, 260, 4, BLUE)
    line = thin.Line(tuple(parts_of(plates)), 4, False, 1.118, 0.13)
    shares = [thin.own_share(plates, INKS, OFFSET, [line], [reach]) for reach in (0, 0.5, 1.118, 1.5)]
    assert shares == pytest.approx([1, 0.496, 0.496, 0], abs=0.01)


@pytest.mark.parametrize("reach", (0.5, 1.118, 1.89, 4.72))
def test_own_share_is_that_of_each_part_by_itself(reach, monkeypatch):
    """Parts lie side by side on canvases: none changes what is counted of another, on one canvas or on many."""
    plates = page(400, 1500, RED)
    chance = np.random.default_rng(57)
    for row in range(6):
        for column in range(20):
            wide, high = chance.integers(1, 9), chance.integers(1, 60)
            bar(plates, 10 + 74 * column, 10 + 65 * row, *((wide, high) if column % 2 else (high, wide)), BLUE)
    parts = parts_of(plates, FLEXO)
    assert len(parts) > 100
    own = np.array([plates[0] == 0] * 4).all(axis=0)
    middle = np.zeros_like(own)
    for row, column in zip(*np.nonzero(own[:, :-1] != own[:, 1:])):
        near_edges(middle, row, column + 0.5, reach)
    for row, column in zip(*np.nonzero(own[:-1] != own[1:])):
        near_edges(middle, row + 0.5, column, reach)
    counted = np.zeros_like(own)
    for part in parts:
        counted[part.box.upper:part.box.lower, part.box.left:part.box.right] = True
    expected = 1 - (own & middle & counted).sum() / (own & counted).sum()
    line = thin.Line(tuple(parts), 4, False, reach, 0.13)
    assert thin.own_share(plates, INKS, FLEXO, [line], [reach]) == pytest.approx(expected, abs=1e-9)
    monkeypatch.setattr(canvas, "CANVAS_PIXELS", 5000)
    assert thin.own_share(plates, INKS, FLEXO, [line], [reach]) == pytest.approx(expected, abs=1e-9)


def near_edges(out, row, column, reach):
    """Marks the pixels whose middle lies within a reach of the middle of an edge."""
    rows, columns = np.mgrid[max(0, int(row - reach)):int(row + reach + 2), max(0, int(column - reach)):int(column + reach + 2)]
    rows, columns = np.minimum(rows, out.shape[0] - 1), np.minimum(columns, out.shape[1] - 1)
    out[rows, columns] |= np.hypot(rows - row, columns - column) <= reach


def test_a_wide_page_takes_little_memory():
    """Masks have a bit for each pixel, and samples are looked at where they lie: at most 4 bytes for each pixel of a strip."""
    plates = page(512, 8000, RED)
    for place in range(700):
        bar(plates, 20 + 11 * place, 20 + place % 400, 4, 24, BLUE)
    tracemalloc.start()
    found = parts_of(plates)
    most = tracemalloc.get_traced_memory()[1]
    tracemalloc.stop()
    assert len(found) > 500 and most < 4 * 256 * 8000
