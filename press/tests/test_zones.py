# SPDX-License-Identifier: Apache-2.0
"""The zones of a job: their order, what is cut, and what is given up when a job's limits run out."""
import pytest

from press.job import Statement
from press.job_language import SCALE, read_job
from press.rects import Rect
from press.regions import disjoint, fewer, is_within, split_by
from press.zones import BEYOND, Layer, Pair, Wanted, compose, grid_spans

pytestmark = [pytest.mark.quick, pytest.mark.plain]
SIZE = (200.0, 100.0)
PARAMETERS = Statement(None, b"<< /TrapWidth 0.3 /BlackWidth 1.5 >> settrapparams\n")
# The example of docs/PRESS.md: a zone with narrower traps for a panel.
PANEL = Statement("label.zones", b"<< /TrapWidth 0.15 /TrapColorScaling 0.5 >> settrapparams\n"
                                 b"12 20 moveto 60 0 rlineto 0 60 rlineto -60 0 rlineto settrapzone\n")
OFF = Statement("off.zones", b"<< /Enabled false >> settrapparams\n"
                             b"12 20 moveto 60 0 rlineto 0 60 rlineto -60 0 rlineto settrapzone\n")


def zones_of(composed):
    """The zones of the job, without the one for what no zone covers."""
    return read_job(b"\n".join(one.text for one in composed.statements) + b"showpage\n").zones[1:]


def at(composed, x, y):
    """The parameters at a point, or None where nothing is trapped."""
    found = None
    for zone in zones_of(composed):
        shape = tuple(tuple((a / SCALE, b / SCALE) for a, b in points) for points in zone.subpaths)
        if is_within(shape, x, y):
            found = zone.parameters
    return found if found and found.enabled else None


def width_at(composed, x, y):
    """The trap width at a point in points, 0 where nothing is trapped."""
    found = at(composed, x, y)
    return found.trap_width / SCALE if found else 0


# The page

def test_a_page_without_zones_stays_as_it_is():
    """No zone is made where none is needed: the job traps the whole page."""
    assert compose([PARAMETERS], Wanted(SIZE)).statements == [PARAMETERS]


def test_a_zones_file_adds_to_the_page():
    """A zone of the whole page comes before the file, with the parameters in force there."""
    found = compose([PARAMETERS, PANEL], Wanted(SIZE))
    assert width_at(found, 30, 30) == 0.15 and width_at(found, 150, 50) == 0.3
    assert at(found, 150, 50).trap_color_scaling == SCALE and at(found, 150, 50).black_width == 15_000
    assert found.statements[0] == PARAMETERS and found.statements[-1] == PANEL
    assert b"The whole page" in found.statements[1].text
    assert width_at(found, SIZE[0] + BEYOND / 2, 50) == 0.3


def test_only_zones_leaves_the_page_out():
    found = compose([PARAMETERS, PANEL], Wanted(SIZE, only_zones=True))
    assert found.statements == [PARAMETERS, PANEL] and found.untrapped == pytest.approx({"owner": 0.82}, abs=0.02)
    assert width_at(found, 30, 30) == 0.15 and width_at(found, 150, 50) == 0


def test_traps_stay_within_a_box():
    """Nothing is trapped outside the trim box; the owner's own zones are as he wrote them."""
    box = Rect(20, 10, 180, 90)
    found = compose([PARAMETERS], Wanted(SIZE, box, "trim"))
    assert width_at(found, 100, 50) == 0.3 and width_at(found, 5, 50) == 0 and width_at(found, 100, 95) == 0
    assert found.untrapped == pytest.approx({"trim": 1 - 160 * 80 / 20_000}, abs=0.02)
    found = compose([PARAMETERS, PANEL], Wanted(SIZE, box, "trim"))
    assert width_at(found, 14, 50) == 0.15 and width_at(found, 5, 50) == 0


def test_how_much_is_not_trapped_and_why():
    found = compose([PARAMETERS, OFF], Wanted(SIZE, images=(Rect(100, 0, 150, 100),)))
    assert found.untrapped == pytest.approx({"owner": 3600 / 20_000, "images": 5000 / 20_000}, abs=0.02)


def test_statements_that_are_no_job_stay():
    """The program refuses them with the file's own line."""
    fault = Statement("bad.zones", b"gsave settrapzone\n")
    assert compose([PARAMETERS, fault], Wanted(SIZE, images=(Rect(0, 0, 9, 9),))).statements == [PARAMETERS, fault]


# Thin strokes

def test_thin_strokes_lie_over_the_page():
    found = compose([PARAMETERS], Wanted(SIZE, thin={0.1: [Rect(90, 40, 130, 50)], 0.05: [Rect(120, 40, 140, 50)], 0.0:
                                                     [Rect(150, 40, 160, 50)]}))
    assert [width_at(found, x, 45) for x in (100, 125, 135, 155, 180)] == [0.1, 0.05, 0.05, 0, 0.3]
    assert at(found, 100, 45).black_width == 15_000 and found.thin_zones == 3


def test_thin_strokes_are_never_wider_than_the_owners_zone():
    """Within the panel, whose traps are 0.15 wide, a stroke gets the lesser width and all of its other parameters."""
    thin = {0.2: [Rect(30, 30, 40, 40), Rect(150, 30, 160, 40)], 0.1: [Rect(30, 60, 40, 70)]}
    found = compose([PARAMETERS, PANEL], Wanted(SIZE, thin=thin))
    assert [width_at(found, *place) for place in ((35, 35), (155, 35), (35, 65))] == [0.15, 0.2, 0.1]
    assert at(found, 35, 65).trap_color_scaling == SCALE // 2 and at(found, 155, 35).trap_color_scaling == SCALE


def test_thin_strokes_are_never_enabled_where_the_owner_is_not():
    found = compose([PARAMETERS, OFF], Wanted(SIZE, thin={0.1: [Rect(30, 30, 40, 40), Rect(60, 30, 90, 40)]}))
    assert [width_at(found, x, 35) for x in (35, 65, 80)] == [0, 0, 0.1]


def test_thin_strokes_stay_within_the_box():
    thin = {0.1: [Rect(40, 40, 60, 50), Rect(10, 40, 20, 50)]}
    found = compose([], Wanted(SIZE, Rect(50, 10, 150, 90), "trim", thin=thin))
    assert [width_at(found, x, 45) for x in (15, 45, 55, 100)] == [0, 0, 0.1, 0.25]


@pytest.mark.slow
def test_thin_strokes_over_a_slanted_zone():
    """A place that a slanted border of the owner's zone crosses is cut along it, to half a point."""
    corner = Statement("a.zones", b"<< /TrapWidth 0.05 >> settrapparams\n"
                                  b"0 0 moveto 100 0 lineto 0 100 lineto settrapzone\n")
    found = compose([corner], Wanted(SIZE, thin={0.1: [Rect(20, 20, 90, 90)]}))
    assert width_at(found, 30, 30) == 0.05 and width_at(found, 80, 80) == 0.1
    assert all(width_at(found, x, 100 - x - 1) == 0.05 for x in range(25, 75))
    assert sum(width_at(found, x, 100 - x + 1) == 0.1 for x in range(25, 75)) > 45


# Images

def test_images_win_over_thin_strokes():
    """Type of another page's width is not switched on again within a photograph."""
    found = compose([PARAMETERS], Wanted(SIZE, thin={0.1: [Rect(90, 40, 130, 50)]}, images=(Rect(100, 0, 180, 100),)))
    assert [width_at(found, x, 45) for x in (95, 110, 190)] == [0.1, 0, 0.3]


def test_what_is_drawn_above_images_is_trapped():
    """Overlapping boxes above overlapping images are holes, and nothing beside an image is switched off."""
    images = (Rect(50, 20, 120, 80), Rect(100, 30, 160, 90))
    above = (Rect(90, 40, 110, 50), Rect(100, 45, 130, 60), Rect(40, 40, 60, 50))
    found = compose([PARAMETERS], Wanted(SIZE, images=images, above=above))
    for x, y, width in ((60, 70, 0), (95, 45, 0.3), (105, 47, 0.3), (125, 55, 0.3), (45, 45, 0.3), (55, 45, 0.3),
                        (115, 75, 0), (150, 60, 0), (30, 50, 0.3), (110, 65, 0)):
        assert width_at(found, x, y) == width, (x, y)


def test_thin_strokes_above_images_keep_their_width():
    found = compose([PARAMETERS], Wanted(SIZE, thin={0.1: [Rect(90, 40, 130, 50)]}, images=(Rect(80, 0, 180, 100),),
                                         above=(Rect(90, 40, 130, 50),)))
    assert width_at(found, 110, 45) == 0.1 and width_at(found, 110, 60) == 0


# Layers

def test_layers_have_parameters_of_their_own():
    layers = (Layer("Guides", (Rect(10, 10, 40, 40),), {"Enabled": False}),
              Layer("Back", (Rect(100, 10, 140, 40), Rect(120, 20, 160, 60)), {"TrapWidth": 0.5, "StepLimit": 0.1}))
    found = compose([PARAMETERS, PANEL], Wanted(SIZE, layers=layers))
    assert [width_at(found, *place) for place in ((11, 15), (30, 30), (150, 50), (180, 50))] == [0, 0.15, 0.5, 0.3]
    assert at(found, 150, 50).step_limit == 1000 and at(found, 30, 30).step_limit == 2500


# Limits of a job

def test_boxes_are_joined_before_they_are_given_up():
    """Four thousand places in rows fit once those of a row are one."""
    thin = {0.1: [Rect(2 * column, 2 * row, 2 * column + 1, 2 * row + 1) for column in range(100) for row in range(45)]}
    found = compose([PARAMETERS], Wanted(SIZE, thin=thin))
    assert not found.warnings and sum(len(points) for zone in zones_of(found) for points in zone.subpaths) < 16_384
    assert all(len(zone.subpaths) * 4 <= 4096 for zone in zones_of(found)) and len(zones_of(found)) < 250
    assert width_at(found, 20.5, 20.5) == 0.1


@pytest.mark.slow
def test_what_does_not_fit_is_warned_of():
    """An owner's zones that take nearly all of a job leave no room for more."""
    ring = b" ".join([b"0 0 moveto"] + [b"1 0 rlineto"] * 4090)
    own = Statement("own.zones", b"\n".join([ring + b" settrapzone"] * 4 + [b""]))
    found = compose([own], Wanted(SIZE, thin={0.1: [Rect(9, 9, 12, 12)]}, images=(Rect(50, 50, 90, 90),)))
    assert len(found.warnings) == 2 and "thin strokes" in found.warnings[0] and "images" in found.warnings[1]
    assert sum(len(points) for zone in zones_of(found) for points in zone.subpaths) <= 16_384


def test_each_step_overrides_the_one_before():
    """At one place the page, a layer, the owner's zone, thin strokes, a pair and an image, each added to the one before: what
    comes later holds there."""
    place = Rect(20, 30, 40, 50)
    steps = [({"within": Rect(0, 0, 150, 100)}, 0.3), ({"layers": (Layer("Back", (place,), {"TrapWidth": 0.28}),)}, 0.28), (None, 0.15),
             ({"thin": {0.1: [place]}}, 0.1), ({"pairs": (Pair((place,), 0.5, "A pair:"),)}, 0.05), ({"images": (place,)}, 0)]
    wanted, own = {}, [PARAMETERS]
    for more, width in steps:
        own = [PARAMETERS, PANEL] if more is None else own
        wanted.update(more or {})
        assert width_at(compose(own, Wanted(SIZE, **wanted)), 30, 40) == pytest.approx(width), wanted


def owners(count, rings=1):
    """So many zones of the owner's, each with so many rings of four corners."""
    ring = b"0 0 moveto 1 0 rlineto 0 1 rlineto -1 0 rlineto"
    return Statement("own.zones", b"\n".join([b" ".join([ring] * rings) + b" settrapzone"] * count + [b""]))


EACH = {"layers": (Layer("Back", (Rect(100, 60, 120, 80),), {"TrapWidth": 0.2}),), "thin": {0.1: [Rect(9, 9, 12, 12)]},
        "pairs": (Pair((Rect(60, 60, 70, 70),), 0.5, "A pair:"),), "images": (Rect(150, 10, 190, 50),)}
GIVEN_UP = {"layers": "layer Back", "thin": "places of thin strokes", "pairs": "places of pairs", "images": "smallest images"}


@pytest.mark.slow
@pytest.mark.parametrize("zones, lost", [(245, ()), (247, ("pairs", "images")), (248, ("thin", "pairs", "images")),
                                         (249, ("layers", "thin", "pairs", "images"))])
def test_zones_that_run_out(zones, lost):
    """With so many zones of the owner's no room is left for some of the press room's: images are given up first, then pairs,
    thin strokes and layers, and a warning says which."""
    found = compose([PARAMETERS, owners(zones)], Wanted(SIZE, **EACH))
    assert len(zones_of(found)) <= 250
    assert [key for key in EACH if any(GIVEN_UP[key] in line for line in found.warnings)] == list(lost), found.warnings
    assert width_at(found, 110, 70) == (0.3 if "layers" in lost else 0.2)
    assert width_at(found, 10, 10) == (0.3 if "thin" in lost else 0.1)
    assert width_at(found, 65, 65) == pytest.approx(0.3 if "pairs" in lost else 0.15)
    assert width_at(found, 170, 30) == (0.3 if "images" in lost else 0)


def many(count, side=1.0):
    """So many places that lie apart."""
    return [Rect(2 * column, 1.5 * row, 2 * column + side, 1.5 * row + side) for row in range(count // 90 + 1) for column in range(90)][:count]


@pytest.mark.slow
@pytest.mark.parametrize("key", ["layers", "thin", "pairs", "images"])
def test_corners_that_run_out(key):
    """More places than a job has corners for are joined or given up, and the job stays within its limits."""
    places = many(5900)
    wanted = {"layers": {"layers": (Layer("Back", tuple(places), {"TrapWidth": 0.2}),)}, "thin": {"thin": {0.1: places}},
              "pairs": {"pairs": tuple(Pair(tuple(places[start::7]), 0.5, "A pair:") for start in range(7))},
              "images": {"images": tuple(places)}}[key]
    found = compose([PARAMETERS, owners(3, 900)], Wanted(SIZE, **wanted))
    zones = zones_of(found)
    assert len(zones) <= 250 and sum(len(points) for zone in zones for points in zone.subpaths) <= 16_384
    assert all(sum(map(len, zone.subpaths)) <= 4096 for zone in zones)
    assert (key in ("pairs", "images")) == any(GIVEN_UP[key] in line for line in found.warnings), found.warnings


# Rectangles

def test_disjoint_rectangles_cover_the_same():
    rects = [Rect(0, 0, 10, 10), Rect(5, 5, 15, 15), Rect(5, 0, 8, 20), Rect(30, 0, 40, 5)]
    out = disjoint(rects)
    assert sum(one.area for one in out) == 100 + 75 + 15 + 50
    assert all(one.common(other).area == 0 for k, one in enumerate(out) for other in out[:k])


def test_fewer_rectangles_cover_the_rest():
    rects = [Rect(3 * k, 0, 3 * k + 2, 5) for k in range(20)]
    assert fewer(rects, 20) == rects
    assert fewer(rects, 3) == [Rect(0, 0, 59, 5)]


def test_a_rectangle_is_split_along_a_shape():
    inside, outside = split_by(Rect(0, 0, 10, 10), (((5, 5), (20, 5), (20, 20), (5, 20)),))
    assert inside == [Rect(5, 5, 10, 10)] and sum(one.area for one in outside) == 75


def test_spans_follow_the_nonzero_rule():
    """A hole wound the other way is none of the zone; one wound the same way is."""
    outer = ((0, 0), (10, 0), (10, 10), (0, 10))
    hole = ((3, 3), (7, 3), (7, 7), (3, 7))
    rows = {row: spans for row, *spans in grid_spans((outer, hole), (20, 20))}
    assert rows[50] == [0, 100] and len(rows) == 100
    with_hole = [spans for row, *spans in grid_spans((outer, tuple(reversed(hole))), (20, 20)) if row == 50]
    assert with_hole == [[0, 30], [70, 100]]
