# SPDX-License-Identifier: Apache-2.0
"""The editor's blocks in a job: they go in and come out, and all other bytes stay."""
import json

import pytest

from press.desk.job_edits import (EditedInk, EditedZone, Edits, apply_edits, number, pixels_of_polygon,
                                  polygon_of_pixels, rules_of, take_apart)
from press.desk.job_sections import OWNER, sections
from press.job_language import read_job
from press.rects import Rect
from press.zones_anew import composed, picture_places

pytestmark = [pytest.mark.plain, pytest.mark.quick]

PLAIN = b"""%!PS
<< /HWResolution [600 600] /TrappingDetails << /Type 1001 /ColorantDetails <<
  /Cyan << /NeutralDensity 0.61 >> /Black << /NeutralDensity 1.70 >> >> >> >> setpagedevice
<< /TrapWidth 0.3 >> settrapparams  % the house's
showpage
"""
ON_ONE_LINE = b"%!PS\n<< /HWResolution [72 72] >> setpagedevice << /TrapWidth 2 >> settrapparams showpage"
WITH_ZONES = PLAIN.replace(b"showpage", b"""% The whole page:
newpath 0 0 moveto 300 0 rlineto 0 200 rlineto -300 0 rlineto settrapzone
% Within images nothing is trapped (--trap-images traps there too):
<< /Enabled false >> settrapparams
newpath 10 10 moveto 50 0 rlineto 0 50 rlineto -50 0 rlineto settrapzone

showpage""")
SQUARE = ((100_000, 100_000), (300_000, 100_000), (300_000, 205_000))
PANEL = EditedZone('Panel "A" of the lid', SQUARE, {"TrapWidth": 12_000})
OVER = EditedZone("over a picture", SQUARE, {"Enabled": False}, over_images=True)
EDITS = [Edits(), Edits({"TrapWidth": 5_000, "BlackWidth": 15_000}), Edits({}, {"Cyan": EditedInk(7_000, "Opaque")}),
         Edits({}, {}, (PANEL,)), Edits({"StepLimit": 1}, {"Black": EditedInk(16_500, "Normal")}, (PANEL, OVER)),
         Edits({}, {}, (OVER,)), Edits({}, {}, (EditedZone("follows the page", SQUARE, {}),))]


@pytest.mark.parametrize("job", [PLAIN, ON_ONE_LINE, WITH_ZONES])
@pytest.mark.parametrize("edits", EDITS)
def test_edits_come_out_as_they_went_in(job, edits):
    """The original is found again byte for byte, and the edits with it."""
    text = apply_edits(job, edits)
    assert take_apart(text) == (job, edits)
    read_job(text)


def test_a_job_without_edits_stays_byte_for_byte():
    """Nothing is written for nothing."""
    assert apply_edits(WITH_ZONES, Edits()) == WITH_ZONES


def test_the_first_zone_does_not_turn_off_the_page():
    """A zone of the whole page comes before the editor's first zone if the job has none."""
    zones = read_job(apply_edits(PLAIN, Edits({}, {}, (PANEL,)))).zones
    assert [zone.parameters.enabled for zone in zones] == [False, True, True]
    assert [zone.parameters.trap_width for zone in zones[1:]] == [3_000, 12_000]


def test_a_zone_lies_below_images_unless_it_is_to_go_over_them():
    """The order of zones decides, since the last one that covers a pixel counts."""
    zones = read_job(apply_edits(WITH_ZONES, Edits({}, {}, (PANEL, OVER)))).zones
    assert [zone.parameters.enabled for zone in zones[1:]] == [True, True, False, False]
    assert [zone.parameters.trap_width for zone in zones[1:]] == [3_000, 12_000, 3_000, 3_000]
    assert zones[3].subpaths == (((100_000, 100_000), (600_000, 100_000), (600_000, 600_000), (100_000, 600_000)),)


def test_the_page_and_its_zones_follow_new_settings():
    """A zone keeps what it sets itself and takes the rest from the page."""
    zones = read_job(apply_edits(WITH_ZONES, Edits({"TrapWidth": 8_000, "StepLimit": 1_000}, {}, (PANEL,)))).zones
    found = [(zone.parameters.trap_width, zone.parameters.step_limit) for zone in zones[1:3]]
    assert found == [(8_000, 1_000), (12_000, 1_000)]


def test_a_block_that_was_changed_by_hand_is_left_alone():
    """Such a text is the owner's: it is no edit any more, and stays."""
    text = apply_edits(PLAIN, Edits({"TrapWidth": 5_000})).replace(b"0.5 >>", b"0.50 >>")
    assert take_apart(text) == (text, Edits())


def test_corners_come_back_on_their_pixels():
    """Corners on pixel borders survive the job's ten-thousandths of a point at usual resolutions."""
    for resolution in (72, 300, 600, 1200, 2400, 2540):
        points = [(0, 0), (17, 0), (17, 4_001), (0, 4_001)]
        found = pixels_of_polygon(polygon_of_pixels(points, resolution, 5_000), resolution, 5_000)
        assert [(round(x, 2), round(y, 2)) for x, y in found] == points


@pytest.mark.parametrize("value, text", [(0, "0"), (1, "0.0001"), (-25_000, "-2.5"), (10_000, "1"), (123_400, "12.34")])
def test_numbers_are_spelled_as_a_job_has_them(value, text):
    """Ten-thousandths without needless digits."""
    assert number(value) == text


MADE = PLAIN.replace(b"showpage", b"""% The page within its trim box (--trap-within):
newpath
10.000 10.000 moveto 280.000 0 rlineto 0 180.000 rlineto -280.000 0 rlineto
settrapzone

% Thin strokes (--no-thin-zones leaves them the page's width):
<< /TrapWidth 0.1 >> settrapparams
newpath
20.000 20.000 moveto 8.000 0 rlineto 0 4.000 rlineto -8.000 0 rlineto
settrapzone
% Within images nothing is trapped, but at what is drawn above them (--trap-images traps there too):
<< /TrapWidth 0.3 /Enabled false >> settrapparams
newpath
50.000 50.000 moveto 80.000 0 rlineto 0 40.000 rlineto -80.000 0 rlineto
60.000 60.000 moveto 0 5.000 rlineto 5.000 0 rlineto 0 -5.000 rlineto
settrapzone

showpage""")
NEW_PLACE = """% Within images nothing is trapped, but at what is drawn above them (--trap-images traps there too):
<< /Enabled false >> settrapparams
newpath
52.000 52.000 moveto 76.000 0 rlineto 0 36.000 rlineto -76.000 0 rlineto
settrapzone
"""
PLACES = {0.1: [Rect(20, 20, 28, 24)]}
SIZE = (300.0, 200.0)


@pytest.mark.parametrize("off", [(), ("trim",), ("thin",), ("images",), ("trim", "thin", "images")])
@pytest.mark.parametrize("zones", [(), (PANEL,), (PANEL, OVER)])
@pytest.mark.parametrize("thin", [None, "% Thin strokes:\n"])
@pytest.mark.parametrize("images", [None, "", NEW_PLACE])
def test_rules_that_are_off_come_out_as_they_went_in(off, zones, thin, images):
    """What the press room wrote stays as a comment, and comes back byte for byte."""
    edits = Edits({"TrapWidth": 5_000}, {}, zones, frozenset(off), None if "thin" in off else thin,
                  images=None if "images" in off else images)
    text = apply_edits(MADE, edits)
    assert take_apart(text) == (MADE, edits)
    assert rules_of(MADE, edits, ()) == {one: one not in off for one in ("trim", "thin", "images")}


def test_a_rule_that_is_off_has_no_zones():
    """The page in place of its box; no zones of thin strokes; images are trapped; what follows is as it was."""
    def found(*off):
        zones = read_job(apply_edits(MADE, Edits({}, {}, (OVER,), frozenset(off)))).zones[1:]
        return [(zone.subpaths[0][0][0] // 10_000, zone.parameters.trap_width, zone.parameters.enabled)
                for zone in zones]
    page, thin, images, over = (10, 3_000, True), (20, 1_000, True), (50, 3_000, False), (10, 3_000, False)
    assert found() == [page, thin, images, over]
    assert found("trim") == [(-1, 3_000, True), thin, images, over]
    assert found("thin") == [page, images, over]
    assert found("images") == [page, thin, over]


def test_zones_of_images_are_replaced_and_what_goes_over_them_stays_above():
    """The job's own place is a comment then; zones over images, and what they find in force, are as before."""
    zones = read_job(apply_edits(MADE, Edits({}, {}, (OVER,), images=NEW_PLACE))).zones[1:]
    assert [(zone.subpaths[0][0][0] // 10_000, zone.parameters.enabled) for zone in zones] == [
        (10, True), (20, True), (52, False), (10, False)]
    without = read_job(apply_edits(PLAIN, Edits(images=NEW_PLACE))).zones
    assert [zone.parameters.enabled for zone in without] == [False, False]


def test_zones_of_thin_strokes_are_those_of_the_press_room():
    """Composed anew without any edit they are the job's own."""
    old = read_job(MADE).zones
    text = apply_edits(MADE, Edits(thin=composed(MADE, Edits(), PLACES, SIZE)))
    assert [(zone.subpaths, zone.parameters) for zone in read_job(text).zones] == [
        (zone.subpaths, zone.parameters) for zone in old]


def test_thin_strokes_are_never_wider_than_the_zone_below_and_off_where_that_is():
    """A new zone of the owner, or a new width of the page, counts for them too."""
    def widths(edits):
        text = apply_edits(MADE, Edits(edits.settings, {}, edits.zones, thin=composed(MADE, edits, PLACES, SIZE)))
        return [zone.parameters.trap_width for zone in read_job(text).zones[1:] if zone.parameters.enabled]
    over_all = EditedZone("all", ((0, 0), (3_000_000, 0), (3_000_000, 2_000_000), (0, 2_000_000)), {"Enabled": False})
    assert widths(Edits()) == [3_000, 1_000]
    assert widths(Edits({"TrapWidth": 500})) == [500]
    assert widths(Edits({}, {}, (over_all,))) == [3_000]


def test_holes_of_images_are_known_by_their_direction():
    """The places of images, without what is drawn above them."""
    assert sum(one.area for one in picture_places(MADE)) == pytest.approx(80 * 40 - 25)


@pytest.mark.parametrize("zones", [(PANEL,), (PANEL, OVER)])
def test_zones_of_the_editor_count_as_the_owners(zones):
    """press/zones, which makes the press room's own zones anew, keeps what is of the owner: no zone that was drawn is
    lost by it, and nothing that a rule has set aside is taken for the owner's."""
    thin = composed(MADE, Edits({}, {}, zones), PLACES, SIZE)
    text = apply_edits(MADE, Edits({}, {}, zones, frozenset(("images",)), thin))
    own = b"".join(text[one.start:one.end] for one in sections(text) if one.kind == OWNER)
    assert [own.count(f"% Zone {json.dumps(zone.name)}:".encode()) for zone in zones] == [1] * len(zones)
    assert b"%~" not in own and own.count(b"settrapzone") == len(zones)
