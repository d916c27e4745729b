# SPDX-License-Identifier: Apache-2.0
"""Reduced copies of plates, and pictures of them."""
import io
import os
import time

import pytest

np = pytest.importorskip("numpy")
image = pytest.importorskip("PIL.Image")

from press.desk.colours import Inks, packed_light, png  # noqa: E402
from press.desk.gap_marks import gaps_opened  # noqa: E402
from press.desk import pyramid as pyramids  # noqa: E402
from press.desk.pyramid import HEADER_BYTES, Part, eight_bits, open_pyramid, plates_key, reduced_sides  # noqa: E402

pytestmark = [pytest.mark.plain, pytest.mark.quick]
RED, BLUE = (255, 0, 0), (0, 0, 255)


def planes_of(height, width, maxval=255):
    """Two plates of noise."""
    rng = np.random.default_rng(3)
    kind = "u1" if maxval < 256 else ">u2"
    return [rng.integers(0, maxval + 1, (height, width)).astype(kind) for _ in range(2)]


def test_levels_halve_until_the_page_is_small():
    """Each level has half the rows and columns of the one before, rounded up."""
    assert reduced_sides(7016, 4961) == [(1754, 1241), (877, 621), (439, 311), (220, 156)]
    assert reduced_sides(9, 5) == [(3, 2)]


@pytest.mark.parametrize("maxval", [255, 65_535])
def test_a_reduced_pixel_is_the_mean_of_its_square(tmp_path, maxval):
    """Within one level of 255, also over the borders of blocks of rows."""
    planes = planes_of(2_052, 40, maxval)
    pyramid = open_pyramid(planes, maxval, tmp_path / "kept" / "one.levels", "key")
    part = pyramid.part(Part(2, 0, 0, 10, 513))
    for plane, small in zip(planes, part):
        wanted = plane.astype(float).reshape(513, 4, 10, 4).mean(axis=(1, 3)) * 255 / maxval
        assert small.shape == (513, 10) and abs(small - wanted).max() <= 1


def test_the_kept_file_is_used_again_until_the_plates_change(tmp_path):
    """A second opening reads the file, once the disk has it; another key makes it anew, and no other file stays beside
    it."""
    kept = tmp_path / "one.levels"
    first = open_pyramid(planes_of(300, 300), 255, kept, "old")
    wait_for_header(kept)
    made = os.stat(kept).st_mtime_ns
    assert np.array_equal(open_pyramid(planes_of(300, 300), 255, kept, "old").levels[0][1], first.levels[0][1])
    assert os.stat(kept).st_mtime_ns == made
    white = [np.full((300, 300), 255, "u1")] * 2
    assert open_pyramid(white, 255, kept, "new").levels[0][0].min() == 255
    assert [one.name for one in tmp_path.iterdir()] == ["one.levels"]


def wait_for_header(kept):
    """Waits until a file of reduced copies says of which plates it is."""
    end = time.monotonic() + 20
    while not kept.read_bytes()[:1].strip(b"\0"):
        assert time.monotonic() < end
        time.sleep(0.01)


def test_reduced_copies_that_the_disk_may_lack_are_made_again(tmp_path, monkeypatch):
    """A file without its header is none, whatever else it has: the machine may have failed before all was written."""
    kept = tmp_path / "one.levels"
    monkeypatch.setattr(pyramids, "_confirm", lambda file, _: os.close(file))
    open_pyramid(planes_of(300, 300), 255, kept, "key")
    damaged = bytearray(kept.read_bytes())
    damaged[HEADER_BYTES:] = bytes(len(damaged) - HEADER_BYTES)
    kept.write_bytes(damaged)
    monkeypatch.undo()
    again = open_pyramid([np.full((300, 300), 255, "u1")] * 2, 255, kept, "key")
    assert again.levels[0][0].min() == 255
    wait_for_header(kept)
    assert kept.read_bytes()[:1] == b"{"


def test_the_key_changes_with_a_plate(tmp_path):
    """Size and time of each file count."""
    plate = tmp_path / "a.pgm"
    plate.write_bytes(b"1")
    before = plates_key([plate])
    plate.write_bytes(b"12")
    assert plates_key([plate]) != before


def test_parts_are_cut_at_the_border():
    """A part that goes beyond the page has what is there; one outside has nothing."""
    pyramid = open_pyramid_of(planes_of(10, 7))
    assert [one.shape for one in pyramid.part(Part(0, 4, 8, 512, 512))] == [(2, 3)] * 2
    assert [one.shape for one in pyramid.part(Part(1, 0, 0, 512, 512))] == [(5, 4)] * 2
    assert pyramid.part(Part(0, 512, 0, 512, 512))[0].size == 0


def open_pyramid_of(planes):
    """A pyramid without a file."""
    from press.desk.pyramid import Pyramid
    return Pyramid(planes, 255, [[plane[:3, :2] for plane in planes]])


def test_sixteen_bits_become_eight():
    """0 and full ink stay what they are."""
    assert eight_bits(np.array([[0, 65_535, 32_768]], ">u2"), 65_535).tolist() == [[0, 255, 128]]


def test_inks_are_printed_over_each_other():
    """Paper, one ink, the other, both: red over blue lets no light through; an ink that is not shown is left out."""
    inks = Inks([RED, BLUE], [True, True])
    planes = [np.array([[255, 0, 255, 0]], "u1"), np.array([[255, 255, 0, 0]], "u1")]
    assert inks.paint(planes, 3).tolist() == [[packed_light(one) for one in ((255,) * 3, RED, BLUE, (0, 0, 0))]]
    assert inks.paint(planes, 1).tolist() == [[packed_light(one) for one in ((255,) * 3, RED, (255,) * 3, RED)]]


def test_flat_art_and_noise_are_painted_alike():
    """The picture of runs of equal pixels is that of single pixels."""
    inks = Inks([(10, 200, 30), (250, 20, 90)], [True, True])
    noise = planes_of(20, 20)
    flat = [np.repeat(plane, 9, axis=1) for plane in noise]
    assert np.array_equal(inks.paint(flat, 3)[:, ::9], inks.paint(noise, 3))


def test_changes_are_places_and_colours():
    """Put over the picture before they give the picture after."""
    inks = Inks([RED, BLUE], [True, True])
    before, after = planes_of(30, 30), planes_of(30, 30)
    after = [np.where(np.arange(30) % 7 == 0, new[::-1], old) for old, new in zip(before, after)]
    changes = inks.changes(before, after, 3)
    count = changes.size // 2
    picture = inks.paint(before, 3).ravel()
    picture[changes[:count]] = changes[count:]
    assert 0 < count < 900 and np.array_equal(picture.reshape(30, 30), inks.paint(after, 3))


def near_minimum(total, row, column, radius):
    """The least within a square."""
    return total[max(0, row - radius):row + radius + 1, max(0, column - radius):column + radius + 1].min()


@pytest.mark.parametrize("shifts", [[(1, 0), (0, 0), (-1, 2)], [(0, 0), (3, -2), (0, 0)], [(2, 2)] * 3])
def test_gaps_are_those_of_the_definition(shifts):
    """Pixel by pixel: what prints is lighter by more than the margin than everything near in register. Where a plate
    has nothing to print from nothing is marked; and no gap opens if all plates move together."""
    from press.gaps import MARGIN
    densities, rng = (0.61, 0.76, 0.0), np.random.default_rng(3)
    planes = [255 - 85 * np.kron(rng.integers(0, 4, (7, 20)), np.ones((11, 13), int)).astype("u1") for _ in densities]
    height, width = planes[0].shape
    total = sum((255.0 - plane) * density / 255 for plane, density in zip(planes, densities))
    radius = max(abs(side) for shift in shifts for side in shift)
    wanted = np.zeros((height, width), bool)
    for row in range(height):
        for column in range(width):
            at = [(row - down, column - right) for right, down in shifts]
            if all(0 <= y < height and 0 <= x < width for y, x in at):
                there = sum((255.0 - plane[place]) * density / 255 for plane, density, place in zip(planes, densities, at))
                wanted[row, column] = there < near_minimum(total, row, column, radius) - MARGIN - 1e-6
    found = gaps_opened(planes, densities, shifts)
    assert np.array_equal(found, wanted) and found.any() == (len(set(shifts)) > 1)


def test_a_tile_is_a_png_with_the_same_pixels():
    """Flat art and noise."""
    inks = Inks([RED, BLUE], [True, True])
    for planes in (planes_of(40, 50), [np.full((40, 50), 128, "u1")] * 2):
        pixels = inks.paint(planes, 3)
        found = np.asarray(image.open(io.BytesIO(png(pixels))).convert("RGB"))
        assert np.array_equal(found, pixels.view("u1").reshape(40, 50, 4)[:, :, :3])
