# SPDX-License-Identifier: Apache-2.0
"""Drawn pages of small type in three fonts and 3 to 12 pt: how much of it keeps its colour, how much of the ground around it
changes, and how many gaps are left if a plate is off by a pixel. The figures to reach are those of zones of a third of the
stroke, as the prototype of thin zones measured them; and a thin stroke that hangs on a thick block."""
from dataclasses import dataclass
from pathlib import Path

import numpy as np
import pikepdf
import pytest
from pikepdf import Dictionary, Name
from room import Room

from press.folder import PageFolder

pytestmark = pytest.mark.slow
SIZES, FONTS = (3, 4, 5, 6, 7, 8, 10, 12), ("Helvetica-Bold", "Helvetica", "Times-Roman")
GROUPS = ((3, 4), (5, 6), (7, 8), (10, 12))
# The ground and the type of each pair, in CMYK.
PAIRS = {"blue-on-red": ("0 .94 .94 0", "1 .6 0 .2"), "magenta-on-cyan": ("1 0 0 0", "0 1 0 0"),
         "yellow-on-blue": ("1 .5 0 0", "0 0 1 0")}
WIDTH, ROW, LINE = 190, 15, "Hamburgefonstiv 0123 eagl"
HEIGHT = ROW * len(SIZES) * len(FONTS) + 12
# The least own share, the largest halo and the largest share of gaps, by size, with two decimals.
REACHED = {
    ("blue-on-red", "offset", 600): ((.33, 0, .11), (.38, 0, .07), (.40, 0, 0), (.52, 0, 0)),
    ("blue-on-red", "flexo", 600): ((.33, 0, .12), (.39, 0, .07), (.36, 0, 0), (.36, 0, 0)),
    ("blue-on-red", "offset", 1200): ((.37, 0, .02), (.36, 0, 0), (.44, 0, 0), (.54, 0, 0)),
    ("blue-on-red", "flexo", 1200): ((.45, 0, .02), (.36, 0, 0), (.37, 0, 0), (.37, 0, 0)),
    ("yellow-on-blue", "offset", 600): ((1, .73, .20), (1, .66, .11), (1, .63, .01), (1, .50, 0)),
    ("yellow-on-blue", "flexo", 600): ((1, .72, .20), (1, .66, .11), (1, .68, .01), (1, .69, 0)),
    ("magenta-on-cyan", "offset", 600): ((.42, .61, .12), (.56, .46, 0), (.66, .35, 0), (.77, .24, 0)),
    ("magenta-on-cyan", "flexo", 600): ((.40, .64, .12), (.39, .66, 0), (.41, .62, 0), (.51, .52, 0)),
}


@dataclass(frozen=True)
class Trapped:
    """The tints of a page's plates before trapping and after, and the plates' densities."""

    before: np.ndarray
    after: np.ndarray
    densities: tuple[float, ...]


def drawn(path: Path, content: str, size: tuple[float, float]) -> Path:
    """A PDF of one page."""
    with pikepdf.new() as pdf:
        fonts = Dictionary({f"/F{at}": Dictionary(Type=Name.Font, Subtype=Name.Type1, BaseFont=Name("/" + font))
                            for at, font in enumerate(FONTS)})
        page = Dictionary(Type=Name.Page, MediaBox=[0, 0, *size], Contents=pdf.make_stream(content.encode()),
                          Resources=Dictionary(Font=fonts))
        pdf.pages.append(pikepdf.Page(pdf.make_indirect(page)))
        pdf.save(path)
    return path


def rows() -> list[tuple[int, int, int]]:
    """The font, the size and the baseline of each line of type."""
    places = [(at, size) for at in range(len(FONTS)) for size in SIZES]
    return [(font, size, HEIGHT - 6 - ROW * (at + 1)) for at, (font, size) in enumerate(places)]


def trapped(room: Room, path: Path, preset: str, *options: str, dpi: int = 600) -> Trapped:
    """A page that was trapped at a resolution."""
    room.goes("plates", path, "page", "--force", "--dpi", str(dpi), "--preset", preset, *options)
    room.goes("trap", "page")
    page = PageFolder.read(str(room / "page"))
    before, after = (np.stack([255 - array for array in page.plates(done).arrays]) for done in (False, True))
    return Trapped(before, after, tuple(float(ink.density) for ink in page.inks))


def lowest(tints: np.ndarray) -> np.ndarray:
    """The least of each pixel and its eight neighbours."""
    for axis in (0, 1):
        ends = [(1, 1) if at == axis else (0, 0) for at in (0, 1)]
        grown = np.pad(tints, ends, mode="edge")
        parts = [np.take(grown, range(start, start + tints.shape[axis]), axis) for start in range(3)]
        tints = np.minimum.reduce(parts)
    return tints


def gaps(tints: np.ndarray, page: Trapped) -> np.ndarray:
    """Pixels that print lighter than all of their neighbours do in register, if any one plate is off by a pixel."""
    weights = np.array(page.densities, np.float32) / 255
    density, meant = (np.tensordot(weights, one.astype(np.float32), 1) for one in (tints, page.before))
    least, found = lowest(meant), np.zeros(density.shape, bool)
    for weight, plate in zip(weights, tints.astype(np.float32)):
        found |= density - weight * plate + weight * lowest(plate) < least - .15
    return found


def figures(page: Trapped, dpi: int) -> list[tuple[float, float, float]]:
    """Own share, halo and gaps of each group of sizes, with the two decimals of the table."""
    changed = (page.before != page.after).any(axis=0)
    kind = (page.before != page.before[:, 2, 2][:, None, None]).any(axis=0)
    open_before, open_after = gaps(page.before, page), gaps(page.after, page)
    found = []
    for group in GROUPS:
        sums = np.zeros(5)
        for _, size, lower in rows():
            if size in group:
                rows_of = slice(*(int(kind.shape[0] - place * dpi / 72) for place in (lower + ROW, lower)))
                part = np.s_[rows_of, 16:-16]
                own, other = kind[part], changed[part]
                sums += [own.sum(), (own & other).sum(), (other & ~own).sum(), open_before[part].sum(),
                         open_after[part].sum()]
        found.append((round(1 - sums[1] / sums[0], 2), round(sums[2] / sums[0], 2), round(sums[4] / sums[3], 2)))
    return found


@pytest.mark.parametrize("pair, preset, dpi", REACHED)
def test_drawn_type_is_as_good_as_the_prototype(room: Room, built: None, pair: str, preset: str, dpi: int) -> None:
    ground, ink = PAIRS[pair]
    lines = [f"{ground} k 0 0 {WIDTH} {HEIGHT} re f {ink} k"]
    lines += [f"BT /F{font} {size} Tf 6 {lower + 3.5} Td ({LINE}) Tj ET" for font, size, lower in rows()]
    page = trapped(room, drawn(room / "type.pdf", "\n".join(lines), (WIDTH, HEIGHT)), preset, dpi=dpi)
    for group, found, wanted in zip(GROUPS, figures(page, dpi), REACHED[pair, preset, dpi]):
        (own, halo, gap), (least, most_halo, most_gaps) = found, wanted
        assert own >= least and halo <= most_halo and gap <= most_gaps, (group, found, wanted)


@pytest.mark.parametrize("preset", ["offset", "flexo"])
def test_a_thin_stroke_on_a_thick_block_keeps_its_colour(room: Room, built: None, preset: str) -> None:
    """Strokes of a half and a quarter of a point that hang on a block of 30 points: with the page's width 12% of their
    pixels are left by the preset of offset, and none by that of flexo."""
    art = "0 .94 .94 0 k 0 0 120 60 re f 1 .6 0 .2 k 20 15 30 30 re f 50 29 40 .5 re f 50 25 40 .25 re f"
    path = drawn(room / "block.pdf", art, (120, 60))
    for options, is_kept in (((), True), (("--no-thin-zones",), False)):
        page = trapped(room, path, preset, *options)
        part = np.s_[int(28 * 600 / 72):int(36 * 600 / 72), int(50.5 * 600 / 72):int(89.5 * 600 / 72)]
        blue = (page.before[0] > 200)[part]
        own = 1 - (blue & (page.before != page.after).any(axis=0)[part]).sum() / blue.sum()
        assert (own >= 0.3) == is_kept, own
