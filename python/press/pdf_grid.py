# SPDX-License-Identifier: Apache-2.0
"""The plates' grid on a PDF page: the box that was drawn, and the matrix from pixels to the page's user space."""
import pikepdf

from .errors import PressError, Status
from .rects import NOTHING, Rect
from .source import BOX_NAMES, box_numbers, inherited

ANCHORS = ("top", "bottom")
# By how many pixels Ghostscript's grid may be off, somewhat less than a half. A page that is a half more than whole
# pixels cannot be exact in all renderers.
MOST_SHIFT = 0.45
LETTER = Rect(0.0, 0.0, 612.0, 792.0)


def inherited_number(page: pikepdf.Page, name: str, otherwise: float) -> float:
    """A number of the page or of the page tree, or another one if it has none."""
    try:
        return float(inherited(page.obj, name))
    except (TypeError, ValueError):
        return otherwise


def read_box(page: pikepdf.Page, box: str) -> Rect | None:
    """A box in points by the name that --box has for it, if the page has it and it has four numbers."""
    try:
        found = box_numbers(inherited(page.obj, "/" + BOX_NAMES[box]))
    except (TypeError, ValueError):
        return None
    return Rect(*found) if found else None


def box_of(page: pikepdf.Page, box: str) -> Rect:
    """The box that is drawn, within the media box. A page that lacks it has its crop box drawn, or else its media
    box."""
    media = read_box(page, "media") or LETTER
    one = media if box == "media" else read_box(page, box) or read_box(page, "crop") or media
    within = one.common(media)
    return within if within != NOTHING else media


def rotation(page: pikepdf.Page) -> int:
    """By how many degrees the page is turned clockwise: 0, 90, 180 or 270."""
    turn = int(inherited_number(page, "/Rotate", 0)) % 360
    return turn if turn % 90 == 0 else 0


def user_unit(page: pikepdf.Page) -> float:
    """How many points a unit of the page is."""
    try:
        unit = float(page.obj.get("/UserUnit", 1))
    except (TypeError, ValueError):
        return 1
    return unit if unit > 0 else 1


def size_in_pixels(page: pikepdf.Page, box: str, dpi: float) -> tuple[float, float]:
    """The width and the height of the page as it is seen, in pixels that need not be whole."""
    sides = box_of(page, box)
    width, height = sides.right - sides.left, sides.upper - sides.lower
    scale = dpi * user_unit(page) / 72
    return (height * scale, width * scale) if rotation(page) % 180 else (width * scale, height * scale)


def fits(page: pikepdf.Page, box: str, dpi: float, size: tuple[int, int]) -> bool:
    """Whether plates of that width and height may be of this box."""
    return all(abs(one - other) < 1.01 for one, other in zip(size_in_pixels(page, box, dpi), size))


def box_of_plates(page: pikepdf.Page, number: int, dpi: float, size: tuple[int, int]) -> str:
    """The box whose size the plates have, the media box before others. Boxes of one size and place are one."""
    found = [box for box in BOX_NAMES if fits(page, box, dpi, size)]
    places = {box_of(page, box) for box in found}
    if not found:
        width, height = size_in_pixels(page, "media", dpi)
        raise PressError(Status.PLATES, f"the plates have {size[0]} by {size[1]} pixels, and the page at {dpi:g} dpi "
                         f"has {width:.1f} by {height:.1f}: they are no plates of this page", f"page {number}")
    if found[0] != "media" and len(places) > 1:
        raise PressError(Status.USAGE, f"the plates may be of the boxes {', '.join(found)}: say which by --box",
                         f"page {number}")
    return found[0]


def odd_part(page: pikepdf.Page, box: str, dpi: float, height: int) -> float:
    """By how many pixels the page as it is seen is higher than its plates."""
    return size_in_pixels(page, box, dpi)[1] - height


def grid_matrix(page: pikepdf.Page, box: str, dpi: float, height: int, anchor: str) -> list[float]:
    """The matrix from pixels, x to the right and y up from the page's lower edge, to the page's user space.

    Ghostscript lays its grid from the lower left corner of the page as it is seen. If the height is no whole number
    of pixels, the odd part is at the top; but it paints those pixels of an image whose centres it hits, so the grid
    may be off by less than half a pixel. MuPDF and Poppler lay the grid from the upper left corner, and need it
    exactly.
    """
    sides = box_of(page, box)
    turn = rotation(page)
    step = 72 / (dpi * user_unit(page))
    odd = odd_part(page, box, dpi, height) if anchor == "top" else 0.0
    shift = max(-MOST_SHIFT, min(MOST_SHIFT, odd)) * step
    corner = {0: (sides.left, sides.lower + shift), 90: (sides.right - shift, sides.lower),
              180: (sides.right, sides.upper - shift), 270: (sides.left + shift, sides.upper)}[turn]
    across = {0: (step, 0.0), 90: (0.0, step), 180: (-step, 0.0), 270: (0.0, -step)}[turn]
    upward = {0: (0.0, step), 90: (-step, 0.0), 180: (0.0, -step), 270: (step, 0.0)}[turn]
    return [*across, *upward, *corner]


def plain_number(value: float) -> str:
    """A number as PDF spells it, without an exponent."""
    return f"{value:.9f}".rstrip("0").rstrip(".") if abs(value) > 1e-6 else "0"
