# SPDX-License-Identifier: Apache-2.0
"""Pictures of screened plates: the dots of all inks, laid over each other in the inks' colours."""
from collections.abc import Sequence

import numpy as np
from PIL import Image

from .files import whole_file
from .look import part_of
from .picture import Painter, Part
from .plates import Array
from .screen import Screened
from .screen_dots import ink_counts, order_of, thresholds
from .screen_strips import Imaging
from .trapped_page import TrappedPage


def dots(plate: Array, one: Screened, imaging: Imaging, part: Part) -> Array:
    """The dots of a part of a plate, which is given in its samples: a pixel with ink is 0, one without is 255."""
    left, top, width, height = part
    array = thresholds(order_of(one.cell, one.asked.screen.shape),
                       ink_counts(one.cell.side ** 2, one.asked.curve, one.asked.least))
    rows, columns = pixels_of(imaging, top, height), pixels_of(imaging, left, width)
    grays = plate[sources(imaging, rows, plate.shape[0])][:, sources(imaging, columns, plate.shape[1])]
    side = one.cell.side
    inked = grays < array[rows[:, None] % side, columns[None, :] % side]
    found: Array = np.where(inked, 0, 255).astype(np.uint8)
    return found


def pixels_of(imaging: Imaging, first: int, count: int) -> Array:
    """The pixels of so many samples from the first one on."""
    start = imaging.side(first) if first else 0
    found: Array = np.arange(start, max(start + 1, imaging.side(first + count)))
    return found


def sources(imaging: Imaging, pixels: Array, samples: int) -> Array:
    """For each pixel the sample whose middle is nearest."""
    return imaging.sources(int(pixels[0]), int(pixels[-1]) + 1, samples)


def draw_dots(page: TrappedPage, screened: Sequence[Screened], imaging: Imaging, part: str | None, out: str) -> None:
    """Draws a part of the page, X,Y,W,H or most or most:WxH in samples, into a PNG file: a point for each pixel of the
    screened plates, as they are printed."""
    painter = Painter(page.folder, True)
    where = part_of(part or "most", painter)
    planes = [dots(plate, one, imaging, where) for one, plate in zip(screened, page.after.arrays)]
    with whole_file(out) as path:
        Image.fromarray(painter.laid_over(planes)).save(path, format="PNG", optimize=True)
