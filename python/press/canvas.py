# SPDX-License-Identifier: Apache-2.0
"""Small boxes of a page side by side on one canvas, so that a step on all of them is one call of NumPy."""
from __future__ import annotations

from collections.abc import Callable, Iterator, Sequence
from dataclasses import dataclass, field
from typing import Any

import numpy as np

from .stroke_runs import Plane
from .strokes import Box

# A canvas has at most so many pixels, unless one box has more.
CANVAS_PIXELS = 1 << 19
CANVAS_WIDTH = 1 << 10


@dataclass
class Canvas:
    """Boxes of a page: of each one its number, the box, and the rows and columns of the canvas that it takes."""

    height: int = 0
    width: int = CANVAS_WIDTH
    places: list[tuple[int, Box, tuple[slice, slice]]] = field(default_factory=list)

    def copied(self, plane: Any) -> Plane:
        """The boxes of a plane of the page, with full ink between them."""
        return self._filled(lambda _, box: plane[box.upper:box.lower, box.left:box.right])

    def filled(self, values: Sequence[int]) -> Plane:
        """Each box filled with the value of its number, with 0 between them."""
        return self._filled(lambda number, _: values[number])

    def _filled(self, values: Callable[[int, Box], Any]) -> Plane:
        out = np.zeros((self.height, self.width), np.uint8)
        for number, box, place in self.places:
            out[place] = values(number, box)
        return out


def canvases_of(boxes: Sequence[Box], gap: int) -> Iterator[Canvas]:
    """The canvases of some boxes, in rows from the tallest to the lowest box, with so many pixels between them."""
    order = sorted(range(len(boxes)), key=lambda at: boxes[at].upper - boxes[at].lower)
    canvas, left, upper = Canvas(), 0, 0
    for number in order:
        box = boxes[number]
        high, wide = box.lower - box.upper, box.right - box.left
        if left + wide > canvas.width and left:
            left, upper = 0, canvas.height + gap
        if (upper + high) * max(wide, canvas.width) > CANVAS_PIXELS and canvas.places:
            yield canvas
            canvas, left, upper = Canvas(), 0, 0
        canvas.width = max(canvas.width, wide)
        canvas.height = max(canvas.height, upper + high)
        canvas.places.append((number, box, (slice(upper, upper + high), slice(left, left + wide))))
        left += wide + gap
    if canvas.places:
        yield canvas
