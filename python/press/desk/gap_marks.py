# SPDX-License-Identifier: Apache-2.0
"""Where plates that are out of register leave gaps, by the definition of press.gaps: what prints at a pixel is lighter
than everything near in register. There each plate is off its own way as far as the radius; here each lies where an
operator moved it.
"""
from __future__ import annotations

from collections.abc import Sequence

import numpy as np
from numpy.typing import NDArray

from press.gaps import MARGIN, spread, stretches
from press.picture import Shift, shifted

Tints = NDArray[np.uint8]
Mask = NDArray[np.bool_]


def gaps_opened(planes: Sequence[Tints], densities: Sequence[float], shifts: Sequence[Shift]) -> Mask:
    """The pixels of a part at which a gap opens if each plate is moved so far to the right and down. The planes are in
    register, 0 is full ink. Pixels whose print comes from beyond the part are no gaps."""
    height, width = planes[0].shape
    radius = max(abs(side) for shift in shifts for side in shift)
    found = np.zeros((height, width), bool)
    if not radius:
        return found
    moved = [shifted(plane, shift, (0, 0, width, height)) for plane, shift in zip(planes, shifts)]
    for rows, columns, around in stretches(planes, planes, densities, radius, range(height)):
        own = tuple(slice(one.start - far.start, one.stop - far.start) for one, far in zip((rows, columns), around))
        near = spread(printed([plane[around] for plane in planes], densities), radius, np.minimum)[own]
        found[rows, columns] = printed([plane[rows, columns] for plane in moved], densities) < near - np.float32(MARGIN)
    for right, down in shifts:
        known = np.zeros_like(found)
        known[max(0, down):height + min(0, down), max(0, right):width + min(0, right)] = True
        found &= known
    return found


def printed(planes: Sequence[Tints], densities: Sequence[float]) -> NDArray[np.float32]:
    """The density of all inks at each pixel."""
    total = np.zeros(planes[0].shape, np.float32)
    for plane, density in zip(planes, densities):
        total += (255 - plane) * np.float32(density / 255)
    return total
