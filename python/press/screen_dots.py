# SPDX-License-Identifier: Apache-2.0
"""Threshold arrays: in which order the pixels of a supercell take ink, and at which gray each of them does."""
import os
from collections.abc import Sequence

import numpy as np
from numpy.typing import NDArray

from .files import whole_file
from .screen_cell import ELLIPTIC, LINE, Cell

Order = NDArray[np.int32]
Thresholds = NDArray[np.uint16]
Curve = Sequence[tuple[float, float]]
GRAYS = 256
LINEAR: Curve = ((0.0, 0.0), (100.0, 100.0))
# Dots of the elliptic shape join along the screen's direction before they join across it; lines are broken in light
# tints.
ELLIPTIC_PART, LINE_PART = 0.8, 0.25
# Where a period begins, in radians: no two pixels of a cell lie at the same height of a dot.
FIRST_PHASE, SECOND_PHASE = 0.37, 0.61


def heights(cell: Cell, shape: str) -> NDArray[np.float32]:
    """How high each pixel of the supercell lies on its dot: the highest take ink first. Rows go down from the top."""
    rows, columns = np.indices((cell.side, cell.side), np.int64)
    along = ((cell.across * columns - cell.upward * rows) % cell.side + FIRST_PHASE) * (2 * np.pi / cell.side)
    beside = ((cell.upward * columns + cell.across * rows) % cell.side + SECOND_PHASE) * (2 * np.pi / cell.side)
    part = {ELLIPTIC: ELLIPTIC_PART, LINE: LINE_PART}.get(shape, 1.0)
    found: NDArray[np.float32] = (part * np.cos(along) + np.cos(beside)).astype(np.float32)
    return found


def make_order(cell: Cell, shape: str) -> Order:
    """The place of each pixel in the order in which they take ink, from 0."""
    by_height = np.argsort(-heights(cell, shape), axis=None, kind="stable")
    order = np.empty(cell.side ** 2, np.int32)
    order[by_height] = np.arange(cell.side ** 2, dtype=np.int32)
    return order.reshape(cell.side, cell.side)


def cache_folder() -> str:
    """Where orders are kept, since a large one takes seconds."""
    base = os.environ.get("XDG_CACHE_HOME") or os.path.expanduser("~/.cache")
    return os.path.join(base, "press", "screens")


def order_of(cell: Cell, shape: str) -> Order:
    """The order of a supercell, from the cache or made. A cache that cannot be read or written is passed over."""
    path = os.path.join(cache_folder(), f"{shape}-{cell.across}-{cell.upward}-{cell.side}.order1")
    try:
        found = np.fromfile(path, np.int32)
        if found.size == cell.side ** 2 and int(found.min()) == 0 and int(found.max()) == found.size - 1:
            return found.reshape(cell.side, cell.side)
    except OSError:
        pass
    order = make_order(cell, shape)
    try:
        os.makedirs(cache_folder(), exist_ok=True)
        with whole_file(path) as made:
            order.tofile(made)
    except Exception:  # pylint: disable=broad-exception-caught
        # NumPy and the system have several faults for a full disk; none of them stops the plate.
        pass
    return order


def printed(tint: float, curve: Curve, least: float) -> float:
    """The part of the paper in per cent that is covered for a tint: by the curve, and at least the least dot."""
    if tint <= 0:
        return 0.0
    given, wanted = zip(*curve)
    return max(float(np.interp(tint, given, wanted)), least)


def ink_counts(size: int, curve: Curve, least: float) -> NDArray[np.int64]:
    """How many of a supercell's pixels have ink for each gray of a plate, from 0, which is full ink, to 255."""
    tints = [100 * (255 - gray) / 255 for gray in range(GRAYS)]
    return np.array([round(size * printed(tint, curve, least) / 100) for tint in tints], np.int64)


def thresholds(order: Order, counts: NDArray[np.int64]) -> Thresholds:
    """For each pixel the number of grays at which it has ink: it has ink where the gray is below its threshold."""
    ends = np.searchsorted(-counts, -np.arange(order.size, dtype=np.int64), "left")
    return ends.astype(np.uint16)[order]


def negative(array: Thresholds) -> Thresholds:
    """The thresholds by which the inverted plate gets ink exactly where the plate gets none."""
    return (GRAYS - array).astype(np.uint16)


def mirrored(array: Thresholds, width: int) -> Thresholds:
    """The thresholds that a plate of this width has when it is seen from behind."""
    return np.roll(array[:, ::-1], width % array.shape[1], axis=1)
