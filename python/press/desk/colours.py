# SPDX-License-Identifier: Apache-2.0
"""Pictures of plates: inks printed over each other, the traps in their inks' colours, and PNG tiles.

Colours are packed as the browser's canvas wants them: red, green, blue and opacity, from the lowest byte up.
"""
from __future__ import annotations

from collections.abc import Mapping, Sequence
from functools import lru_cache
from typing import Any

import numpy as np
from numpy.typing import NDArray
from PIL import Image, ImageCms

from press.inks import Ink
from press.names import PROCESS
from press.picture import need_profile
from press.png import encoded

from .pyramid import blank

Tints = NDArray[np.uint8]
Pixels = NDArray[np.uint32]
Mask = NDArray[np.bool_]

OPAQUE = np.uint32(0xFF000000)
DIFFERENT = OPAQUE | np.uint32(0x5B00C2)
"""What differs, or is too much: a red that no process ink has."""
GAP = OPAQUE | np.uint32(0x3CE600)
"""A gap: a green that no inks over each other have."""
PIXELS_AT_ONCE = 1 << 15
"""So many pixels are painted at once: what is computed of them stays in the processor's cache."""
NO_INK = np.full(1, 255, np.uint8)
MOST_TABLES = 16
"""Tables of a megabyte each for two inks over each other."""
TOO_MUCH = 300
"""The sum of tints in per cent above which the map of ink marks a place."""
PALEST, PALE_RANGE = 205, 50
"""The gray of the page below its traps: from PALEST to white."""
PALE = (PALEST + np.arange(3 * 255 + 1, dtype=np.float32) / np.float32(3) * PALE_RANGE / 255).astype(np.uint32)
"""That gray by the sum of red, green and blue."""


def packed(red: NDArray[np.uint32], green: NDArray[np.uint32], blue: NDArray[np.uint32]) -> Pixels:
    """Colours as the canvas wants them."""
    return np.asarray(red | green << np.uint32(8) | blue << np.uint32(16) | OPAQUE, np.uint32)


def packed_light(light: tuple[int, int, int]) -> np.uint32:
    """One colour as the canvas wants it."""
    return np.uint32(light[0] | light[1] << 8 | light[2] << 16) | OPAQUE


@lru_cache(MOST_TABLES)
def shares_of(*lights: tuple[int, int, int]) -> NDArray[np.float32]:
    """What share of red, green, blue and opacity one or two inks over each other leave, by the tint of the first
    times 256 and that of the second, of which 255 is no ink."""
    coverage = 1 - np.arange(256, dtype=np.float32) / 255
    shares = np.ones((2, 256, 4), np.float32)
    for k, light in enumerate(lights):
        for channel in range(3):
            shares[k, :, channel] = 1 - coverage * (1 - light[channel] / 255)
    return np.asarray((shares[0][:, None] * shares[1][None]).reshape(65_536, 4))


class Inks:
    """The colours of a page's inks: what light full ink lets through, as red, green and blue of 0 to 255."""

    def __init__(self, lights: Sequence[tuple[int, int, int]], seen: Sequence[bool],
                 soft: SoftProof | None = None) -> None:
        self.lights, self.seen, self.soft = list(lights), list(seen), soft

    def paint(self, planes: Sequence[Tints], shown: int) -> Pixels:
        """The inks of the plates whose bit is set in `shown`, over each other; planes of any one shape."""
        shape, size = planes[0].shape, planes[0].size
        flat = {k: np.ascontiguousarray(plane).ravel() for k, plane in enumerate(planes)
                if self.seen[k] and shown >> k & 1 and size and plane.min() < 255}
        starts = np.zeros(size, bool)
        starts[:1] = True
        for plane in flat.values():
            starts[1:] |= plane[1:] != plane[:-1]
            if 3 * np.count_nonzero(starts) > size:  # a photograph: equal pixels do not follow each other
                return np.asarray(self._light(flat, size).reshape(shape))
        at = np.flatnonzero(starts)
        pixels = self._light({k: plane[at] for k, plane in flat.items()}, at.size)
        return np.asarray(np.repeat(pixels, np.diff(at, append=size)).reshape(shape))

    def _light(self, flat: Mapping[int, Tints], size: int) -> Pixels:
        """The light that pixels send back, two inks at a time by a table for both. `flat` has the plates with ink."""
        pairs = sorted({k // 2 * 2 for k in flat})
        tables = [shares_of(*self.lights[first:first + 2]) for first in pairs]
        out = np.full(size, 0xFFFFFFFF, np.uint32)
        channels = out.view(np.uint8).reshape(-1, 4)
        for start in range(0, size if pairs else 0, PIXELS_AT_ONCE):
            part, light = slice(start, start + PIXELS_AT_ONCE), np.float32(255)
            for first, table in zip(pairs, tables):
                upper, lower = (flat[k][part] if k in flat else NO_INK for k in (first, first + 1))
                light = np.take(table, np.left_shift(upper, 8, dtype=np.uint16) | lower, axis=0, mode="clip") * light
            np.copyto(channels[part], light + np.float32(0.5), casting="unsafe")
        return out

    def picture(self, mode: str, planes: Sequence[Tints], shown: int, soft: bool) -> Pixels:
        """The plates as inks over each other, by the press's profile if that is asked for and set; or how much ink
        there is."""
        planes = [plane if shown >> k & 1 and seen else blank(plane.shape)
                  for k, (plane, seen) in enumerate(zip(planes, self.seen))]
        if mode == "ink":
            return paint_total(planes)
        return self.soft.paint(planes) if soft and self.soft else self.paint(planes, shown)

    def paint_traps(self, before: Sequence[Tints], changed: Sequence[Mask | None], shown: int,
                    alike: bool = False) -> Pixels:
        """A pale page with each plate's changed pixels in its ink's colour, or with all of them `alike`."""
        light = self.paint(before, shown).view(np.uint8).reshape(*before[0].shape, 4)
        total = light[..., 0].astype(np.uint16) + light[..., 1] + light[..., 2]
        pale = PALE[total]
        out = packed(pale, pale, pale)
        for k, mask in enumerate(changed):
            if mask is not None and shown >> k & 1:
                out[mask] = DIFFERENT if alike else packed_light(self.lights[k])
        return out

    def changes(self, before: Sequence[Tints], after: Sequence[Tints], shown: int) -> NDArray[np.uint32]:
        """The pixels that traps change, for a browser that has the picture before: all places, then all colours."""
        changed = np.zeros(before[0].shape, bool)
        for k, (old, new) in enumerate(zip(before, after)):
            if shown >> k & 1:
                changed |= new != old
        at = np.flatnonzero(changed)
        colours = self.paint([plane.ravel()[at] for plane in after], shown)
        return np.concatenate([at.astype(np.uint32), colours])


class SoftProof:
    """Colours by the profile of a press: the process inks as it says, and each spot by the process inks that look like
    it."""

    def __init__(self, inks: Sequence[Ink], profile: str) -> None:
        need_profile(profile)
        self.transform = ImageCms.buildTransform(profile, ImageCms.createProfile("sRGB"), "CMYK", "RGB")
        names = [ink.name for ink in inks]
        self.process = [names.index(name) if name in names else None for name in PROCESS]
        self.spots = [(k, self._light(np.array([[[round(part * 2.55) for part in ink.look]]], np.uint8))[0, 0])
                      for k, ink in enumerate(inks) if not ink.is_process]

    def _light(self, tints: Tints) -> NDArray[np.float32]:
        """Red, green and blue of cyan, magenta, yellow and black, rows × columns × inks."""
        image: Any = Image.fromarray(np.ascontiguousarray(tints), "CMYK")
        return np.asarray(ImageCms.applyTransform(image, self.transform), np.float32)

    def paint(self, planes: Sequence[Tints]) -> Pixels:
        """The inks of the plates over each other; 0 is full ink."""
        paper = blank(planes[0].shape)
        tints = np.stack([255 - (paper if k is None else planes[k]) for k in self.process], axis=-1)
        light = self._light(tints.reshape(1, -1, len(PROCESS))).reshape(*planes[0].shape, 3)
        for k, spot in self.spots:
            if planes[k].size and planes[k].min() < 255:
                light = light * (1 - (1 - planes[k].astype(np.float32) / 255)[..., None] * (1 - spot / 255))
        red, green, blue = np.moveaxis((light + np.float32(0.5)).astype(np.uint32), -1, 0)
        return packed(red, green, blue)


def soft_proof(inks: Sequence[Ink], profile: str | None) -> SoftProof | None:
    """The colours of a profile, if one is set."""
    return SoftProof(inks, profile) if profile else None


def paint_total(planes: Sequence[Tints]) -> Pixels:
    """The sum of tints: paper is white, 100 % pale, and what is above TOO_MUCH stands out."""
    total = np.zeros(planes[0].shape, np.uint32)
    for plane in planes:
        total += np.uint32(255) - plane
    gray = np.uint32(255) - np.minimum(total * np.uint32(200) // np.uint32(255 * 4), np.uint32(200))
    out = packed(gray, gray, gray)
    out[total > TOO_MUCH * 255 // 100] = DIFFERENT
    return out


def png(pixels: Pixels) -> bytes:
    """A PNG file; a photograph is not compressed, since that takes longest."""
    is_flat = np.count_nonzero(pixels[:, 1:] != pixels[:, :-1]) * 3 <= pixels.size
    channels = np.ascontiguousarray(pixels).view(np.uint8).reshape(*pixels.shape, 4)
    return encoded(channels[:, :, :3], 1 if is_flat else 0)
