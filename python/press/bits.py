# SPDX-License-Identifier: Apache-2.0
"""Masks with one bit for each pixel. They take an eighth of the memory of NumPy's masks, and as little of the time
to move and to join them.

A mask is rows × words of 64 pixels: pixel c of a row is bit c % 64 of word c // 64. The bits after the last column are
0. A place in a mask is the number row × 64 × words + c.
"""
from __future__ import annotations

from collections.abc import Iterator

import numpy as np
import numpy.typing as npt

WORD = 64
# The least significant bit comes first, on every machine.
LITTLE = np.dtype("<u8")

Words = npt.NDArray[np.uint64]
Mask = npt.NDArray[np.bool_]
Numbers = npt.NDArray[np.int64]


def empty(height: int, width: int) -> Words:
    """A mask with no pixel."""
    return np.zeros((height, -(-width // WORD)), LITTLE)


def packed(mask: Mask) -> Words:
    """A mask of which a row has whole words of pixels."""
    flat = np.packbits(mask, axis=None, bitorder="little").view(LITTLE)
    return flat.reshape(*mask.shape[:-1], -1)


def put(out: Words, mask: Mask) -> None:
    """Packs a mask into rows of words."""
    eighths = -(-mask.shape[1] // 8)
    out.view(np.uint8)[:, :eighths] = np.packbits(mask, axis=1, bitorder="little")


def unpacked(words: Words, width: int) -> Mask:
    """The pixels of the first `width` columns."""
    return np.asarray(np.unpackbits(words.view(np.uint8), axis=1, bitorder="little")[:, :width].view(bool))


def columns(first: int, last: int, width: int) -> Words:
    """A row with the columns from `first` up to `last`, without it, as far as there are any."""
    row = np.zeros((1, width), bool)
    row[0, max(0, first):max(0, last)] = True
    out = empty(1, width)
    put(out, row)
    return out.reshape(-1)


def add_moved(out: Words, words: Words, across: int) -> None:
    """Adds a mask that is moved by so many columns. What leaves the words of a row is lost."""
    whole, rest = divmod(abs(across), WORD)
    kept = words.shape[1] - whole
    if kept <= 0:
        return
    shift, back = np.uint64(rest), np.uint64(WORD - rest)
    target, source = (out[:, whole:], words[:, :kept]) if across > 0 else (out[:, :kept], words[:, whole:])
    if not rest:
        target |= source
    elif across > 0:
        target |= source << shift
        target[:, 1:] |= source[:, :-1] >> back
    else:
        target |= source >> shift
        target[:, :-1] |= source[:, 1:] << back


def moved(words: Words, across: int) -> Words:
    """A mask that is moved by so many columns."""
    out = np.zeros_like(words)
    add_moved(out, words, across)
    return out


def spread(words: Words, reach: int, inside: Words) -> Words:
    """Each pixel within `reach` rows and columns of one that is set, as far as it lies in the columns of `inside`, one
    row."""
    out = words.copy()
    for step in steps_to(reach):
        before = out.copy()
        add_moved(out, before, step)
        add_moved(out, before, -step)
    out &= inside
    for step in steps_to(reach):
        before = out.copy()
        out[step:] |= before[:-step]
        out[:-step] |= before[step:]
    return out


def steps_to(reach: int) -> Iterator[int]:
    """Steps that add up to `reach`. None is longer by more than one than those before it together, so there is a way to
    each pixel that does not leave the mask."""
    covered = 0
    while covered < reach:
        step = min(covered + 1, reach - covered)
        yield step
        covered += step


def places(words: Words) -> Numbers:
    """The places of the pixels that are set, in their order."""
    flat = words.reshape(-1)
    some = np.flatnonzero(flat)
    pixels = np.flatnonzero(np.unpackbits(flat[some].view(np.uint8), bitorder="little").view(bool))
    return np.asarray(some[pixels // WORD] * WORD + pixels % WORD)


def has(words: Words, at: Numbers) -> Mask:
    """Whether the pixels at some places are set."""
    lowest: Words = words.reshape(-1)[at // WORD] >> (at % WORD).astype(np.uint64)
    return np.asarray(lowest & np.uint64(1), bool)


def count(words: Words) -> int:
    """How many pixels are set."""
    return int(np.count_nonzero(np.unpackbits(words.view(np.uint8))))
