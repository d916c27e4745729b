# SPDX-License-Identifier: Apache-2.0
"""Masks of one bit a pixel, beside the same on masks of one byte a pixel."""
import numpy as np
import pytest

from press import bits

pytestmark = [pytest.mark.quick, pytest.mark.plain]
SIZES = ((1, 1), (7, 63), (9, 64), (20, 65), (30, 128), (3, 200), (70, 150))


def drawn(height: int, width: int, share: float = 0.1) -> np.ndarray:
    """A mask of random pixels, the same each time."""
    return np.random.default_rng(height * width).random((height, width)) < share


def words_of(mask: np.ndarray) -> bits.Words:
    """The same as words."""
    words = bits.empty(*mask.shape)
    bits.put(words, mask)
    return words


def near(mask: np.ndarray, reach: int) -> np.ndarray:
    """Each pixel within `reach` rows and columns of one that is set."""
    rows, columns = np.nonzero(mask)
    out = np.zeros_like(mask)
    for row, column in zip(rows, columns):
        out[max(0, row - reach):row + reach + 1, max(0, column - reach):column + reach + 1] = True
    return out


@pytest.mark.parametrize("size", SIZES)
def test_a_mask_comes_out_as_it_went_in(size: tuple[int, int]) -> None:
    mask = drawn(*size)
    words = words_of(mask)
    assert words.shape == (size[0], (size[1] + 63) // 64) and words.dtype.itemsize == 8
    assert (bits.unpacked(words, size[1]) == mask).all()
    assert bits.count(words) == mask.sum()
    assert not bits.unpacked(words, 64 * words.shape[1])[:, size[1]:].any()


def test_whole_words_are_packed_at_once() -> None:
    masks = np.stack([drawn(5, 192), drawn(5, 192, 0.5)])
    assert all((bits.unpacked(words, 192) == mask).all() for words, mask in zip(bits.packed(masks), masks))


@pytest.mark.parametrize("size", SIZES)
@pytest.mark.parametrize("across", (0, 1, -1, 5, -31, 63, 64, -64, 65, -100, 130, -300))
def test_moved(size: tuple[int, int], across: int) -> None:
    """Within the words of a row; beyond them it is lost."""
    wide = np.zeros((size[0], 64 * ((size[1] + 63) // 64)), bool)
    wide[:, :size[1]] = drawn(*size, 0.5)
    expected = np.zeros_like(wide)
    for column in range(wide.shape[1]):
        if 0 <= column - across < wide.shape[1]:
            expected[:, column] = wide[:, column - across]
    assert (bits.unpacked(bits.moved(words_of(wide), across), wide.shape[1]) == expected).all()


@pytest.mark.parametrize("size", SIZES)
@pytest.mark.parametrize("reach", (0, 1, 2, 4, 9, 30, 64, 90))
def test_spread(size: tuple[int, int], reach: int) -> None:
    """Not beyond the last column, from whatever border a pixel lies at."""
    mask = drawn(*size, 0.02)
    mask[0, 0] = mask[-1, -1] = True
    found = bits.spread(words_of(mask), reach, bits.columns(0, size[1], size[1]))
    assert (bits.unpacked(found, size[1]) == near(mask, reach)).all()
    assert bits.count(found) == near(mask, reach).sum()


@pytest.mark.parametrize("size", SIZES)
def test_places(size: tuple[int, int]) -> None:
    mask = drawn(*size)
    words = words_of(mask)
    rows, columns = np.nonzero(mask)
    pitch = 64 * words.shape[1]
    assert bits.places(words).tolist() == (rows * pitch + columns).tolist()
    every = np.arange(size[0] * pitch)
    assert np.flatnonzero(bits.has(words, every)).tolist() == bits.places(words).tolist()


def test_columns() -> None:
    found = [bits.unpacked(bits.columns(*ends, 70)[None], 128)[0] for ends in ((0, 70), (-5, 3), (60, 90), (9, 9), (30, 20))]
    assert [np.flatnonzero(one).tolist() for one in found] == [[*range(70)], [0, 1, 2], [*range(60, 70)], [], []]
