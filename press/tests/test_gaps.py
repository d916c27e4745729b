# SPDX-License-Identifier: Apache-2.0
"""What misregistration opens, beside the plain sum over every sample."""
import numpy
import pytest

from press import gaps

pytestmark = pytest.mark.quick


def bared(planes: list[numpy.ndarray], densities: list[float], radius: int) -> numpy.ndarray:
    """Where gaps open before trapping."""
    return gaps.bared_twice(planes, planes, densities, radius, range(planes[0].shape[0]))[0]


def slow(planes: list[numpy.ndarray], densities: list[float], radius: int) -> numpy.ndarray:
    """The definition, sample by sample."""
    height, width = planes[0].shape
    inks = [(255 - plane.astype("f4")) * numpy.float32(density / 255) for plane, density in zip(planes, densities)]
    there = sum(inks)
    out = numpy.zeros((height, width), dtype=bool)
    for y in range(height):
        for x in range(width):
            part = slice(max(0, y - radius), y + radius + 1), slice(max(0, x - radius), x + radius + 1)
            worst = sum(float(ink[part].min()) for ink in inks)
            out[y, x] = worst < there[part].min() - gaps.MARGIN
    return out


@pytest.mark.parametrize("radius", [1, 2, 3])
def test_random_planes(radius: int) -> None:
    """The band-wise sum finds the samples that the definition names."""
    chance = numpy.random.default_rng(radius)
    planes = [numpy.where(chance.random((9, 13)) < 0.6, 0, 255).repeat(4, 0).repeat(4, 1).astype("u1") for _ in range(3)]
    found = bared(planes, [0.61, 0.76, 1.7], radius)
    assert (found == slow(planes, [0.61, 0.76, 1.7], radius)).all() and found.any()


def test_edges_on_paper_are_no_gaps() -> None:
    """Paper lies beside the edge of a shape on bare paper in register too; two inks that meet can part."""
    cyan, magenta = (numpy.full((20, 40), 255, dtype="u1") for _ in range(2))
    cyan[:, 10:20] = 0
    assert not bared([cyan, magenta], [0.61, 0.76], 1).any()
    magenta[:, 20:30] = 0
    assert bared([cyan, magenta], [0.61, 0.76], 1)[:, 19:21].all()
    # An overlap of two samples closes what plates off by one each open.
    magenta[:, 18:30] = 0
    assert not bared([cyan, magenta], [0.61, 0.76], 1)[:, 15:25].any()
