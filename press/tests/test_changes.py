# SPDX-License-Identifier: Apache-2.0
"""What trapping changed, beside the plain comparison of whole planes."""
import numpy
import pytest

from press import changes

pytestmark = pytest.mark.quick
GRID = changes.Grid(16, 12)


@pytest.mark.parametrize("dtype", ["u1", ">u2"])
@pytest.mark.parametrize("times", [1, 3, 7])
def test_random_changes(times: int, dtype: str) -> None:
    """The counts, the marks on the small picture and those of the grid are those of whole planes, at the edges too."""
    chance = numpy.random.default_rng(times)
    before = [chance.integers(0, 200, (701, 83)).astype(dtype) for _ in range(3)]
    after = [numpy.where(chance.random(plane.shape) < share, chance.integers(0, 200, plane.shape), plane).astype(dtype)
             for plane, share in zip(before, (0.001, 0.0, 0.3))]
    found = changes.together([changes.changes_in(before, after, times, GRID, range(701))], before[0], times)
    differs = numpy.any([old != new for old, new in zip(before, after)], axis=0)
    assert found.added == tuple(int((new < old).sum()) for old, new in zip(before, after)) and found.added[1] == 0
    for marks, old, new in zip(found.marks, before, after):
        rows, columns = 701 // times, 83 // times
        squares = (new < old)[:rows * times, :columns * times].reshape(rows, times, columns, times)
        assert (marks == squares.any(axis=(1, 3))).all()
    rows = numpy.add.reduceat(differs, range(0, 701, 12), axis=0, dtype="i4")
    assert (found.counts == numpy.add.reduceat(rows, range(0, 83, 16), axis=1)).all()
    assert (GRID.counted(differs) == found.counts).all()
    row, column = numpy.divmod(numpy.flatnonzero(differs), 83)
    small = changes.marked(changes.small_places(row, column, differs.shape, 700), differs.shape, 700)
    assert (small == differs[:700, :83].any()).all()
