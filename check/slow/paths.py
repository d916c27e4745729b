# SPDX-License-Identifier: Apache-2.0
"""The path that a job draws. Points are pairs in ten-thousandths of a point, 1/72 inch."""
from .refusals import JobFault

FARTHEST = 1000000 * 10000
MOST_VERTICES = 4096


class Path:
    """The subpaths drawn since the path was emptied, and the current point."""

    def __init__(self):
        self.subpaths, self.current, self.closed = [], None, False

    def vertices(self):
        return sum(len(subpath) for subpath in self.subpaths)

    def close(self):
        """The current point is the subpath's first vertex. Without a current point nothing changes."""
        if self.current is not None:
            self.current, self.closed = self.subpaths[-1][0], True

    def draw(self, operator, x, y, at):
        """One of the four drawing operators; `at` is its offset."""
        relative, begins = operator[:1] == b"r", operator.endswith(b"moveto")
        if self.current is None and (relative or not begins):
            raise JobFault("NoCurrentPoint", at)
        if relative:
            x, y = self.current[0] + x, self.current[1] + y
        if abs(x) > FARTHEST or abs(y) > FARTHEST:
            raise JobFault("CoordinateRange", at)
        # Behind closepath a line begins a subpath at the current point, and so adds two vertices.
        again = self.closed and not begins
        if self.vertices() + (2 if again else 1) > MOST_VERTICES:
            raise JobFault("TooManyVertices", at)
        if begins:
            self.subpaths.append([])
        elif again:
            self.subpaths.append([self.current])
        self.subpaths[-1].append((x, y))
        self.current, self.closed = (x, y), False
