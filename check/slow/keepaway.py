# SPDX-License-Identifier: Apache-2.0
"""Keepaway on a whole page at once: an ink under a cover is drawn back from where the cover ends (docs/KEEPAWAY.md).

Pixels are (x, y) with row 0 at the top. Widths are in ten-thousandths of a point; a pixel of a page of R dpi is
720,000 / R of them.
"""
from .entries import KINDS, S

# A pixel's side, in ten-thousandths of a point times the resolution.
PIXEL = 72 * S
# The share of full ink from which a pixel has colour.
COLOUR = 10


class RichBlack:
    """The inks under black are drawn back from where black ends."""

    def __init__(self, rule, width, limit, spared):
        self.rule, self.page, self.width, self.limit, self.spared = rule, rule.page, width, limit, spared
        self.black = {pixel for pixel in self.page.samples() if self.is_black(pixel)}
        self.cover = {pixel for pixel in self.page.samples() if self.is_covered(pixel)}

    def blacks(self, pixel):
        """The plates whose inks are black in the pixel's zone."""
        least = self.rule.params(pixel)["BlackDensityLimit"]
        return [plate for plate, ink in enumerate(self.page.inks) if ink.kind == "Normal" and ink.density >= least]

    def is_black(self, pixel):
        """Some black has ink there, and the limit or more."""
        tints = [self.page.tint(plate, pixel) for plate in self.blacks(pixel)]
        return any(tint > 0 and tint * S >= self.limit * self.page.maxval for tint in tints)

    def is_covered(self, pixel):
        """A black pixel, or one with some black that touches one."""
        if pixel in self.black:
            return True
        some = any(self.page.tint(plate, pixel) > 0 for plate in self.blacks(pixel))
        return some and any(other in self.black for other in neighbours(self.page, pixel))

    def may_change(self, pixel, plate):
        """The zone is enabled, no foil lies there, and the ink is Normal, no black there, and not spared."""
        return (self.rule.params(pixel)["Enabled"] and not self.rule.is_shut(pixel)
                and self.page.inks[plate].kind == "Normal" and plate not in self.blacks(pixel)
                and self.page.names[plate] not in self.spared)

    def new_planes(self):
        """The tints of all plates, row after row."""
        return [[self.new_tint(plate, pixel) for pixel in self.page.samples()] for plate in self.page.plates]

    def new_tint(self, plate, pixel):
        if pixel not in self.cover or not self.may_change(pixel, plate):
            return self.page.tint(plate, pixel)
        return drawn_back(self.page, self.cover, plate, pixel,
                          lambda square: within(square, self.width, self.page.resolution))


class Underprint:
    """White is drawn back under the colours: `widths` are those of the plates that are drawn back."""

    def __init__(self, page, widths):
        self.page, self.widths = page, widths
        colours = [plate for plate in page.plates if KINDS[page.inks[plate].kind].counts and plate not in widths]
        self.coloured = {pixel for pixel in page.samples()
                         if COLOUR * sum(page.tint(plate, pixel) for plate in colours) >= page.maxval}
        self.cover = {pixel for pixel in page.samples() if pixel in self.coloured or self.is_hole(pixel)}

    def is_hole(self, pixel):
        return all(other in self.coloured for other in neighbours(self.page, pixel))

    def new_planes(self):
        return [[self.new_tint(plate, pixel) for pixel in self.page.samples()] for plate in self.page.plates]

    def new_tint(self, plate, pixel):
        if plate not in self.widths or pixel not in self.cover:
            return self.page.tint(plate, pixel)
        width, thick = self.widths[plate], self.thickness(plate, pixel)
        if thick * PIXEL >= 3 * width * self.page.resolution:
            return drawn_back(self.page, self.cover, plate, pixel,
                              lambda square: within(square, width, self.page.resolution))
        return drawn_back(self.page, self.cover, plate, pixel, lambda square: square <= (thick // 3) ** 2)

    def thickness(self, plate, pixel):
        """The lesser of the runs of ink through the pixel, along its row and along its column; 0 without ink."""
        if self.page.tint(plate, pixel) == 0:
            return 0
        farthest = -(-3 * self.widths[plate] * self.page.resolution // PIXEL)
        return min(1 + sum(self.run(plate, pixel, way, farthest) for way in axis)
                   for axis in ([(-1, 0), (1, 0)], [(0, -1), (0, 1)]))

    def run(self, plate, pixel, way, farthest):
        """The pixels with ink that follow one another from the pixel on. Off the page ink goes on."""
        for steps in range(farthest):
            other = (pixel[0] + way[0] * (steps + 1), pixel[1] + way[1] * (steps + 1))
            if is_on(self.page, other) and self.page.tint(plate, other) == 0:
                return steps
        return farthest


def is_on(page, pixel):
    return 0 <= pixel[0] < page.width and 0 <= pixel[1] < page.height


def neighbours(page, pixel):
    """The pixels of the page that touch this one, diagonally too."""
    x, y = pixel
    around = [(x + right, y + down) for right in (-1, 0, 1) for down in (-1, 0, 1) if right or down]
    return [other for other in around if is_on(page, other)]


def within(square, width, resolution):
    """Whether a squared distance in pixels is that of at most the width and half a pixel."""
    return square * PIXEL ** 2 <= (width * resolution + PIXEL // 2) ** 2


def drawn_back(page, cover, plate, pixel, near):
    """The least of the pixel's tint and of those of the pixels near it that are not covered."""
    x, y = pixel
    return min([page.tint(plate, pixel)]
               + [page.tint(plate, (column, row)) for column, row in page.samples()
                  if (column, row) not in cover and near((column - x) ** 2 + (row - y) ** 2)])
