# SPDX-License-Identifier: Apache-2.0
"""Makes a page as a shop has it, in four inks: a heading, a photograph, discs on a fade, small type, and a good deal of paper.

    bench/shop_page.py FOLDER [--rich-black]       writes its plates and its job into the folder, A4 at 600 dpi

With --rich-black the type and the discs that are black have cyan, magenta and yellow under it. The regions take their shares of the page, and what stands in them keeps its size, so that pages of any sides hold about as
many edges for each sample. The same sides, seed and maxval give the same plates.
"""
import argparse
import contextlib
import math
import os
import random

INKS = ("Cyan", "Magenta", "Yellow", "Black")
PIXELS_PER_INCH = 600
A4 = (4961, 7016)
BLACK, RICH_BLACK = (0, 0, 0, 255), (153, 128, 102, 255)
# Of the height and width of the page: top, left, bottom, right.
HEADING = (0.04, 0.04, 0.14, 0.96)
PHOTOGRAPH = (0.17, 0.04, 0.52, 0.58)
DISCS = (0.17, 0.62, 0.52, 0.96)
SMALL_TYPE = (0.55, 0.04, 0.78, 0.96)
BAND = (0.83, 0.0, 0.96, 1.0)
# Letters five squares wide and seven high, each row from its left.
LETTERS = {
    "T": "##### ..#.. ..#.. ..#.. ..#.. ..#.. ..#..", "R": "####. #...# #...# ####. #.#.. #..#. #...#",
    "A": "..#.. .#.#. #...# #...# ##### #...# #...#", "P": "####. #...# #...# ####. #.... #.... #....",
    "I": ".###. ..#.. ..#.. ..#.. ..#.. ..#.. .###.", "N": "#...# ##..# ##..# #.#.# #..## #..## #...#",
    "K": "#...# #..#. #.#.. ##... #.#.. #..#. #...#", "E": "##### #.... #.... ####. #.... #.... #####",
    "S": ".#### #.... #.... .###. ....# ....# ####.", "O": ".###. #...# #...# #...# #...# #...# .###.",
    " ": "..... ..... ..... ..... ..... ..... .....",
}


def runs_of(row):
    """The runs of # in a row of squares, as (first, one after the last)."""
    runs, first = [], None
    for place, square in enumerate(row + "."):
        if square == "#" and first is None:
            first = place
        elif square != "#" and first is not None:
            runs.append((first, place))
            first = None
    return runs


LETTER_RUNS = {name: [runs_of(row) for row in rows.split()] for name, rows in LETTERS.items()}


class Region:
    """A part of the page. `rows` below are the tints of one row of each ink, from 0 for paper to 255 for full ink."""

    def __init__(self, shares, width, height):
        self.top, self.left = round(shares[0] * height), round(shares[1] * width)
        self.bottom, self.right = round(shares[2] * height), round(shares[3] * width)
        self.width, self.height = self.right - self.left, self.bottom - self.top

    def fill(self, rows, first, last, inks):
        """Gives the samples of a run the inks and takes the other inks away."""
        first, last = max(first, self.left), min(last, self.right)
        if first < last:
            for row, tint in zip(rows, inks):
                row[first:last] = bytes((tint,)) * (last - first)


class Ground(Region):
    """Inks that change evenly, from the left to the right or from the top to the bottom."""

    def __init__(self, shares, width, height, start, end, down=False):
        super().__init__(shares, width, height)
        self.start, self.end, self.down = start, end, down
        self.across = [bytes(a + (b - a) * x // max(self.width, 1) for x in range(self.width)) for a, b in zip(start, end)]

    def paint(self, rows, y):
        if self.down:
            part = y - self.top
            self.fill(rows, self.left, self.right, [a + (b - a) * part // self.height for a, b in zip(self.start, self.end)])
        else:
            for row, tints in zip(rows, self.across):
                row[self.left:self.right] = tints


class Photograph(Region):
    """Smooth noise and grain. A row is reckoned as one large number, in which each sample has its own bytes."""

    CELL, GRAIN = 256, 72
    DARKEST = (170, 170, 170, 90)

    def __init__(self, shares, width, height, chance):
        super().__init__(shares, width, height)
        self.chance = chance
        # Grain is cut from one long list, each row from another place.
        self.pool = bytes(chance.getrandbits(16) % (self.GRAIN + 1) for _ in range(2 * self.width + 4096))
        self.smooth = [[self.smooth_row(dark) for _ in range(self.height // self.CELL + 2)] for dark in self.DARKEST]

    def smooth_row(self, dark):
        points = [self.chance.randrange(10, dark) for _ in range(self.width // self.CELL + 2)]
        row = bytearray()
        for a, b in zip(points, points[1:]):
            row += b"".join((a + (b - a) * x // self.CELL).to_bytes(2, "big") for x in range(self.CELL))
        return int.from_bytes(row[:2 * self.width], "big")

    def paint(self, rows, y):
        cell, part = divmod(y - self.top, self.CELL)
        for row, smooth in zip(rows, self.smooth):
            mixed = smooth[cell] * (self.CELL - part) + smooth[cell + 1] * part
            even = mixed.to_bytes(2 * self.width, "big")[::2]
            start = self.chance.randrange(len(self.pool) - self.width)
            grain = int.from_bytes(self.pool[start:start + self.width], "big")
            row[self.left:self.right] = (int.from_bytes(even, "big") + grain).to_bytes(self.width, "big")


class Discs(Region):
    """Discs in rows and columns, a little out of line, each of which knocks out what lies under it."""

    STEP = 190
    KINDS = ((0, 255, 0, 0), (255, 0, 0, 0), (0, 0, 255, 0), (0, 200, 220, 0), BLACK, (200, 0, 255, 0))

    def __init__(self, shares, width, height, chance, black):
        super().__init__(shares, width, height)
        self.discs = []
        for y in range(self.top, self.bottom, self.STEP):
            for x in range(self.left, self.right, self.STEP):
                place = (x + chance.randrange(self.STEP), y + chance.randrange(self.STEP))
                radius, inks = chance.randrange(40, 130), chance.choice(self.KINDS)
                self.discs.append((*place, radius, black if inks == BLACK else inks))

    def paint(self, rows, y):
        for middle_x, middle_y, radius, inks in self.discs:
            if abs(y - middle_y) < radius:
                half = math.isqrt(radius ** 2 - (y - middle_y) ** 2)
                self.fill(rows, middle_x - half, middle_x + half + 1, inks)


class Type(Region):
    """Lines of letters, each square so many samples a side, which knock out what lies under them."""

    def __init__(self, shares, width, height, chance, square, inks):
        super().__init__(shares, width, height)
        self.square, self.inks = square, inks
        names = [name for name in LETTERS if name != " "] + [" "] * 2
        count = self.width // (6 * square) + 1
        self.lines = [[chance.choice(names) for _ in range(count)] for _ in range(self.height // (10 * square) + 1)]

    def paint(self, rows, y):
        line, part = divmod(y - self.top, 10 * self.square)
        square_row = part // self.square - 1
        if not 0 <= square_row < 7:
            return
        for place, name in enumerate(self.lines[line]):
            start = self.left + (6 * place + 1) * self.square
            for first, last in LETTER_RUNS[name][square_row]:
                self.fill(rows, start + first * self.square, start + last * self.square, self.inks)


def regions_of(width, height, seed, black):
    """What is painted, in this order."""
    chance = random.Random(seed)
    sides = (width, height)
    return [
        Ground(HEADING, *sides, (230, 0, 0, 0), (230, 0, 0, 0)),
        Type(HEADING, *sides, chance, 16, (0, 242, 0, 0)),
        Photograph(PHOTOGRAPH, *sides, chance),
        Ground(DISCS, *sides, (200, 0, 20, 0), (60, 0, 220, 0)),
        Discs(DISCS, *sides, chance, black),
        Type(SMALL_TYPE, *sides, chance, 6, black),
        Ground(BAND, *sides, (0, 255, 30, 0), (0, 40, 0, 0), down=True),
        Discs(BAND, *sides, chance, black),
        Type(BAND, *sides, chance, 10, (230, 0, 40, 0)),
    ]


def tables(maxval):
    """What turns a row of tints into a row of samples, one table for each byte of a sample. In a plate full ink is 0."""
    samples = [maxval - tint * maxval // 255 for tint in range(256)]
    if maxval < 256:
        return [bytes(samples)]
    return [bytes(sample // 256 for sample in samples), bytes(sample % 256 for sample in samples)]


def samples_of(row, bytes_of):
    samples = bytearray(len(row) * len(bytes_of))
    for place, table in enumerate(bytes_of):
        samples[place::len(bytes_of)] = row.translate(table)
    return samples


def painted_row(regions, width, y):
    """The tints of row y, for each ink."""
    rows = [bytearray(width) for _ in INKS]
    for region in regions:
        if region.top <= y < region.bottom:
            region.paint(rows, y)
    return rows


def make_plates(folder, width, height, seed, maxval, black=BLACK):
    """Writes a plate for each ink, and gives their paths by the inks' names."""
    regions, bytes_of = regions_of(width, height, seed, black), tables(maxval)
    paths = {name: os.path.join(folder, name + ".pgm") for name in INKS}
    with contextlib.ExitStack() as stack:
        files = [stack.enter_context(open(path, "wb")) for path in paths.values()]
        for file in files:
            file.write(b"P5\n%d %d\n%d\n" % (width, height, maxval))
        for y in range(height):
            for file, row in zip(files, painted_row(regions, width, y)):
                file.write(samples_of(row, bytes_of))
    return paths


def points(samples):
    return "%.2f" % (samples * 72 / PIXELS_PER_INCH)


def path(corners, height):
    """A zone's path. Corners are in samples from the top; the job has points from the bottom."""
    drawn = ["%s %s %s" % (points(x), points(height - y), "lineto" if k else "moveto") for k, (x, y) in enumerate(corners)]
    return " ".join(drawn) + " closepath settrapzone\n"


def job(width, height, trap_width):
    """Three zones: the upper part, the lower part, and a hexagon over the discs, each with parameters of its own."""
    middle = round(0.535 * height)
    discs = Region(DISCS, width, height)
    inset = discs.height // 4
    hexagon = [(discs.left, discs.top + inset), (discs.left + discs.width // 2, discs.top), (discs.right, discs.top + inset),
               (discs.right, discs.bottom - inset), (discs.left + discs.width // 2, discs.bottom),
               (discs.left, discs.bottom - inset)]
    inks = " ".join("/%s << /NeutralDensity %s >>" % pair for pair in zip(INKS, ("0.61", "0.76", "0.16", "1.70")))
    return ("%%!PS\n<< /HWResolution [%d %d] /TrappingDetails << /Type 1001 /ColorantDetails << %s >> >> >> setpagedevice\n"
            % (PIXELS_PER_INCH, PIXELS_PER_INCH, inks)
            + "<< /TrapWidth %s /BlackWidth 1.5 >> settrapparams\n" % trap_width
            + path([(0, 0), (width, 0), (width, middle), (0, middle)], height)
            + "<< /TrapColorScaling 0.7 >> settrapparams\n"
            + path([(0, middle), (width, middle), (width, height), (0, height)], height)
            + "<< /SlidingTrapLimit 0.9 /TrapColorScaling 1 >> settrapparams\n"
            + path(hexagon, height) + "showpage\n").encode()


def main():
    parser = argparse.ArgumentParser(description="Makes a page as a shop has it.")
    parser.add_argument("folder")
    parser.add_argument("--rich-black", action="store_true", help="cyan, magenta and yellow under what is black")
    asked = parser.parse_args()
    os.makedirs(asked.folder, exist_ok=True)
    make_plates(asked.folder, *A4, 1, 255, RICH_BLACK if asked.rich_black else BLACK)
    with open(os.path.join(asked.folder, "page.job"), "wb") as file:
        file.write(job(*A4, 0.25))


if __name__ == "__main__":
    main()
