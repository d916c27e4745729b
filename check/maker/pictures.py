# SPDX-License-Identifier: Apache-2.0
"""Small pages: sides, maxvals, and plates that meet at many edges."""
from collections import namedtuple

NAMES = ["Cyan", "Magenta", "Yellow", "Black", "Foil", "Varnish", "PANTONE-300", "!", "~x~", "n" * 64]
MAXVALS = [1, 2, 4, 100, 100, 255, 255, 255, 256, 1000, 65535, 65535]

# `planes` holds the tints of each plate, row after row.
Picture = namedtuple("Picture", "width height maxval names planes")


def sides(rng):
    """Mostly small; sometimes one sample wide or high, of many rows, which are many bands, or wide."""
    kind = rng.random()
    if kind < 0.003:
        long, short = rng.choice([rng.randint(1000, 1100), rng.randint(120, 300)]), rng.randint(1, 2)
        return rng.choice([(long, short), (short, long), (70, 60)])
    if kind < 0.01:
        return rng.randint(10, 24), rng.randint(10, 24)
    if kind < 0.10:
        return 1, rng.randint(1, 14)
    if kind < 0.18:
        return rng.randint(1, 14), 1
    if kind < 0.24:
        return rng.randint(1, 3), rng.randint(20, 60)
    if kind < 0.26:
        return rng.randint(20, 60), rng.randint(1, 3)
    return rng.randint(2, 9), rng.randint(2, 9)


def picture(rng, shape=None, names=None):
    """A page of a few colours; most colours have one ink in full, so that inks end and begin side by side."""
    width, height = shape or sides(rng)
    maxval = rng.choice(MAXVALS) if rng.random() < 0.95 else rng.randint(1, 65535)
    if names is None:
        names = rng.sample(NAMES, min(len(NAMES), rng.choice([1, 2, 2, 2, 3, 3, 3, 4, 4, 4, 4, 5, 5])))
        if rng.random() < 0.02:
            names = ["ink%d" % number for number in range(16)]
    colours = [colour(rng, number % len(names), len(names), maxval) for number in range(rng.randint(2, 6))]
    place = layout(rng, width, height)
    cells = [colours[place(x, y) % len(colours)] for y in range(height) for x in range(width)]
    if rng.random() < 0.1:
        cells = [tuple(max(0, tint - rng.randint(0, 2)) for tint in cell) for cell in cells]
    planes = [[cell[plate] for cell in cells] for plate in range(len(names))]
    return Picture(width, height, maxval, names, planes)


def with_type(rng, picture):
    """The page in two colours: ground, and shapes of several inks whose rims are softer in some of them."""
    place = layout(rng, picture.width, picture.height)
    share = [1] + [rng.choice([0, 1, 1, 1, 1]) for _ in picture.names[1:]]
    ground = [0] + [rng.choice([0, 0, 0, rng.randint(0, picture.maxval)]) for _ in picture.names[1:]]
    planes = [[] for _ in picture.names]
    for y in range(picture.height):
        for x in range(picture.width):
            level = rng.choice([picture.maxval] * 12 + [rng.randint(0, picture.maxval)]) if place(x, y) % 2 else 0
            for plane, inked, below in zip(planes, share, ground):
                plane.append(inked * level if level else below)
    return picture._replace(planes=planes)


def colour(rng, inked, plates, maxval):
    """The tints of one colour, often of one ink alone."""
    levels = [0, maxval, maxval // 2, maxval // 4, 3 * maxval // 4, maxval * 95 // 100, 1, rng.randint(0, maxval)]
    if rng.random() < 0.65:
        tint = rng.choice([maxval, maxval, maxval, rng.choice(levels)])
        return tuple(tint if plate == inked else 0 for plate in range(plates))
    return tuple(rng.choice(levels) for _ in range(plates))


def layout(rng, width, height):
    """Which colour a sample has, as a number."""
    kind, size = rng.choice([0, 0, 1, 2, 3, 3, 4, 4, 5]), rng.randint(1, 4)
    if kind == 0:
        return lambda x, y: rng.randrange(8)
    if kind == 1:
        return lambda x, y: x // size
    if kind == 2:
        return lambda x, y: y // size
    if kind == 3:
        return lambda x, y: x // size + y // size
    discs = [(rng.randrange(width), rng.randrange(height), rng.randint(1, 5)) for _ in range(rng.randint(1, 4))]
    if kind == 4:
        return lambda x, y: sum((x - a) ** 2 + (y - b) ** 2 < r * r for a, b, r in discs)
    return lambda x, y: sum(n + 1 for n, (a, b, r) in enumerate(discs) if abs(x - a) < r and abs(y - b) <= r)
