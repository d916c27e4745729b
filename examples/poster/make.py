#!/usr/bin/env python3
# SPDX-License-Identifier: Apache-2.0
"""Makes the four plates of the poster: make.py FOLDER writes Cyan.pgm, Magenta.pgm, Yellow.pgm and Black.pgm there.

Each shape knocks out what lies under it. The two halves of the page have the same shapes, so that their two ways of trapping
can be compared. All is reckoned in whole numbers, so the plates are the same on every machine.
"""
import os
import sys

WIDTH, HEIGHT, MAXVAL = 400, 300, 255
INKS = ("Cyan", "Magenta", "Yellow", "Black")
MAGENTA, YELLOW, CYAN = {"Magenta": 100}, {"Yellow": 100}, {"Cyan": 100}
GREEN, BLACK = {"Cyan": 40, "Yellow": 90}, {"Black": 100}

# A letter is drawn in strokes with round ends, in a box 100 high: a bar goes from one point to another, a bowl is the right
# half of a ring round its middle.
LETTERS = {
    "T": (68, [("bar", 0, 0, 68, 0), ("bar", 34, 0, 34, 100)]),
    "R": (58, [("bar", 0, 0, 0, 100), ("bar", 0, 0, 33, 0), ("bar", 0, 50, 33, 50), ("bowl", 33, 25, 25),
               ("bar", 30, 50, 58, 100)]),
    "A": (72, [("bar", 0, 100, 36, 0), ("bar", 36, 0, 72, 100), ("bar", 14, 64, 58, 64)]),
    "P": (58, [("bar", 0, 0, 0, 100), ("bar", 0, 0, 33, 0), ("bar", 0, 50, 33, 50), ("bowl", 33, 25, 25)]),
    "I": (0, [("bar", 0, 0, 0, 100)]),
    "N": (64, [("bar", 0, 100, 0, 0), ("bar", 0, 0, 64, 100), ("bar", 64, 100, 64, 0)]),
    "K": (60, [("bar", 0, 0, 0, 100), ("bar", 56, 0, 0, 58), ("bar", 20, 42, 60, 100)]),
}


def box(left, top, right, bottom):
    return ((x, y) for y in range(top, bottom) for x in range(left, right))


def disc(middle_x, middle_y, radius):
    around = box(middle_x - radius, middle_y - radius, middle_x + radius + 1, middle_y + radius + 1)
    return ((x, y) for x, y in around if (x - middle_x) ** 2 + (y - middle_y) ** 2 < radius ** 2)


def bar(left, top, right, bottom, thick):
    """The samples less than half of `thick` away from the line between two points."""
    along_x, along_y, thick_squared = right - left, bottom - top, thick ** 2
    length_squared = along_x ** 2 + along_y ** 2

    def is_near(x, y):
        reach = (x - left) * along_x + (y - top) * along_y
        if reach <= 0:
            return 4 * ((x - left) ** 2 + (y - top) ** 2) < thick_squared
        if reach >= length_squared:
            return 4 * ((x - right) ** 2 + (y - bottom) ** 2) < thick_squared
        return 4 * ((x - left) * along_y - (y - top) * along_x) ** 2 < thick_squared * length_squared

    half = thick // 2
    around = box(min(left, right) - half, min(top, bottom) - half, max(left, right) + half + 1, max(top, bottom) + half + 1)
    return ((x, y) for x, y in around if is_near(x, y))


def bowl(middle_x, middle_y, radius, thick):
    outer, inner = 2 * radius + thick, 2 * radius - thick
    half = thick // 2
    around = box(middle_x, middle_y - radius - half, middle_x + radius + half + 1, middle_y + radius + half + 1)
    return ((x, y) for x, y in around if inner ** 2 < 4 * ((x - middle_x) ** 2 + (y - middle_y) ** 2) < outer ** 2)


def letter(name, left, top, size, thick):
    for kind, *numbers in LETTERS[name][1]:
        place = [number * size // 100 for number in numbers]
        if kind == "bar":
            yield from bar(left + place[0], top + place[1], left + place[2], top + place[3], thick)
        else:
            yield from bowl(left + place[0], top + place[1], place[2], thick)


def word(text, left, top, size, thick, space):
    for name in text:
        yield from letter(name, left, top, size, thick)
        left += LETTERS[name][0] * size // 100 + thick + space


def paint(page, samples, inks):
    """Gives these samples the inks, each in hundredths of full ink, and takes the other inks away."""
    for x, y in samples:
        for name in INKS:
            page[name][y * WIDTH + x] = inks.get(name, 0) * MAXVAL // 100


def paint_sky(page):
    for y in range(16, 180):
        paint(page, box(16, y, WIDTH - 16, y + 1), {"Cyan": 95 - (y - 16) * 60 // 164})


def paint_discs(page, left, top):
    paint(page, disc(left + 27, top + 27, 27), MAGENTA)
    paint(page, disc(left + 57, top + 27, 27), CYAN)
    paint(page, disc(left + 42, top + 55, 27), YELLOW)


def paint_type(page, left, top):
    paint(page, box(left, top, left + 92, top + 82), GREEN)
    paint(page, word("INK", left + 10, top + 23, 36, 11, 2), BLACK)


def poster():
    page = {name: bytearray(WIDTH * HEIGHT) for name in INKS}
    paint_sky(page)
    paint(page, disc(200, 98, 62), YELLOW)
    paint(page, word("TRAP", 44, 56, 84, 19, 11), MAGENTA)
    for discs, block in ((16, 108), (300, 200)):
        paint_discs(page, discs, 196)
        paint_type(page, block, 196)
    return page


def main():
    folder = sys.argv[1]
    os.makedirs(folder, exist_ok=True)
    for name, tints in poster().items():
        with open(os.path.join(folder, name + ".pgm"), "wb") as out:
            # In a plate file a sample of 0 is full ink.
            out.write(b"P5\n%d %d\n%d\n" % (WIDTH, HEIGHT, MAXVAL) + bytes(MAXVAL - tint for tint in tints))


main()
