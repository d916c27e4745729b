#!/usr/bin/env python3
# SPDX-License-Identifier: Apache-2.0
"""Draws what a press prints of the poster's plates: show.py PLATES TRAPPED PICTURES, three folders.

Into the last go before.png and after.png, the page as it is and as it is trapped; register.png, both with the plates out of
register, untrapped above and trapped below; and close.png, a part of that, untrapped on the left and trapped on the right.
"""
import os
import struct
import sys
import zlib

# Of red, green and blue light, what paper under full ink gives back, in 255ths.
INKS = {"Cyan": (0, 166, 232), "Magenta": (232, 20, 134), "Yellow": (255, 238, 20), "Black": (36, 32, 34)}
# How far each plate is out of register, in samples to the right and down.
SHIFTS = {"Cyan": (0, 0), "Magenta": (2, 1), "Yellow": (-1, 2), "Black": (1, -1)}
IN_REGISTER = {name: (0, 0) for name in INKS}
CLOSE = (122, 34, 278, 150)


class Plate:
    """A raw PGM file of one-byte samples, in which 0 is full ink."""

    def __init__(self, path):
        with open(path, "rb") as file:
            kind, width, height, maxval, self.samples = file.read().split(None, 4)
        self.width, self.height, self.maxval = int(width), int(height), int(maxval)

    def row(self, y, shift):
        """Row y where the plate is shifted. What it does not cover is paper."""
        right, down = shift
        if not 0 <= y - down < self.height:
            return bytes([self.maxval]) * self.width
        row = self.samples[(y - down) * self.width:(y - down + 1) * self.width]
        paper = bytes([self.maxval]) * abs(right)
        return paper + row[:self.width - right] if right >= 0 else row[-right:] + paper


def plates_in(folder):
    return {name: Plate(os.path.join(folder, name + ".pgm")) for name in INKS}


def colour(samples):
    """The light that comes back through all inks: each takes its share of what the others leave."""
    light = [255, 255, 255]
    for ink, sample in zip(INKS.values(), samples):
        for k in range(3):
            light[k] = (light[k] * (ink[k] * (255 - sample) + 255 * sample) + 32512) // 65025
    return bytes(light)


def picture(plates, shifts, part=None):
    """The rows of a page, or of a part of it, as lists of colours."""
    known = {}
    first = plates["Cyan"]
    left, top, right, bottom = part or (0, 0, first.width, first.height)
    rows = []
    for y in range(top, bottom):
        columns = zip(*(plates[name].row(y, shifts[name])[left:right] for name in INKS))
        rows.append([known.get(samples) or known.setdefault(samples, colour(samples)) for samples in columns])
    return rows


def chunk(kind, data):
    body = kind + data
    return struct.pack(">I", len(data)) + body + struct.pack(">I", zlib.crc32(body))


def write_png(path, rows, times):
    """Each sample becomes a square of so many points a side. A row that repeats the one above is written as no change."""
    width, height = len(rows[0]) * times, len(rows) * times
    lines = []
    for row in rows:
        lines.append(b"\0" + b"".join(light * times for light in row))
        lines.append((b"\2" + bytes(3 * width)) * (times - 1))
    head = struct.pack(">IIBBBBB", width, height, 8, 2, 0, 0, 0)
    with open(path, "wb") as out:
        out.write(b"\x89PNG\r\n\x1a\n" + chunk(b"IHDR", head) + chunk(b"IDAT", zlib.compress(b"".join(lines), 9))
                  + chunk(b"IEND", b""))


def beside(left, right, space):
    return [one + [b"\xff\xff\xff"] * space + other for one, other in zip(left, right)]


def above(top, bottom, space):
    return top + [[b"\xff\xff\xff"] * len(top[0])] * space + bottom


def main():
    plain, trapped = plates_in(sys.argv[1]), plates_in(sys.argv[2])
    os.makedirs(sys.argv[3], exist_ok=True)
    for name, rows, times in (
            ("before", picture(plain, IN_REGISTER), 3),
            ("after", picture(trapped, IN_REGISTER), 3),
            ("register", above(picture(plain, SHIFTS), picture(trapped, SHIFTS), 6), 3),
            ("close", beside(picture(plain, SHIFTS, CLOSE), picture(trapped, SHIFTS, CLOSE), 4), 4)):
        write_png(os.path.join(sys.argv[3], name + ".png"), rows, times)


main()
