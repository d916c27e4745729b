#!/usr/bin/env python3
# SPDX-License-Identifier: Apache-2.0
"""Draws what trapping changes on the poster, from its plates in memory.

    picture.py OUT.ppm

Left the page as it prints, right the same in pale tones with every sample that a trap changed in the colour of the ink that was
added most. Netpbm's form needs no library; python3 alone draws it.
"""
import gzip
import os
import sys

HERE = os.path.dirname(os.path.abspath(__file__))
sys.path.insert(0, os.path.join(HERE, "..", "..", "python"))
import trapping  # noqa: E402

POSTER = os.path.join(HERE, "..", "poster")
INKS = {"Cyan": (0, 160, 230), "Magenta": (230, 0, 130), "Yellow": (240, 220, 0), "Black": (20, 20, 20)}


def read_plate(name):
    """The sides of a plate of the poster and its tints: a plate has 0 for full ink, a plane has it for none."""
    with gzip.open(os.path.join(POSTER, "plates", name + ".pgm.gz")) as file:
        assert file.readline() == b"P5\n"
        width, height = map(int, file.readline().split())
        maxval = int(file.readline())
        return width, height, bytearray(maxval - value for value in file.read())


def printed(tints):
    """The colour of a sample, each ink taking its share of the paper's light."""
    red = green = blue = 1.0
    for tint, colour in zip(tints, INKS.values()):
        share = tint / 255
        red, green, blue = (light * (1 - share * (1 - part / 255)) for light, part in zip((red, green, blue), colour))
    return bytes(int(255 * light + 0.5) for light in (red, green, blue))


def marked(before, after):
    """Pale where nothing changed, and else the ink that gained or lost most."""
    changes = [abs(new - old) for old, new in zip(before, after)]
    if not any(changes):
        return bytes(255 - (255 - light) // 4 for light in printed(before))
    return bytes(list(INKS.values())[changes.index(max(changes))])


def main(out):
    with open(os.path.join(POSTER, "poster.job"), "rb") as file:
        job = file.read()
    plates = [read_plate(name) for name in INKS]
    width, height = plates[0][:2]
    planes = {name: plate[2] for name, plate in zip(INKS, plates)}
    before = [bytes(plane) for plane in planes.values()]
    report = trapping.trap(job, planes, width=width, height=height)
    pages = list(zip(*before)), list(zip(*planes.values()))
    with open(out, "wb") as file:
        file.write(b"P6\n%d %d\n255\n" % (2 * width, height))
        for y in range(height):
            row = slice(y * width, (y + 1) * width)
            file.write(b"".join(map(printed, pages[1][row])) + b"".join(map(marked, pages[0][row], pages[1][row])))
    print("%s: %d edges, changed samples: %s"
          % (out, report.edges, ", ".join("%s %d" % pair for pair in report.changed.items())))


if len(sys.argv) != 2:
    sys.exit(__doc__)
main(sys.argv[1])
