#!/usr/bin/env python3
# SPDX-License-Identifier: Apache-2.0
"""Times `trapsheet` on a page, on a sheet and on a level plate, beside another program of the same words.

    bench/sheets.py [--what page,sheet,level] [--workers 1,4] [--runs 5] [--program FILE] [--beside FILE] [--folder DIR]

The page is the one of `bench/shop_page.py`: A4 at 600 pixels an inch in four inks. The sheet has 24,094 by 17,008 samples in seven inks: the page
again and again, and three more inks of the same plates a little shifted. The level plate has 100,000 by 60,000 samples of one tint. The sheet wants 6 GB
of disk in the folder, the level plate 12.

All of them take turns. For each number of workers it prints the least time by the clock and that of the processors, the peak memory, the
time for each sample of a plate, and with --beside the ratio to the other program by as many workers.
"""
import argparse
import os
import tempfile

from shop_page import INKS, job, make_plates
from timing import TOP, least_by_turns

SPOTS = {"Orange": "Cyan", "Green": "Magenta", "Violet": "Yellow"}
SHIFT = 1201


def write_header(file, width, height):
    file.write(b"P5\n%d %d\n255\n" % (width, height))


def rows_of(path, width):
    """The rows of a plate that make_plates made."""
    with open(path, "rb") as file:
        while file.readline() != b"255\n":
            pass
        raster = file.read()
    return [raster[start:start + width] for start in range(0, len(raster), width)]


def tile(path, rows, width, height, shift):
    """A plate of these rows again and again, in both directions."""
    with open(path, "wb") as file:
        write_header(file, width, height)
        for y in range(height):
            row = rows[(y + shift) % len(rows)]
            row = row[shift:] + row[:shift]
            file.write((row * (width // len(row) + 1))[:width])


def page(folder):
    plates = make_plates(folder, 4961, 7016, 1, 255)
    return plates, 4961, 7016, job(4961, 7016, 0.25)


def sheet(folder):
    width, height = 24094, 17008
    made = make_plates(folder, 4961, 7016, 1, 255)
    plates = {}
    for name, other in [(name, name) for name in INKS] + list(SPOTS.items()):
        plates[name] = os.path.join(folder, name + "-sheet.pgm")
        tile(plates[name], rows_of(made[other], 4961), width, height, SHIFT if name in SPOTS else 0)
    inks = b"".join(b"/%s << /NeutralDensity 0.5 >> " % name.encode() for name in SPOTS)
    text = job(width, height, 0.25).replace(b"/ColorantDetails <<", b"/ColorantDetails << " + inks, 1)
    return plates, width, height, text


def level(folder):
    width, height = 100000, 60000
    path = os.path.join(folder, "Black-level.pgm")
    with open(path, "wb") as file:
        write_header(file, width, height)
        for _ in range(height):
            file.write(b"\x80" * width)
    return {"Black": path}, width, height, job(width, height, 0.25)


def arguments():
    parser = argparse.ArgumentParser(description="Times trapsheet on a page, a sheet and a level plate.")
    parser.add_argument("--what", default="page", help="page, sheet, level, with commas between")
    parser.add_argument("--workers", default="1,4", help="numbers with commas between")
    parser.add_argument("--runs", type=int, default=5)
    parser.add_argument("--program", default=os.path.join(TOP, "crates", "trapsheet", "out", "trapsheet"))
    parser.add_argument("--beside", help="another program that takes the words of trapsheet")
    parser.add_argument("--folder", help="where the plates are made")
    return parser.parse_args()


def bench(asked, what, make):
    with tempfile.TemporaryDirectory(dir=asked.folder) as folder:
        plates, width, height, text = make(folder)
        with open(os.path.join(folder, "job"), "wb") as file:
            file.write(text)
        outs = {name: os.path.join(folder, name + "-trapped.pgm") for name in plates}
        words = [os.path.join(folder, "job"), os.path.join(folder, "report")]
        words += ["%s:%s:%s" % (name, plates[name], outs[name]) for name in plates]
        programs = [asked.program] + ([asked.beside] if asked.beside else [])
        numbers = asked.workers.split(",")
        commands = [[program, number, *words] for number in numbers for program in programs]
        results = least_by_turns(asked.runs, commands, list(outs.values()))
    samples = width * height * len(plates)
    print("%s: %d by %d samples in %d inks" % (what, width, height, len(plates)))
    for place, number in enumerate(numbers):
        ours, first = results[place * len(programs)], results[0]
        print("  %2s workers %6.2f s, of processors %6.2f s, peak %5.0f MB, %.2f ns a sample of a plate, %.2f of the first"
              % (number, ours.seconds, ours.worked, ours.peak_megabytes, ours.seconds / samples * 1e9, ours.seconds / first.seconds))
        if asked.beside:
            theirs = results[place * len(programs) + 1]
            print("     the other %6.2f s, of processors %6.2f s, peak %5.0f MB: %5.2f times, of processors %5.2f"
                  % (theirs.seconds, theirs.worked, theirs.peak_megabytes, ours.seconds / theirs.seconds, ours.worked / theirs.worked))


def main():
    asked = arguments()
    makers = {"page": page, "sheet": sheet, "level": level}
    for what in asked.what.split(","):
        bench(asked, what, makers[what])


main()
