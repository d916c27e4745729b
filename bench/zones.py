#!/usr/bin/env python3
# SPDX-License-Identifier: Apache-2.0
"""Times `trapsheet` on the page of `bench/shop_page.py` with three zones, and with 250 zones of 4 and of 64 vertices.

    bench/zones.py [--workers 1] [--runs 5] [--program FILE] [--beside FILE]

The 250 zones cover the whole page in ten columns and 25 rows, with the parameters of the page's first zone. For each
job it prints the least CPU time and wall time of the runs, which take turns, and their ratio to the job with three
zones; with --beside the same of another program, whose plates and reports must be the same.
"""
import argparse
import filecmp
import os
import tempfile

from shop_page import job, make_plates, path
from timing import TOP, least_by_turns

WIDTH, HEIGHT = 4961, 7016
COLUMNS, ROWS = 10, 25
VERTICES = (4, 64)
# How far every second vertex of a side stands out, in samples.
TOOTH = 8


def polygon(column, row, vertices):
    """The corners of one of the 250 zones, in samples from the top: its cell of the page, each side in as many parts,
    every second of their ends moved outwards."""
    left, right = (WIDTH * (column + part) // COLUMNS for part in (0, 1))
    top, bottom = (HEIGHT * (row + part) // ROWS for part in (0, 1))
    ends, corners = [(left, top), (right, top), (right, bottom), (left, bottom)], []
    for (x, y), (next_x, next_y) in zip(ends, ends[1:] + ends[:1]):
        for part in range(vertices // 4):
            at_x, at_y = x + (next_x - x) * 4 * part // vertices, y + (next_y - y) * 4 * part // vertices
            out = TOOTH * (part % 2)
            corners.append((at_x + out * ((next_y > y) - (next_y < y)), at_y + out * ((next_x < x) - (next_x > x))))
    return corners


def many_zones(vertices):
    """The page's job with 250 zones in place of its three."""
    start = job(WIDTH, HEIGHT, 0.25)
    head = start[:start.index(b"settrapparams\n") + len(b"settrapparams\n")]
    zones = [path(polygon(column, row, vertices), HEIGHT) for row in range(ROWS) for column in range(COLUMNS)]
    return head + "".join(zones).encode() + b"showpage\n"


def jobs():
    """Each job's name and text, the page's own job first."""
    return [("three zones", job(WIDTH, HEIGHT, 0.25))] + [
        ("%d zones of %d vertices" % (COLUMNS * ROWS, vertices), many_zones(vertices)) for vertices in VERTICES]


def arguments():
    parser = argparse.ArgumentParser(description="Times trapsheet on a page of many zones.")
    parser.add_argument("--workers", default="1")
    parser.add_argument("--runs", type=int, default=5)
    parser.add_argument("--program", default=os.path.join(TOP, "crates", "trapsheet", "out", "trapsheet"))
    parser.add_argument("--beside", help="another program that takes the words of trapsheet")
    return parser.parse_args()


def words(folder, number, program, plates):
    """The words of one run, and the files that it makes."""
    place = os.path.join(folder, "%d-%d-" % (number, program))
    outs = {name: place + name + ".pgm" for name in plates}
    given = ["%s:%s:%s" % (name, plates[name], outs[name]) for name in plates]
    return [os.path.join(folder, "job-%d" % number), place + "report", *given], [place + "report", *outs.values()]


def main():
    asked = arguments()
    programs = [asked.program] + ([asked.beside] if asked.beside else [])
    with tempfile.TemporaryDirectory() as folder:
        plates = make_plates(folder, WIDTH, HEIGHT, 1, 255)
        commands, made = [], []
        for number, (_, text) in enumerate(jobs()):
            with open(os.path.join(folder, "job-%d" % number), "wb") as file:
                file.write(text)
            for place, program in enumerate(programs):
                given, files = words(folder, number, place, plates)
                commands.append([program, asked.workers, *given])
                made.append(files)
        results = least_by_turns(asked.runs, commands, [])
        for number, (name, _) in enumerate(jobs()):
            for place, program in enumerate(programs):
                timed, first = results[number * len(programs) + place], results[place]
                times = timed.worked / first.worked
                print("%-24s %6.2f s CPU, %6.2f s wall, %5.2f times three zones  %s"
                      % (name, timed.worked, timed.seconds, times, program if asked.beside else ""))
            if asked.beside:
                pairs = zip(made[number * 2], made[number * 2 + 1])
                same = all(filecmp.cmp(*pair, shallow=False) for pair in pairs)
                print("    the same files" if same else "    OTHER FILES")


if __name__ == "__main__":
    main()
