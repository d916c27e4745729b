#!/usr/bin/env python3
# SPDX-License-Identifier: Apache-2.0
"""Times the engine of one thread, by `trapset traps`, on pages of several kinds, beside another program of the same words.

    bench/engine.py [--runs 5] [--program FILE] [--beside FILE] [--only WORD] [--large]

For each page it prints the least time of the processors for a whole run, what that is for each sample of a plate, the peak memory,
and with --beside the ratio to the other program, which runs by turns with this one. --only takes the pages in whose name the
word stands. --large is a page of 139 million samples in four inks, and one of a million, to see whether the time for each sample
is flat.
"""
import argparse
import os
import random
import tempfile
from collections import namedtuple

from shop_page import INKS, job, make_plates
from timing import NO_TRAPS, TOP, least_by_turns

PROGRAM = os.path.join(TOP, "crates", "trapset", "out", "trapset")

Kind = namedtuple("Kind", "name width height plates maxval trap_width made_by")


def noise(folder, kind):
    """Each sample of each plate by chance, so that nearly each one has an edge beside it."""
    chance = random.Random(7)
    paths = {}
    for name in INKS[:kind.plates]:
        paths[name] = os.path.join(folder, name + ".pgm")
        with open(paths[name], "wb") as file:
            file.write(b"P5\n%d %d\n%d\n" % (kind.width, kind.height, kind.maxval))
            file.write(chance.randbytes(kind.width * kind.height))
    return paths


def level(folder, kind):
    """One tint all over each plate, so that no edge can be."""
    paths = {}
    for name in INKS[:kind.plates]:
        paths[name] = os.path.join(folder, name + ".pgm")
        with open(paths[name], "wb") as file:
            file.write(b"P5\n%d %d\n%d\n" % (kind.width, kind.height, kind.maxval))
            file.write(b"\x40" * (kind.width * kind.height))
    return paths


def shop(folder, kind):
    return make_plates(folder, kind.width, kind.height, 1, kind.maxval)


A4 = (4961, 7016, 4)
KINDS = [
    Kind("shop, TrapWidth 0.25", *A4, 255, "0.25", shop),
    Kind("shop, TrapWidth 0.75", *A4, 255, "0.75", shop),
    Kind("shop, TrapWidth 4", *A4, 255, "4", shop),
    Kind("shop, maxval 65535, TrapWidth 0.25", *A4, 65535, "0.25", shop),
    Kind("shop, /Enabled false", *A4, 255, None, shop),
    Kind("level, one plate, TrapWidth 4", 16384, 9765, 1, 255, "4", level),
    Kind("noise, TrapWidth 0.25", 2048, 2048, 4, 255, "0.25", noise),
    Kind("noise, TrapWidth 4", 2048, 2048, 4, 255, "4", noise),
]
LARGE = [
    Kind("shop of a million samples", 841, 1189, 4, 255, "0.25", shop),
    Kind("shop of 139 million samples", *A4, 255, "0.25", shop),
]


def time_kind(asked, kind):
    """Prints the figures of one page."""
    with tempfile.TemporaryDirectory() as folder:
        plates = kind.made_by(folder, kind)
        path, made = os.path.join(folder, "job"), os.path.join(folder, "set")
        with open(path, "wb") as file:
            file.write(job(kind.width, kind.height, kind.trap_width) if kind.trap_width else NO_TRAPS)
        words = ["traps", path, made, *("%s:%s" % it for it in plates.items())]
        programs = [asked.program] + ([asked.beside] if asked.beside else [])
        ours, *other = least_by_turns(asked.runs, [[it, *words] for it in programs], [made])
    samples = kind.width * kind.height * kind.plates
    beside = ", %.2f times the other program (%.2f s)" % (ours.worked / other[0].worked, other[0].worked) if other else ""
    print("%-36s %6.2f s, %5.1f ns a sample, peak %5.0f MB%s"
          % (kind.name, ours.worked, ours.worked / samples * 1e9, ours.peak_megabytes, beside), flush=True)


def main():
    parser = argparse.ArgumentParser(description="Times the engine of one thread on pages of several kinds.")
    parser.add_argument("--runs", type=int, default=5)
    parser.add_argument("--program", default=PROGRAM)
    parser.add_argument("--beside", help="another program that takes the words of `trapset traps`")
    parser.add_argument("--only", default="", help="a word in the names of the pages")
    parser.add_argument("--large", action="store_true")
    asked = parser.parse_args()
    for kind in LARGE if asked.large else KINDS:
        if asked.only in kind.name:
            time_kind(asked, kind)


main()
