#!/usr/bin/env python3
# SPDX-License-Identifier: Apache-2.0
"""Times `trapkeep --rich-black` on three pages, A4 at 600 dpi: what stands in docs/KEEPAWAY.md under "Cost".

    bench/keepaway.py [--runs 3] [--programs DIR] [--beside FILE]

The pages are that of bench/shop_page.py with rich black, drawn back by 1 pt; cyan, magenta and yellow of that page alone, which has no
black; and one that is a photograph with noise all over, drawn back by 0.08 mm and by 1 pt. For each it prints the CPU time and its ratio
to trapsheet with one worker and to reading and writing alone, which is trapsheet with a job that traps nothing. All take turns.
--programs is the folder of the built programs, else each is taken from its crate. --beside times another trapkeep too.
"""
import argparse
import os
import sys
import tempfile

# This folder has a copy.py of its own, which must not be taken for Python's.
BENCH = sys.path.pop(0)
import numpy  # noqa: E402

sys.path.append(BENCH)
from photograph import photograph  # noqa: E402
from shop_page import A4, INKS, RICH_BLACK, job, make_plates  # noqa: E402
from timing import NO_TRAPS, TOP, least_by_turns  # noqa: E402

WIDTH, HEIGHT = A4


def noise(folder):
    """A plate of each ink that is a photograph with noise."""
    made = {name: os.path.join(folder, name + ".pgm") for name in INKS}
    for seed, path in enumerate(made.values()):
        with open(path, "wb") as file:
            file.write(b"P5\n%d %d\n255\n" % A4)
            numpy.ascontiguousarray(photograph(WIDTH, HEIGHT, seed)).tofile(file)
    return made


def program(folder, name):
    """The path of a program."""
    return os.path.join(folder, name) if folder else os.path.join(TOP, "crates", name, "out", name)


def bench(asked, folder, title, plates, width):
    """Times a page, and prints its row."""
    jobs = {}
    for name, text in (("job", job(WIDTH, HEIGHT, 0.25)), ("none.job", NO_TRAPS)):
        jobs[name] = os.path.join(folder, name)
        with open(jobs[name], "wb") as file:
            file.write(text)
    made = [os.path.join(folder, name + "-new.pgm") for name in plates]
    words = [f"{name}:{path}:{new}" for (name, path), new in zip(plates.items(), made)]
    report = os.path.join(folder, "report")
    rich = ["--rich-black", width, jobs["job"], report, *words]
    commands = [[program(asked.programs, "trapkeep"), *rich],
                [program(asked.programs, "trapsheet"), "1", jobs["job"], report, *words],
                [program(asked.programs, "trapsheet"), "1", jobs["none.job"], report, *words]]
    if asked.beside:
        commands.append([asked.beside, *rich])
    keep, sheet, through, *other = least_by_turns(asked.runs, commands, made)
    print("%-30s %5.2f s CPU, %4.0f MB; %.2f of trapsheet, %.2f of reading and writing%s"
          % (f"{title}, {width} pt", keep.worked, keep.peak_megabytes, keep.worked / sheet.worked, keep.worked / through.worked,
             "".join(f"; {keep.worked / one.worked:.2f} of the other" for one in other)), flush=True)


def main():
    parser = argparse.ArgumentParser(description="Times trapkeep on three pages.")
    parser.add_argument("--runs", type=int, default=3)
    parser.add_argument("--programs", help="the folder of the built programs")
    parser.add_argument("--beside", help="another trapkeep")
    asked = parser.parse_args()
    with tempfile.TemporaryDirectory() as folder:
        plates = make_plates(folder, *A4, 1, 255, RICH_BLACK)
        bench(asked, folder, "rich black", plates, "1")
        bench(asked, folder, "no black", {name: plates[name] for name in INKS if name != "Black"}, "1")
        plates = noise(folder)
        bench(asked, folder, "noise", plates, "0.2268")
        bench(asked, folder, "noise", plates, "1")


if __name__ == "__main__":
    main()
