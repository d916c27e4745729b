#!/usr/bin/env python3
# SPDX-License-Identifier: Apache-2.0
"""Times `trappool` on a list of pages as a shop has them, by one worker and by four, beside another program of the same words.

    bench/pool.py [--pages 40] [--side 1414] [--runs 3] [--program FILE] [--beside FILE]

Each line of the list reads the same four plates, of a square page with so many samples a side, and writes files of its own. All pages
of a list together may have 320,000,000 samples, which forty of these just keep to. It prints the least time by the clock and that
of the processors, for each number of workers; the ratio of four workers to one says something only where four processors are free.
"""
import argparse
import os
import tempfile

from shop_page import INKS, job, make_plates
from timing import TOP, least_by_turns

PROGRAM = os.path.join(TOP, "crates", "trappool", "out", "trappool")


def write_list(folder, plates, pages):
    """The list, and the files that its lines write."""
    lines, made = [], []
    for page in range(pages):
        outs = {name: os.path.join(folder, "%s-%d.pgm" % (name, page)) for name in INKS}
        report = os.path.join(folder, "report-%d" % page)
        words = " ".join("%s:%s:%s" % (name, plates[name], outs[name]) for name in INKS)
        lines.append("%s %s %s\n" % (os.path.join(folder, "job"), report, words))
        made += [report, *outs.values()]
    path = os.path.join(folder, "list")
    with open(path, "w") as file:
        file.writelines(lines)
    return path, made


def main():
    parser = argparse.ArgumentParser(description="Times a list of jobs by one worker and by four.")
    for name, usual in (("pages", 40), ("side", 1414), ("runs", 3)):
        parser.add_argument("--" + name, type=int, default=usual)
    parser.add_argument("--program", default=PROGRAM)
    parser.add_argument("--beside", help="another program that takes the words of trappool")
    asked = parser.parse_args()
    with tempfile.TemporaryDirectory() as folder:
        plates = make_plates(folder, asked.side, asked.side, 1, 255)
        with open(os.path.join(folder, "job"), "wb") as file:
            file.write(job(asked.side, asked.side, "0.25"))
        path, made = write_list(folder, plates, asked.pages)
        programs = [asked.program] + ([asked.beside] if asked.beside else [])
        commands = [[program, workers, path] for program in programs for workers in ("1", "4")]
        results = least_by_turns(asked.runs, commands, made)
    print("%d pages of %d samples in %d inks" % (asked.pages, asked.side ** 2, len(INKS)))
    for place, told in enumerate(results):
        print("  %-9s by %s: %6.2f s, of processors %6.2f s, peak %5.0f MB"
              % ("this one" if place < 2 else "the other", commands[place][1], told.seconds, told.worked, told.peak_megabytes))
    print("  four workers to one: %.2f" % (results[1].seconds / results[0].seconds))
    if asked.beside:
        for at, workers in ((0, "one"), (1, "four")):
            print("  to the other program by %s: %.2f, of processors %.2f"
                  % (workers, results[at].seconds / results[at + 2].seconds, results[at].worked / results[at + 2].worked))


main()
