#!/usr/bin/env python3
# SPDX-License-Identifier: Apache-2.0
"""Times the program on a page as a shop has it: A4 at 600 pixels per inch in four inks, three zones.

    bench/shop.py [--width 4961] [--height 7016] [--seed 1] [--maxval 255] [--trap-width 0.25] [--runs 5]
                  [--options WORDS] [--million] [--keep FOLDER] [--program FILE] [--beside FILE]

It prints the least time of the whole run, of the same plates under a job that traps nothing, and of `cat` of the same files,
the two ratios, the samples a second and the peak memory; each by the time that passed and by that of the processors. With
--million it also times a page of a million samples, and prints the ratio of their times for each sample. --options are words
that are passed to the program before the job, as --options='--workers 1'. --keep leaves the plates and what came of them in a
folder. --beside times another program that takes the same words, by turns with this one, and prints the ratio of the two whole
runs and of the two runs that trap nothing.
"""
import argparse
import math
import os
import re
import tempfile
import time

from shop_page import INKS, job, make_plates
from timing import NO_TRAPS, PROGRAM, cat, least_by_turns


def write(path, data):
    with open(path, "wb") as out:
        out.write(data)
    return path


def edges_in(report):
    with open(report) as lines:
        return int(re.search(r"^edges (\d+)$", lines.read(), re.M).group(1))


def time_page(asked, folder, width, height):
    """Makes a page, times it, prints the figures, and gives what the whole run took."""
    os.makedirs(folder, exist_ok=True)
    start = time.perf_counter()
    plates = make_plates(folder, width, height, asked.seed, asked.maxval)
    making = time.perf_counter() - start
    outs = {name: os.path.join(folder, name + "-trapped.pgm") for name in INKS}
    jobs = [write(os.path.join(folder, name), text)
            for name, text in (("job", job(width, height, asked.trap_width)), ("no-traps.job", NO_TRAPS))]
    reports = [name + ".report" for name in jobs]
    words = ["%s:%s:%s" % (name, plates[name], outs[name]) for name in INKS]
    programs = [asked.program] + ([asked.beside] if asked.beside else [])
    commands = [[program, "page", *asked.options.split(), name, report, *words]
                for name, report in zip(jobs, reports) for program in programs]
    copying = cat([(plates[name], outs[name]) for name in INKS])
    copied, *results = least_by_turns(asked.runs, [copying] + commands, list(outs.values()))
    whole, passed = results[0], results[len(programs)]
    print("%d by %d samples in %d inks, maxval %d, TrapWidth %s, seed %d; made in %.1f s; %d edges call for a trap"
          % (width, height, len(INKS), asked.maxval, asked.trap_width, asked.seed, making, edges_in(reports[0])))
    print_figures(width * height, copied, passed, whole)
    if asked.beside:
        print_beside(results[1], results[3], whole, passed)
    return whole


def print_beside(their_whole, their_passed, whole, passed):
    for name, ours, theirs in (("whole run", whole, their_whole), ("reading and writing alone", passed, their_passed)):
        print("  %-26s %7.0f ms by the other program, peak %4.0f MB: ratio %.2f, of processors %.2f"
              % (name, theirs.seconds * 1e3, theirs.peak_megabytes, ours.seconds / theirs.seconds, ours.worked / theirs.worked))


def print_figures(samples, copied, passed, whole):
    for name, figures in (("whole run", whole), ("reading and writing alone", passed), ("cat of the same files", copied)):
        print("  %-26s %7.0f ms, of processors %7.0f ms, peak %4.0f MB"
              % (name, figures.seconds * 1e3, figures.worked * 1e3, figures.peak_megabytes))
    for name, more, less in (("whole run to reading and writing", whole, passed), ("reading and writing to cat", passed, copied)):
        print("  %-33s %6.2f, of processors %6.2f" % (name, more.seconds / less.seconds, more.worked / less.worked))
    for name, count in (("million samples a second", samples), ("the same, counted in each ink", samples * len(INKS))):
        print("  %-33s %6.1f, of processors %6.1f" % (name, count / whole.seconds / 1e6, count / whole.worked / 1e6))


def compare(large, large_samples, small, small_samples):
    """Prints how the time for each sample grows with the page."""
    print("time for each sample, the whole page to the one of a million: %.2f, of processors %.2f (%.1f ns to %.1f ns)"
          % (large.seconds / large_samples / (small.seconds / small_samples),
             large.worked / large_samples / (small.worked / small_samples),
             large.worked / large_samples * 1e9, small.worked / small_samples * 1e9))


def arguments():
    parser = argparse.ArgumentParser(description="Times the program on a page as a shop has it.")
    for name, usual in (("width", 4961), ("height", 7016), ("seed", 1), ("maxval", 255), ("runs", 5)):
        parser.add_argument("--" + name, type=int, default=usual)
    parser.add_argument("--trap-width", default="0.25", help="in points")
    parser.add_argument("--options", default="", help="words for the program before the job")
    parser.add_argument("--million", action="store_true", help="also a page of a million samples")
    parser.add_argument("--keep", help="a folder for the plates and what came of them")
    parser.add_argument("--program", default=PROGRAM)
    parser.add_argument("--beside", help="another program that takes the words of `trap page`")
    return parser.parse_args()


def main():
    asked = arguments()
    with tempfile.TemporaryDirectory() as unnamed:
        folder = asked.keep or unnamed
        whole = time_page(asked, folder, asked.width, asked.height)
        if asked.million:
            shrink = math.sqrt(1e6 / (asked.width * asked.height))
            width, height = round(asked.width * shrink), round(asked.height * shrink)
            small = time_page(asked, os.path.join(folder, "million"), width, height)
            compare(whole, asked.width * asked.height, small, width * height)


main()
