#!/usr/bin/env python3
# SPDX-License-Identifier: Apache-2.0
"""Times `trap page` on a page as a shop has it by 1, 2 and 4 workers, beside another program of the same words.

    bench/workers.py [--workers 1,2,4] [--width 4961] [--height 7016] [--trap-width 0.25] [--runs 5]
                     [--program FILE] [--beside FILE] [--table FILE [--words 64000000]]

All of them take turns. For each number of workers it prints the least time by the clock and that of the processors, the peak memory,
the ratio to the first number, with --beside the ratio to the other program by as many workers, and for how much of the run a
single thread was there: in that share nothing goes side by side. It is looked at every two milliseconds, once for each number of workers.

The floor of what is asked for is the time of a program without a shared table (--beside) and that of the table alone: --table names a
program that, called as `FILE WORDS THREADS`, makes so many shared words, stores into each once and loads each once. With both the ratio
to their sum is printed. A page of the usual size has 64 million words.
"""
import argparse
import os
import subprocess
import tempfile
import time

from shop_page import INKS, job, make_plates
from timing import PROGRAM, least_by_turns


def share_of_one_thread(command):
    """The share of a run in which the program has a single thread."""
    child = subprocess.Popen(command, stdout=subprocess.DEVNULL)
    alone = seen = 0
    while child.poll() is None:
        try:
            threads = len(os.listdir("/proc/%d/task" % child.pid))
        except OSError:
            break
        seen += 1
        alone += threads == 1
        time.sleep(0.002)
    child.wait()
    return alone / max(seen, 1)


def arguments():
    parser = argparse.ArgumentParser(description="Times the program by several numbers of workers.")
    parser.add_argument("--workers", default="1,2,4", help="numbers with commas between")
    for name, usual in (("width", 4961), ("height", 7016), ("runs", 5)):
        parser.add_argument("--" + name, type=int, default=usual)
    parser.add_argument("--trap-width", default="0.25", help="in points")
    parser.add_argument("--program", default=PROGRAM)
    parser.add_argument("--beside", help="another program that takes the words of `trap page`")
    parser.add_argument("--table", help="a program that makes, stores and loads shared words: FILE WORDS THREADS")
    parser.add_argument("--words", default="64000000", help="the words of the page's table")
    return parser.parse_args()


def print_row(workers, ours, first, theirs, table, alone):
    print("  %2s workers %6.2f s, of processors %6.2f s, peak %5.0f MB, %.2f of the first; one thread alone %2.0f %%"
          % (workers, ours.seconds, ours.worked, ours.peak_megabytes, ours.seconds / first.seconds, alone * 100))
    if theirs:
        print("     the other %6.2f s, of processors %6.2f s: %5.2f times, of processors %5.2f"
              % (theirs.seconds, theirs.worked, ours.seconds / theirs.seconds, ours.worked / theirs.worked))
    if theirs and table:
        print("     the table  %6.2f s, of processors %6.2f s: %5.2f times the floor, of processors %5.2f"
              % (table.seconds, table.worked, ours.seconds / (theirs.seconds + table.seconds),
                 ours.worked / (theirs.worked + table.worked)))


def main():
    asked = arguments()
    numbers = asked.workers.split(",")
    with tempfile.TemporaryDirectory() as folder:
        plates = make_plates(folder, asked.width, asked.height, 1, 255)
        outs = {name: os.path.join(folder, name + "-trapped.pgm") for name in INKS}
        with open(os.path.join(folder, "job"), "wb") as file:
            file.write(job(asked.width, asked.height, asked.trap_width))
        words = [os.path.join(folder, "job"), os.path.join(folder, "report")]
        words += ["%s:%s:%s" % (name, plates[name], outs[name]) for name in INKS]
        programs = [asked.program] + ([asked.beside] if asked.beside else [])
        commands = [[program, "page", "--workers", number, *words] for number in numbers for program in programs]
        tables = [[asked.table, asked.words, number] for number in numbers] if asked.table else []
        results = least_by_turns(asked.runs, commands + tables, list(outs.values()))
        alone = [share_of_one_thread([asked.program, "page", "--workers", number, *words]) for number in numbers]
    print("%d by %d samples in %d inks, TrapWidth %s" % (asked.width, asked.height, len(INKS), asked.trap_width))
    for place, number in enumerate(numbers):
        ours = results[place * len(programs)]
        theirs = results[place * len(programs) + 1] if asked.beside else None
        table = results[len(commands) + place] if asked.table else None
        print_row(number, ours, results[0], theirs, table, alone[place])


main()
