#!/usr/bin/env python3
# SPDX-License-Identifier: Apache-2.0
"""What it costs that files are written through to the disk: times `trap page` on a page as a shop has it as it comes, and where the call
that writes through is passed over by a library that is preloaded. Both take turns.

    bench/through.py [--workers 1,4] [--width 4961] [--height 7016] [--runs 5] [--program FILE] [--folder FOLDER]

The files are written below FOLDER (the folder for temporary files where none is named): the figures are of its disk. It needs a C
compiler.
"""
import argparse
import os
import subprocess
import tempfile

from shop_page import INKS, job, make_plates
from timing import PROGRAM, least_by_turns

PASSED_OVER = b"int fdatasync(int file) { return file < 0 ? -1 : 0; }\n"


def library_in(folder):
    """The library by which nothing is written through."""
    path = os.path.join(folder, "passed-over.so")
    subprocess.run(["cc", "-shared", "-fPIC", "-O1", "-x", "c", "-", "-o", path], input=PASSED_OVER, check=True)
    return path


def main():
    parser = argparse.ArgumentParser(description="Times the program with files written through, and without.")
    parser.add_argument("--workers", default="1,4", help="numbers with commas between")
    for name, usual in (("width", 4961), ("height", 7016), ("runs", 5)):
        parser.add_argument("--" + name, type=int, default=usual)
    parser.add_argument("--program", default=PROGRAM)
    parser.add_argument("--folder", help="the disk that is written to")
    asked = parser.parse_args()
    with tempfile.TemporaryDirectory(dir=asked.folder) as folder:
        plates = make_plates(folder, asked.width, asked.height, 1, 255)
        outs = {name: os.path.join(folder, name + "-trapped.pgm") for name in INKS}
        with open(os.path.join(folder, "job"), "wb") as file:
            file.write(job(asked.width, asked.height, "0.25"))
        words = [os.path.join(folder, "job"), os.path.join(folder, "report")]
        words += ["%s:%s:%s" % (name, plates[name], outs[name]) for name in INKS]
        over = ["env", "LD_PRELOAD=" + library_in(folder)]
        for workers in asked.workers.split(","):
            command = [asked.program, "page", "--workers", workers, *words]
            through, without = least_by_turns(asked.runs, [command, over + command], [*outs.values(), words[1]])
            print("%2s workers: %.2f s written through, %.2f s without: %.0f %% more; of processors %.2f and %.2f s"
                  % (workers, through.seconds, without.seconds, 100 * (through.seconds / without.seconds - 1), through.worked, without.worked))


main()
