#!/usr/bin/env python3
# SPDX-License-Identifier: Apache-2.0
"""Times the program on one large plate, as a ratio to `cat` of the same file: reading, checking and writing it again.

    bench/copy.py [--width 4961] [--height 7016] [--maxval 255] [--runs 5]

The plate is the same at each call. It prints the least time of each, their ratio, and the peak memory of the program.
"""
import argparse
import os
import tempfile

from timing import NO_TRAPS, PROGRAM, cat, least


def make(path, width, height, maxval):
    """Rows of a ramp that moves on from row to row."""
    size = 1 if maxval < 256 else 2
    ramp = b"".join((k % (maxval + 1)).to_bytes(size, "big") for k in range(width + 257))
    with open(path, "wb") as out:
        out.write(b"P5\n%d %d\n%d\n" % (width, height, maxval))
        for y in range(height):
            start = (y % 257) * size
            out.write(ramp[start:start + width * size])


def main():
    parser = argparse.ArgumentParser()
    for name, usual in (("width", 4961), ("height", 7016), ("maxval", 255), ("runs", 5)):
        parser.add_argument("--" + name, type=int, default=usual)
    parser.add_argument("--program", default=PROGRAM)
    asked = parser.parse_args()
    with tempfile.TemporaryDirectory() as folder:
        plate, job, out = (os.path.join(folder, name) for name in ("plate.pgm", "job", "out.pgm"))
        make(plate, asked.width, asked.height, asked.maxval)
        with open(job, "wb") as text:
            text.write(NO_TRAPS)
        copied = least(asked.runs, cat([(plate, out)]), [out])
        words = [asked.program, "page", job, os.path.join(folder, "report"), "Ink:%s:%s" % (plate, out)]
        trap = least(asked.runs, words, [out])
        samples = asked.width * asked.height
        print("%d samples, maxval %d: cat %.0f ms, trap %.0f ms, ratio %.2f (of processors' time %.2f), "
              "%.0f million samples a second, peak %.0f MB"
              % (samples, asked.maxval, copied.seconds * 1e3, trap.seconds * 1e3, trap.seconds / copied.seconds,
                 trap.worked / copied.worked, samples / trap.seconds / 1e6, trap.peak_megabytes))


main()
