#!/usr/bin/env python3
# SPDX-License-Identifier: Apache-2.0
"""Compares a plate file with what the program wrote of it: the canonical header, and the same raster.

check.py READ WRITTEN ends with 0 where they agree. It reads headers as Netpbm's manual says, by itself.
"""
import sys


def numbers(data):
    """The three numbers of a raw PGM, and where its raster begins."""
    place, found = 2, []
    while len(found) < 3:
        if data[place:place + 1] == b"#":
            while data[place:place + 1] not in (b"\n", b"\r"):
                place += 1
        elif data[place:place + 1].isspace():
            place += 1
        else:
            start = place
            while data[place:place + 1].isdigit():
                place += 1
            found.append(int(data[start:place]))
    return found, place + 1


def main():
    read, written = (open(name, "rb").read() for name in sys.argv[1:3])
    (width, height, maxval), start = numbers(read)
    wanted = b"P5\n%d %d\n%d\n" % (width, height, maxval) + read[start:]
    return 0 if written == wanted else 1


sys.exit(main())
