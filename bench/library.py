#!/usr/bin/env python3
# SPDX-License-Identifier: Apache-2.0
"""Times a call of the library on a page as a shop has it, beside the engine of one thread, and four threads with four bands.

    bench/library.py [--runs 5] [--width 4961] [--height 7016] [--trap-width 0.25] [--bands 4] [--program FILE]

All take turns. What the engine of one thread takes is that of `trapset traps` less that of reading: the same plates with a job that is
refused once they are read. It prints the least times by the clock and of the processors, and the ratios: the call to the engine, and the
bands to the call. The first is taken of the processors' time, since other work on the machine does not fall on it.
"""
import argparse
import os
import subprocess
import tempfile

from shop_page import INKS, job, make_plates
from timing import TOP

PROGRAM = os.path.join(TOP, "crates", "trapset", "out", "trapset")
LIBRARY = os.path.join(TOP, "library")
# In points: it reaches farther than any page allows, which is judged once all plates are read.
TOO_WIDE = "100"


def compiled(folder):
    """The program that calls the library and tells how long that took."""
    made = os.path.join(folder, "library")
    subprocess.run([os.environ.get("CC", "cc"), "-std=c99", "-D_POSIX_C_SOURCE=200809L", "-O2", "-pthread", "-I" + LIBRARY,
                    "-I" + os.path.join(TOP, "examples", "library"), "-o", made, os.path.join(TOP, "bench", "library.c"),
                    os.path.join(LIBRARY, "out", "libtrap.a")], check=True)
    return made


def call(program, bands, path, plates):
    """The seconds that one call took, and those of the processors."""
    told = subprocess.run([program, str(bands), path, *plates], check=True, stdout=subprocess.PIPE, text=True).stdout
    return tuple(float(word) for word in told.split())


def traps(program, path, made, plates, status):
    """The same for a whole run of `trapset traps`, which has to end with that status."""
    start = os.times()
    ended = subprocess.run([program, "traps", path, made, *plates], check=False, stdout=subprocess.DEVNULL, stderr=subprocess.DEVNULL)
    end = os.times()
    if ended.returncode != status:
        raise SystemExit("trapset ended with status %d, and not with %d" % (ended.returncode, status))
    return end.elapsed - start.elapsed, end.children_user + end.children_system - start.children_user - start.children_system


def least(times):
    return tuple(min(of) for of in zip(*times))


def main():
    parser = argparse.ArgumentParser(description="Times the library beside the engine of one thread.")
    for name, usual in (("runs", 5), ("width", 4961), ("height", 7016), ("bands", 4)):
        parser.add_argument("--" + name, type=int, default=usual)
    parser.add_argument("--trap-width", default="0.25", help="in points")
    parser.add_argument("--program", default=PROGRAM, help="the program trapset")
    asked = parser.parse_args()
    with tempfile.TemporaryDirectory() as folder:
        plates = make_plates(folder, asked.width, asked.height, 1, 255)
        path, wide, made = (os.path.join(folder, name) for name in ("job", "wide", "set"))
        for name, trap_width in ((path, asked.trap_width), (wide, TOO_WIDE)):
            with open(name, "wb") as file:
                file.write(job(asked.width, asked.height, trap_width))
        program = compiled(folder)
        words = ["%s:%s" % pair for pair in plates.items()]
        rows = {name: [] for name in ("whole", "read", "call", "bands")}
        for _ in range(asked.runs):
            rows["whole"].append(traps(asked.program, path, made, words, 0))
            rows["read"].append(traps(asked.program, wide, made, words, 4))
            rows["call"].append(call(program, 0, path, [word + ":" for word in words]))
            rows["bands"].append(call(program, asked.bands, path, [word + ":" for word in words]))
    found = {name: least(times) for name, times in rows.items()}
    engine = found["whole"][1] - found["read"][1]
    print("trapset traps %.2f s of processors, less %.2f s to read: the engine %.2f s" % (found["whole"][1], found["read"][1], engine))
    print("one call      %.2f s, of processors %.2f s: %.2f times the engine" % (*found["call"], found["call"][1] / engine))
    print("%d bands       %.2f s, of processors %.2f s: %.2f of one call by the clock, %.2f times its processors"
          % (asked.bands, *found["bands"], found["bands"][0] / found["call"][0], found["bands"][1] / found["call"][1]))


if __name__ == "__main__":
    main()
