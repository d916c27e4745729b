#!/usr/bin/env python3
# SPDX-License-Identifier: Apache-2.0
"""Measures a run of many pages through `press/farm`.

    bench/press.py [--pages 200] [--jobs 2] [--in FILE] [--folder DIR] [FARM'S OPTION ..]

The pages are those of FILE over and over, of the label of `examples/label` where none is named, with the tables of inks and the zones
that lie beside it. It prints what a page took of a processor, pages an hour a processor, the most memory that all processes had at
once, each page that is shared counted once, and what OUT takes on the disk. Any other option is handed to `press/farm`. The python3 that runs this script is first
on the PATH of all commands, and its modules are compiled as an installation has them.
"""
import argparse
import os
import shutil
import subprocess
import sys
import tempfile
import time

from timing import ENVIRONMENT, TOP, Memory

LABEL = os.path.join(TOP, "examples", "label", "label.pdf")
LOOK_SECONDS = 0.5


def make_book(source, pages, folder):
    """A PDF of so many pages, and beside it what lies beside the source."""
    book, before = os.path.join(folder, "book.pdf"), os.path.splitext(source)[0]
    count = int(subprocess.run([os.path.join(TOP, "press", "plates"), "--count", source], check=True, stdout=subprocess.PIPE).stdout)
    copies, rest = divmod(pages, count)
    words = [source] * copies + ([source, "1-%d" % rest] if rest else [])
    subprocess.run(["mutool", "merge", "-o", book, *words], check=True)
    for ending in (".inks", ".zones"):
        if os.path.exists(before + ending):
            shutil.copy(before + ending, os.path.join(folder, "book" + ending))
    return book


def run(command):
    """Runs it in a session of its own. Answers its status, the seconds that passed, those of processors, and its most bytes."""
    start = time.perf_counter()
    child = subprocess.Popen(command, env=ENVIRONMENT, stdout=subprocess.DEVNULL, start_new_session=True)
    memory = Memory(child.pid, LOOK_SECONDS)
    memory.start()
    _, status, used = os.wait4(child.pid, 0)
    memory.ended.set()
    child.returncode = os.waitstatus_to_exitcode(status)
    return child.returncode, time.perf_counter() - start, used.ru_utime + used.ru_stime, memory.most


def on_disk(folder):
    return sum(os.lstat(os.path.join(at, name)).st_blocks * 512 for at, _, names in os.walk(folder) for name in names)


def main():
    parser = argparse.ArgumentParser(description="Measures a run of many pages through press/farm.")
    parser.add_argument("--pages", type=int, default=200)
    parser.add_argument("--jobs", type=int, default=2)
    parser.add_argument("--in", dest="source", default=LABEL)
    parser.add_argument("--folder", help="where the pages are made; else in a temporary folder")
    asked, more = parser.parse_known_args()
    with tempfile.TemporaryDirectory(dir=asked.folder) as folder:
        book, out = make_book(asked.source, asked.pages, folder), os.path.join(folder, "out")
        command = [os.path.join(TOP, "press", "farm"), book, out, "--jobs", str(asked.jobs), "--quiet", *more]
        status, seconds, worked, most = run(command)
        done = sum(os.path.exists(os.path.join(out, name, "trapped", "report")) for name in os.listdir(out))
        print("%d pages asked, %d done, status %d; load %.1f" % (asked.pages, done, status, os.getloadavg()[2]))
        print("  %.0f s by the clock, %.0f s of processors: %.2f s a page, %.0f pages an hour a processor"
              % (seconds, worked, worked / max(1, done), 3600 * done / worked))
        print("  at most %.2f GB of memory, %.2f GB on the disk: %.0f MB a page"
              % (most / 1e9, on_disk(out) / 1e9, on_disk(out) / 1e6 / max(1, done)))
    sys.exit(status)


main()
