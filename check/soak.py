#!/usr/bin/env python3
# SPDX-License-Identifier: Apache-2.0
"""Long runs of the built programs: whether memory stays level, and whether anything is left behind.

    soak.py pages COUNT       so many pages through traprun, and as many through trappool, in runs of 250 pages
    soak.py watch MINUTES     a hot folder of press/watch that always has files waiting, for so long

The programs are those of crates/, or of the folder that CHECK_PROGRAMS names. The last line is `soak: right` or `soak: wrong`.
"""
import os
import random
import shutil
import signal
import subprocess
import sys
import tempfile
import time

from faults.runs import ROOM
from samples import INKS, job

HERE = os.path.dirname(os.path.abspath(__file__))
TOP = os.path.dirname(HERE)
PROGRAMS = os.environ.get("CHECK_PROGRAMS")
SIDES = 60, 40
RUN = 250
WAITING = 3
TICK = 0.02
# A run is level where it takes no more than so many kilobytes more from its second quarter on.
LEVEL = 1024


def program(name):
    return os.path.join(PROGRAMS or os.path.join(TOP, "crates", name, "out"), name)


def plate(rng):
    """A plate of blocks, each in one of a few tints."""
    width, height = SIDES
    rows = []
    for _ in range(0, height, 10):
        row = b"".join(bytes([rng.choice([0, 0, 128, 255])]) * 10 for _ in range(width // 10))
        rows.append(row * 10)
    return b"P5\n%d %d\n255\n" % (width, height) + b"".join(rows)


def seen(process):
    """How many kilobytes a process holds, and how many files it has open."""
    try:
        with open("/proc/%d/status" % process) as file:
            held = [int(line.split()[1]) for line in file if line.startswith("VmRSS")]
        return held[0] if held else 0, len(os.listdir("/proc/%d/fd" % process))
    except (OSError, IndexError):
        return 0, 0


def watched(words, folder):
    """Runs a program to its end: its status, and what was seen of it meanwhile."""
    running = subprocess.Popen(words, cwd=folder, stdout=subprocess.DEVNULL)
    found = []
    while running.poll() is None:
        found.append(seen(running.pid))
        time.sleep(TICK)
    return running.returncode, [one for one in found if one[0]]


def told(name, pages, seconds, status, found, left):
    """A line about a run, and whether it was right."""
    memory, files = [one[0] for one in found], max((one[1] for one in found), default=0)
    quarter = len(memory) // 4
    early, late = max(memory[:2 * quarter] or [0]), max(memory[2 * quarter:] or [0])
    print("%s: %d pages in %.1f s, status %d; most memory %d kB in the first half, %d kB in the second; %d files open; %d left over"
          % (name, pages, seconds, status, early, late, files, left), flush=True)
    return status == 0 and left == 0


def left_in(folder):
    return sum(".trap-" in name for _, _, names in os.walk(folder) for name in names)


def soak_traprun(folder, rng, pages):
    """One run of so many pages. It has to be level: each page is let go before the next one."""
    with open(os.path.join(folder, "job"), "wb") as file:
        file.write(job("/TrapWidth 2") + b" showpage" * (pages - 1))
    for name, _ in INKS:
        with open(os.path.join(folder, name), "wb") as file:
            for _ in range(pages):
                file.write(plate(rng))
    began = time.monotonic()
    words = [program("traprun"), "2", "64", "job", "report", *("%s:%s:%s.out" % (name, name, name) for name, _ in INKS)]
    status, found = watched(words, folder)
    made = sum(name.startswith("report.") for name in os.listdir(folder))
    memory = [one[0] for one in found]
    half = len(memory) // 2
    is_level = max(memory[half:], default=0) <= max(memory[:half], default=0) + LEVEL or half == 0
    return told("traprun", made, time.monotonic() - began, status, found, left_in(folder)) and made == pages and is_level


def soak_trappool(folder, rng, pages):
    """One list of so many pages. All are held until they are written."""
    with open(os.path.join(folder, "job"), "wb") as file:
        file.write(job("/TrapWidth 2"))
    for name, _ in INKS:
        with open(os.path.join(folder, name), "wb") as file:
            file.write(plate(rng))
    with open(os.path.join(folder, "list"), "w") as file:
        for page in range(pages):
            file.write("job report.%d %s\n" % (page, " ".join("%s:%s:%s.%d" % (name, name, name, page) for name, _ in INKS)))
    began = time.monotonic()
    status, found = watched([program("trappool"), "2", "list"], folder)
    made = sum(name.startswith("report.") for name in os.listdir(folder))
    return told("trappool", made, time.monotonic() - began, status, found, left_in(folder)) and made == pages


def soak_pages(count):
    rng = random.Random(count)
    is_right = True
    for way in soak_traprun, soak_trappool:
        for start in range(0, count, RUN):
            with tempfile.TemporaryDirectory(dir=ROOM) as folder:
                is_right &= way(folder, rng, min(RUN, count - start))
    return is_right


def soak_watch(minutes):
    """Feeds a hot folder without a pause. What is done is taken away, as a shop does."""
    with tempfile.TemporaryDirectory() as room:
        subprocess.run([os.path.join(TOP, "press", "tests", "small_pdf.py"), room], check=True)
        hot = os.path.join(room, "hot")
        os.mkdir(hot)
        surroundings = {**os.environ, **({"TRAP_BIN": PROGRAMS} if PROGRAMS else {})}
        with open(os.path.join(room, "log"), "wb") as log:
            watch = subprocess.Popen([os.path.join(TOP, "press", "watch"), hot, "--settle", "0", "--lenient", "--dpi", "150"],
                                     stdout=log, stderr=log, env=surroundings)
            found, fed, done = feed(hot, os.path.join(room, "two.pdf"), watch, time.monotonic() + 60 * minutes)
            watch.send_signal(signal.SIGTERM)
            status = watch.wait(600)
        time.sleep(1)
        claimed = os.path.join(hot, ".claimed")
        left = [name for name in os.listdir(hot) if name.startswith(".") and name != ".claimed"] + os.listdir(claimed)
        with open(os.path.join(room, "log"), "rb") as log:
            failed = sum(b": failed: " in line for line in log)
        said = told("watch", done, 60 * minutes, status, found, len(left))
        print("watch: %d files put in, %d done, %d failed; left: %s" % (fed, done, failed, " ".join(left) or "nothing"))
        return said and failed == 0 and done > 0


def feed(hot, page, watch, until):
    """Puts files in as long as there is time. What was seen of the watch, how many files went in, and how many were done."""
    found, fed, done = [], 0, 0
    place = os.path.join(hot, "done")
    while time.monotonic() < until and watch.poll() is None:
        while sum(name.endswith(".pdf") for name in os.listdir(hot)) < WAITING:
            fed += 1
            shutil.copy(page, os.path.join(hot, "page-%d.part" % fed))
            os.rename(os.path.join(hot, "page-%d.part" % fed), os.path.join(hot, "page-%d.pdf" % fed))
        for name in os.listdir(place) if os.path.isdir(place) else []:
            # Its file comes last.
            if os.path.exists(os.path.join(place, name, name + ".pdf")):
                shutil.rmtree(os.path.join(place, name))
                done += 1
        found.append(seen(watch.pid))
        time.sleep(0.2)
    return found, fed, done


def main():
    if len(sys.argv) != 3 or sys.argv[1] not in ("pages", "watch"):
        raise SystemExit(__doc__)
    is_right = soak_pages(int(sys.argv[2])) if sys.argv[1] == "pages" else soak_watch(float(sys.argv[2]))
    print("soak: %s" % ("right" if is_right else "wrong"))
    return 0 if is_right else 1


if __name__ == "__main__":
    sys.exit(main())
