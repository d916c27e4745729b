#!/usr/bin/env python3
# SPDX-License-Identifier: Apache-2.0
"""Measures the way from a PDF to plates, TIFF files and proof, step by step and whole, beside Ghostscript's own rendering.

    bench/whole_way.py [--runs 1] [--folder /dev/shm] [--only TEXT] [--farm PAGES] [--no-processes]

The page is bench/a4.pdf, A4 at 600 dpi in four inks, which bench/a4_page.py makes if it is not there, and the label of
examples/label. Each row is one command: its CPU time (user and system, of all its processes), that as a multiple of Ghostscript's
uncompressed tiffsep, the time that passed, the processes that it started, the bytes that these read and wrote by system calls (a file
that is mapped is not counted as read), and the most memory that all processes had at once, a page that several have being counted
once. All rows are measured one after the other in the same run, in a folder in memory; of several runs the least CPU time is printed,
with the rest of that run. On a machine with other work the multiples say more than the seconds.

Commands are started by the python3 that runs this script, which is first on their PATH, and with its modules compiled as an
installation has them: a wrapper in its place, or modules that are compiled at each start, would be counted at each start.

--only prints the rows whose names have TEXT in them. --farm also measures press/farm on so many pages of the label. Processes are
counted in a run of their own by strace, if it is installed.
"""
import sys

# bench/copy.py is not the module of that name.
sys.path.append(sys.path.pop(0))
import argparse
import os
import shutil
import subprocess
import tempfile
import time
from dataclasses import dataclass, replace

from a4_page import PAGE, write
from timing import ENVIRONMENT, TOP, Memory

GHOSTSCRIPT = ["gs", "-q", "-dSAFER", "-dBATCH", "-dNOPAUSE", "-sDEVICE=tiffsep", "-sCompression=none", "-r600"]
LABEL = os.path.join(TOP, "examples", "label", "label.pdf")
LOOK_SECONDS = 0.02
HEAD = "%-46s %7s %6s %7s %6s %8s %8s %7s" % ("", "CPU s", "times", "wall s", "procs", "read MB", "wrote MB", "peak MB")


@dataclass(frozen=True)
class Used:
    """What a command took: CPU and wall seconds, bytes read and written, the most memory in bytes, processes."""

    worked: float
    passed: float
    read: int
    wrote: int
    memory: int
    processes: int | None = None


def bytes_of(process):
    """What a process that has ended, and those that it waited for, read and wrote by system calls."""
    with open("/proc/%d/io" % process, encoding="ascii") as file:
        found = dict(line.split(": ") for line in file)
    return int(found["rchar"]), int(found["wchar"])


def measured(words, folder):
    """Runs a command once in a session of its own."""
    start = time.perf_counter()
    child = subprocess.Popen(words, cwd=folder, env=ENVIRONMENT, stdout=subprocess.DEVNULL, stderr=subprocess.PIPE,
                             start_new_session=True)
    memory = Memory(child.pid, LOOK_SECONDS)
    memory.start()
    complaint = child.stderr.read()
    os.waitid(os.P_PID, child.pid, os.WEXITED | os.WNOWAIT)
    passed = time.perf_counter() - start
    read, wrote = bytes_of(child.pid)
    _, status, used = os.wait4(child.pid, 0)
    memory.ended.set()
    memory.join()
    child.returncode = os.waitstatus_to_exitcode(status)
    if child.returncode:
        sys.exit("%s: status %d: %s" % (" ".join(words), child.returncode, complaint.decode(errors="replace").strip()))
    return Used(used.ru_utime + used.ru_stime, passed, read, wrote, memory.most)


def processes_of(words, folder):
    """How many processes a command starts, itself among them; None without strace."""
    if not shutil.which("strace"):
        return None
    with tempfile.NamedTemporaryFile("r", encoding="utf-8", errors="replace") as log:
        subprocess.run(["strace", "-f", "-qq", "--seccomp-bpf", "-e", "trace=clone,clone3,fork,vfork", "-o", log.name, *words],
                       cwd=folder, env=ENVIRONMENT, check=True, stdout=subprocess.DEVNULL, stderr=subprocess.DEVNULL)
        return 1 + sum("CLONE_THREAD" not in line and "resumed" not in line and "(" in line for line in log)


@dataclass(frozen=True)
class Row:
    """A row of the table: the command, what it makes, and what is wanted of it."""

    name: str
    words: tuple
    makes: str
    wanted: str = ""
    # Made before this row by another one, and kept for those that follow.
    keeps: bool = False


def press(command):
    """The path of a press command."""
    return os.path.join(TOP, "press", command)


def rows_of(farm):
    """The rows, in their order."""
    whole = (press("all"), "-q", PAGE)
    rows = [Row("Ghostscript, tiffsep, uncompressed", (*GHOSTSCRIPT, "-o", "gs/%d.tif", PAGE), "gs"),
            Row("press/plates", (press("plates"), PAGE, "page"), "page", keeps=True),
            Row("press/trap", (press("trap"), "page"), "page/trapped", keeps=True),
            Row("press/tiff (LZW)", (press("tiff"), "page", "tiff"), "tiff"),
            Row("press/tiff --compression none", (press("tiff"), "page", "tiff", "--compression", "none"), "tiff"),
            Row("press/proof", (press("proof"), "page"), "page/proof.html"),
            Row("press/look, the whole page", (press("look"), "page", "page.png"), "page.png"),
            Row("press/all", (*whole, "out"), "out", "5 times"),
            Row("press/all --no-proof", (*whole, "out", "--no-proof"), "out", "3.7 times"),
            Row("press/all, no proof, thin zones, compression", (*whole, "out", "--no-proof", "--no-thin-zones", "--compression",
                                                                 "none"), "out", "2.5 times"),
            Row("label, two pages, press/all --jobs 2", (press("all"), "-q", LABEL, "label", "--jobs", "2"), "label", "4 s wall")]
    if farm:
        rows.append(Row("farm, %d pages of the label" % farm,
                        (sys.executable, os.path.join(TOP, "bench", "press.py"), "--pages", str(farm), "--jobs", str(os.cpu_count())),
                        "none", "2,000 pages an hour and processor: 1.8 s of CPU time a page"))
    return rows


def remove(path):
    """Removes a file or a folder."""
    if os.path.isdir(path):
        shutil.rmtree(path)
    elif os.path.exists(path):
        os.remove(path)


def least(row, folder, runs, count):
    """The run of the least CPU time."""
    results = []
    for _ in range(runs):
        remove(os.path.join(folder, row.makes))
        os.makedirs(os.path.join(folder, "gs"), exist_ok=True)
        results.append(measured(row.words, folder))
    best = min(results, key=lambda one: one.worked)
    if not count:
        return best
    remove(os.path.join(folder, row.makes))
    os.makedirs(os.path.join(folder, "gs"), exist_ok=True)
    return replace(best, processes=processes_of(row.words, folder))


def line_of(row, used, base):
    """A row as it is printed."""
    times = "%.2f" % (used.worked / base.worked) if base else ""
    return "%-46s %7.2f %6s %7.2f %6s %8.0f %8.0f %7.0f  %s" % (
        row.name, used.worked, times, used.passed, used.processes or "-", used.read / 1e6, used.wrote / 1e6, used.memory / 1e6,
        "wanted: " + row.wanted if row.wanted else "")


def main():
    parser = argparse.ArgumentParser(description="Measures the way from a PDF to plates, TIFF files and proof.")
    parser.add_argument("--runs", type=int, default=1)
    parser.add_argument("--folder", default="/dev/shm")
    parser.add_argument("--only", default="")
    parser.add_argument("--farm", type=int, default=0)
    parser.add_argument("--no-processes", action="store_true")
    asked = parser.parse_args()
    print("bench/a4.pdf: sha256 %s; %d processors, load %.1f" % (write(), os.cpu_count(), os.getloadavg()[0]))
    print(HEAD)
    base = None
    with tempfile.TemporaryDirectory(prefix="whole-way-", dir=asked.folder) as folder:
        for row in rows_of(asked.farm):
            if base is not None and asked.only not in row.name and not row.keeps:
                continue
            used = least(row, folder, asked.runs, not asked.no_processes)
            base = base or used
            print(line_of(row, used, base), flush=True)
            if not row.keeps:
                remove(os.path.join(folder, row.makes))


main()
