# SPDX-License-Identifier: Apache-2.0
"""Faults of the system, in turn, on small pages, and places on a disk that stand in the way (check/faults.sh).

faults [PROGRAM ..] [--short] [--side N]

The last line is `N trials, M wrong`, and the status is 1 where M is above 0.
"""
import argparse
import os
import shutil
import sys
import tempfile
from concurrent.futures import ThreadPoolExecutor

from . import places, runs, trials
from .calls import Trials
from .cases import CASES

SHOWN = 5


def said_by(trial):
    """What was wrong with a trial, or nothing."""
    try:
        return trial[1]()
    except Exception as error:  # pylint: disable=broad-except
        return "the trial itself failed: %r" % error


def tried(name, group, side):
    """Runs the trials of a group. How many there were, and how many went wrong."""
    group = list(group)
    with ThreadPoolExecutor(side) as workers:
        found = list(workers.map(said_by, group))
    wrong = [(about, said) for (about, _), said in zip(group, found) if said]
    print("%s: %d trials, %d wrong" % (name, len(group), len(wrong)))
    for about, said in wrong[:SHOWN]:
        print("  %s: %s" % (about, said))
    if len(wrong) > SHOWN:
        print("  and %d more" % (len(wrong) - SHOWN))
    sys.stdout.flush()
    return len(group), len(wrong)


def groups(names, room, is_short):
    """The trials of the programs that are built, by what they try."""
    library = runs.library_in(room)
    for name in names:
        if not runs.program_of(name):
            print("%s: skipped, it is not built" % name)
            continue
        runs.copy_for_all(name, room)
        for case in CASES:
            if case.program == name:
                yield "%s %s" % (name, " ".join(case.words)), Trials(case, library, is_short).all()
        yield "%s, where the disk stands in the way" % name, trials.all_of(name, library, is_short)


def main():
    words = argparse.ArgumentParser(prog="check/faults.sh")
    words.add_argument("programs", nargs="*", metavar="PROGRAM")
    words.add_argument("--short", action="store_true", help="a choice of all trials")
    words.add_argument("--side", type=int, default=os.cpu_count(), metavar="N", help="N runs side by side")
    asked = words.parse_args()
    if not shutil.which("cc"):
        print("check/faults: skipped, there is no C compiler")
        return 0
    # What is made anew has the rights that this leaves.
    os.umask(0o022)
    names = asked.programs or list(dict.fromkeys(case.program for case in CASES))
    count = bad = 0
    with tempfile.TemporaryDirectory(dir=runs.open_place()) as room:
        for name, group in groups(names, room, asked.short):
            made, wrong = tried(name, group, asked.side)
            count, bad = count + made, bad + wrong
    for what, why in places.skipped():
        print("skipped: %s: %s" % (what, why))
    print("%d trials, %d wrong" % (count, bad))
    return 1 if bad else 0


sys.exit(main())
