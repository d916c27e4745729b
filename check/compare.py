#!/usr/bin/env python3
# SPDX-License-Identifier: Apache-2.0
"""Compares the built programs with the slow program on random cases: status, what is told, and all files afterwards.

    run.sh COUNT SEED          so many cases for each program that is there, and the cases of check/cases first
    run.sh --again FOLDER      one case that was kept
    run.sh --self              the slow program on worked values
"""
import argparse
import json
import multiprocessing
import os
import random
import shutil
import subprocess
import sys
import tempfile
import time
from collections import Counter, namedtuple

import coverage
import programs
import slow
import slow.rule
import worked
from maker.cases import FOLDER, FULL, Case
from programs.trap import large_case
from slow.outside import Held

HERE = os.path.dirname(os.path.abspath(__file__))
TOP = os.path.dirname(HERE)
LONGEST_RUN = 180

# What a run leaves: its status, what is told, and the files by name.
Outcome = namedtuple("Outcome", "status told files")


def case(program, seed, number):
    """The random case of this number; it depends on nothing else."""
    rng = random.Random("%s %s %s" % (program, seed, number))
    words, files = programs.of(program, "make")(rng)
    return Case(program, words, {FOLDER: None, **files}, rng.random() < 0.02)


def encoded(text):
    return text.encode("utf-8", "surrogateescape")


def cannot_be_created(files):
    """Whether a name can't be created in the folder of a case."""
    folders = {name for name, data in files.items() if data is None}

    def judge(name):
        parts = name.split("/")
        return (name in folders or "" in parts or "\0" in name or any(len(encoded(part)) > 255 for part in parts)
                or (len(parts) > 1 and "/".join(parts[:-1]) not in folders))
    return judge


def wanted_of(one):
    """What the slow program makes of a case."""
    files = {name: data for name, data in one.files.items() if data is not None}
    outside = Held(files, cannot_be_created(one.files), full=[FULL], mute=one.mute)
    status = slow.run(one.program, one.words, outside)
    return Outcome(status, encoded(outside.told), outside.files)


def found_of(one, program):
    """What the built program makes of it, in a folder of its own."""
    with tempfile.TemporaryDirectory() as folder:
        lay_out(one.files, folder)
        with open(FULL if one.mute else os.path.join(folder, "told"), "wb") as told:
            status = run_program(program, one.words, os.path.join(folder, "files"), told)
        text = b"" if one.mute else read(os.path.join(folder, "told"))
        return Outcome(status, text, files_below(os.path.join(folder, "files")))


def run_program(program, words, folder, told):
    try:
        done = subprocess.run([program, *map(encoded, words)], cwd=folder, stdin=subprocess.DEVNULL, stdout=told,
                              stderr=subprocess.DEVNULL, timeout=LONGEST_RUN)
        return done.returncode
    except subprocess.TimeoutExpired:
        return "not ended within %d seconds" % LONGEST_RUN


def lay_out(files, folder):
    """Writes a case's files, the folders first."""
    folder = os.path.join(folder, "files")
    os.makedirs(folder)
    for name, data in sorted(files.items(), key=lambda entry: entry[1] is not None):
        path = os.path.join(encoded(folder), encoded(name))
        if data is None:
            os.makedirs(path, exist_ok=True)
        else:
            with open(path, "wb") as file:
                file.write(data)


def files_below(folder):
    """The files in a folder by name."""
    found = {}
    for place, _, names in os.walk(encoded(folder)):
        for name in names:
            path = os.path.join(place, name)
            found[os.path.relpath(path, encoded(folder)).decode("utf-8", "surrogateescape")] = read(path)
    return found


def read(path):
    with open(path, "rb") as file:
        return file.read()


def differences(wanted, found):
    """What differs, one line each."""
    lines = []
    for part in ("status", "told"):
        if getattr(wanted, part) != getattr(found, part):
            lines.append("%s: wanted %r, found %r" % (part, getattr(wanted, part), getattr(found, part)))
    for name in sorted(wanted.files.keys() | found.files.keys()):
        one, other = wanted.files.get(name), found.files.get(name)
        if one != other:
            lines.append("file %r: wanted %s" % (name, said(one, other)))
            lines.append("file %r: found  %s" % (name, said(other, one)))
    return lines


def said(data, other):
    """How long a file is, and what stands where it begins to differ from another."""
    if data is None:
        return "none"
    place = len(os.path.commonprefix([data, other or b""]))
    return "%d bytes, from byte %d: %r" % (len(data), place, data[place:place + 60])


def keep(one, label, wanted, found, place):
    """Keeps a case that differs in a folder."""
    folder = os.path.join(place, label)
    shutil.rmtree(folder, ignore_errors=True)
    lay_out(one.files, folder)
    write_json(os.path.join(folder, "case.json"), {"program": one.program, "words": one.words, "mute": one.mute,
                                                   "folders": [name for name in one.files if one.files[name] is None]})
    for which, outcome in (("wanted", wanted), ("found", found)):
        changed = {name: data for name, data in outcome.files.items() if one.files.get(name) != data}
        folders = {name: None for name, data in one.files.items() if data is None}
        lay_out({**folders, **changed}, os.path.join(folder, which))
        write_json(os.path.join(folder, which, "outcome.json"),
                   {"status": outcome.status, "told": outcome.told.decode("utf-8", "surrogateescape")})
    return folder


def write_json(path, value):
    with open(path, "w", encoding="ascii") as file:
        json.dump(value, file, indent=1)
        file.write("\n")


def kept(folder):
    """The case of a folder."""
    with open(os.path.join(folder, "case.json"), encoding="ascii") as file:
        told = json.load(file)
    files = {name: None for name in told.get("folders", [])}
    files.update(files_below(os.path.join(folder, "files")))
    return Case(told["program"], told["words"], files, told.get("mute", False))


def program_of(name, programs):
    """Where a built program stands."""
    return os.path.join(programs, name) if programs else os.path.join(TOP, "crates", name, "out", name)


def try_case(one, label, program, place):
    """The lines that tell of a difference, and what was met."""
    coverage.begin(one)
    wanted = wanted_of(one)
    met = coverage.end(one, wanted)
    found = found_of(one, program)
    lines = differences(wanted, found)
    if lines:
        folder = keep(one, label, wanted, found, place)
        lines = ["%s differs: kept in %s" % (label, folder)] + ["  " + line for line in lines]
        lines.append("  run it again with: check/run.sh --again %s" % os.path.relpath(folder, TOP))
    return lines, met


def part(task):
    """A part of the random cases of one program."""
    name, seed, numbers, program, place = task
    told, met, different = [], Counter(), 0
    for number in numbers:
        lines, here = try_case(case(name, seed, number), "%s-%s-%d" % (name, seed, number), program, place)
        different += bool(lines)
        told += lines
        met += here
    return told, met, different


def random_cases(name, options, met):
    """All random cases of one program: how many differ."""
    begun, different = time.time(), 0
    program = program_of(name, options.programs)
    tasks = [(name, options.seed, range(first, min(first + 50, options.count)), program, options.keep)
             for first in range(0, options.count, 50)]
    if options.side > 1:
        # What was set up here, such as the watchers, holds in each process of its own.
        with multiprocessing.get_context("fork").Pool(options.side) as pool:
            parts = pool.imap(part, tasks)
            different = tell_parts(parts, met)
    else:
        different = tell_parts(map(part, tasks), met)
    seconds = time.time() - begun
    print("%s: %d cases, %d different, %.0f seconds" % (name, options.count, different, seconds), flush=True)
    return different


def tell_parts(parts, met):
    different = 0
    for told, here, count in parts:
        for line in told:
            print(line, flush=True)
        met.update(here)
        different += count
    return different


def standing_cases(names, options, met):
    """The cases of check/cases: how many there are of these programs, and how many differ."""
    place, count, different = os.path.join(HERE, "cases"), 0, 0
    for label in sorted(os.listdir(place)) if os.path.isdir(place) else []:
        one = kept(os.path.join(place, label))
        if one.program in names:
            lines, here = try_case(one, label, program_of(one.program, options.programs), options.keep)
            print("\n".join(lines), end="\n" if lines else "", flush=True)
            met.update(here)
            count, different = count + 1, different + bool(lines)
    return count, different


def again(folder, options):
    """One case that was kept."""
    one = kept(folder)
    wanted, found = wanted_of(one), found_of(one, program_of(one.program, options.programs))
    print("%s %s" % (one.program, " ".join(map(repr, one.words))))
    print("status %s, told %r" % (wanted.status, wanted.told))
    lines = differences(wanted, found)
    print("\n".join(lines or ["no difference"]))
    return 1 if lines else 0


def options_of(words):
    parser = argparse.ArgumentParser(prog="check/run.sh", description=__doc__,
                                     formatter_class=argparse.RawDescriptionHelpFormatter)
    parser.add_argument("count", type=int, nargs="?", help="how many random cases for each program")
    parser.add_argument("seed", nargs="?", help="any word; the same cases come with the same seed")
    parser.add_argument("--programs", metavar="FOLDER", default=os.environ.get("CHECK_PROGRAMS"),
                        help="the built programs, by name, in place of crates/NAME/out/NAME (or CHECK_PROGRAMS)")
    parser.add_argument("--only", metavar="NAME", action="append", choices=list(slow.PROGRAMS),
                        help="this program alone")
    parser.add_argument("--side", metavar="N", type=int, default=1, help="run so many cases side by side")
    parser.add_argument("--keep", metavar="FOLDER", default=os.path.join(HERE, "out"),
                        help="where differing cases are kept")
    parser.add_argument("--coverage", action="store_true", help="print which faults and features the cases met")
    parser.add_argument("--large", action="store_true", help="try a page of too many samples too; this takes 600 MB")
    parser.add_argument("--again", metavar="FOLDER", help="run a case again that was kept")
    parser.add_argument("--self", action="store_true", help="try the slow program on worked values")
    options = parser.parse_args(words)
    if not options.self and not options.again and options.seed is None:
        parser.error("COUNT and SEED are wanted")
    if options.programs:
        options.programs = os.path.abspath(options.programs)
    return options


def main(words):
    options = options_of(words)
    if options.self:
        return worked.main()
    slow.rule.watchers.append(slow.rule.compare_searches)
    if options.again:
        return again(options.again, options)
    if options.coverage:
        coverage.start()
    names = []
    for name in options.only or slow.PROGRAMS:
        if os.access(program_of(name, options.programs), os.X_OK):
            names.append(name)
        else:
            print("%s: skipped, it is not built: %s" % (name, program_of(name, options.programs)))
    met = Counter()
    count, different = standing_cases(names, options, met)
    if options.large and "trap" in names:
        lines, here = try_case(large_case(), "large", program_of("trap", options.programs), options.keep)
        print("\n".join(lines or ["large: a page of 160,073,104 samples, not different"]), flush=True)
        met.update(here)
        count, different = count + 1, different + bool(lines)
    for name in names:
        different += random_cases(name, options, met)
        count += options.count
    if options.coverage:
        coverage.tell(met, names)
    print("%d cases, %d different" % (count, different))
    return 1 if different or not names else 0


if __name__ == "__main__":
    sys.exit(main(sys.argv[1:]))
