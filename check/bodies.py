#!/usr/bin/env python3
# SPDX-License-Identifier: Apache-2.0
"""Tries the mutants of check/bodies, which the gate leaves out for its time: bodies.py [--texts] [CRATE ..], of all crates where none is named.

`rt must-fail` tries them in a copy of the crates, proved from nothing; some 20 to 60 seconds each. Its status is this program's. With --texts nothing is
tried: it looks whether each mutant, the gate's too, can still be applied, that is whether the line that it changes stands once in its file.
"""
import os
import shutil
import subprocess
import sys
import tempfile

TOP = os.path.dirname(os.path.dirname(os.path.abspath(__file__)))
BODIES = os.path.join(TOP, "check", "bodies")


def edits_below(folder):
    """The mutants of a folder, by path."""
    names = sorted(os.listdir(folder)) if os.path.isdir(folder) else []
    return [os.path.join(folder, name) for name in names if name.endswith(".edit")]


def fault_of(edit, crate):
    """Why a mutant cannot be applied to the crate of that folder, or None."""
    path, old, changes = None, None, 0
    with open(edit, encoding="utf-8") as file:
        for line in file.read().split("\n"):
            kind, _, text = line.partition(": ")
            if kind == "file":
                path = os.path.join(crate, text.strip())
            elif kind == "old":
                old = text
            elif line.startswith("new:"):
                if not path or not old or not os.path.isfile(path):
                    return "no file, or no old text"
                with open(path, encoding="utf-8") as source:
                    found = source.read().count(old)
                if found != 1:
                    return f"its old text stands {found} times"
                old, changes = None, changes + 1
    return None if changes else "it changes nothing"


def look(crates):
    """Prints what cannot be applied, and gives how many these are."""
    wrong = seen = 0
    for crate in crates:
        folder = os.path.join(TOP, "crates", crate)
        for edit in edits_below(os.path.join(folder, "must-fail")) + edits_below(os.path.join(BODIES, crate)):
            fault = fault_of(edit, folder)
            seen += 1
            if fault:
                wrong += 1
                print(f"{os.path.relpath(edit, TOP)}: {fault}")
    print(f"{seen} mutants, {wrong} that cannot be applied")
    return wrong


def try_all(crates):
    """Tries these crates' mutants in a copy, and gives the status of rt."""
    crates = [crate for crate in crates if edits_below(os.path.join(BODIES, crate))]
    if not crates:
        print("check/bodies.py: no mutants of these crates", file=sys.stderr)
        return 2
    with tempfile.TemporaryDirectory() as room:
        for name in ("crates.txt", "HANDLES"):
            shutil.copy(os.path.join(TOP, name), room)
        leave = shutil.ignore_patterns("out", "must-fail")
        shutil.copytree(os.path.join(TOP, "crates"), os.path.join(room, "crates"), ignore=leave)
        for crate in crates:
            shutil.copytree(os.path.join(BODIES, crate), os.path.join(room, "crates", crate, "must-fail"))
        return subprocess.run(["rt", "must-fail", *crates], cwd=room, check=False).returncode


def main():
    words = sys.argv[1:]
    only_texts = words[:1] == ["--texts"]
    all_crates = sorted(os.listdir(os.path.join(TOP, "crates")))
    crates = words[only_texts:] or all_crates
    unknown = [crate for crate in crates if crate not in all_crates]
    if unknown:
        print(f"check/bodies.py: there is no crate {unknown[0]}", file=sys.stderr)
        return 2
    if only_texts:
        return 1 if look(crates) else 0
    return try_all(crates)


sys.exit(main())
