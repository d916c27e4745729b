#!/usr/bin/env python3
# SPDX-License-Identifier: Apache-2.0
"""Which goals of a crate took the prover longest, by what `rt check` kept in the crate's folder. Nothing is run.

goals.py CRATE [COUNT]     the COUNT dearest (20): the steps of each, in millions, the function, and the goal

A million steps are about a second of a processor. A goal under `Answers` is answered in a file; one under `Proof` was left to the
search, and naming `grind (arith, common_steps)` as its answer is the first thing to try. The counts stand in the files that the
toolchain keeps between checks. Their form is its own and may change, and goals of earlier texts may be among them: for the goals of
this text alone remove the crate's out/incremental and run `rt check` once.
"""
import json
import os
import re
import sys

CRATES = os.path.join(os.path.dirname(os.path.abspath(__file__)), "..", "crates")
KEPT = re.compile(r"Rattle-\w+?-proofs\.(?P<function>.+)\.(?P<part>Proof|Answers)\.decls\.oantt")


def entries(file):
    """The entries of a kept file that say what a declaration cost; each is an object in a list of its own."""
    with open(file, encoding="latin-1") as kept:
        text = kept.read()
    for found in re.finditer(r'\[\{"aux":', text):
        try:
            yield from json.JSONDecoder().raw_decode(text, found.start())[0]
        except ValueError:
            continue


def answered(crate, function):
    """The goals that the function's file of answers answers."""
    file = os.path.join(CRATES, crate, "proofs", *function.split("."), "Answers.antt")
    if not os.path.isfile(file):
        return set()
    with open(file, encoding="utf-8") as text:
        return set(re.findall(r"^(?:pub )?(\S+) :", text.read(), re.MULTILINE))


def goals(crate):
    """The steps of each goal of the crate's functions, by its function, where it is answered, and its name."""
    steps = {}
    for folder, _, names in os.walk(os.path.join(CRATES, crate, "out", "incremental")):
        for name in names:
            place = KEPT.fullmatch(name)
            for entry in entries(os.path.join(folder, name)) if place else ():
                # of a goal that was proved more than once the last one stands
                steps[place["function"], place["part"], entry["name"]] = sum(it or 0 for it in entry.get("steps") or ())
    by_hand = {function: answered(crate, function) for function, _, _ in steps}
    return {key: count for key, count in steps.items() if (key[2] in by_hand[key[0]]) == (key[1] == "Answers")}


def main():
    if not 2 <= len(sys.argv) <= 3:
        sys.exit(__doc__)
    found = sorted(goals(sys.argv[1]).items(), key=lambda it: -it[1])
    if not found:
        sys.exit(f"goals.py: nothing is kept of {sys.argv[1]}: run rt check in its folder first")
    for (function, part, goal), steps in found[: int(sys.argv[2]) if len(sys.argv) == 3 else 20]:
        print(f"{steps / 1e6:6.1f}  {part:8} {function}  {goal}")
    print(f"{sum(steps for _, steps in found) / 1e6:6.1f}  in all, {len(found)} goals")


if __name__ == "__main__":
    main()
