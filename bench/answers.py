#!/usr/bin/env python3
# SPDX-License-Identifier: Apache-2.0
"""Answers by name the goals of a crate that the search finds slowly. At each goal that has no answer and took LEAST million
steps or more, `grind (arith, common_steps)` is tried as its answer, and kept where it takes less than seven tenths of the steps.

answers.py CRATE [LEAST]     (LEAST is 0.9)

It goes by what `rt check` kept of the crate (goals.py), so run that first, with the crate's out/incremental removed where the
crate has changed since. It runs `rt check` three or four times, and writes files proofs/../Answers.antt.
"""
import contextlib
import os
import re
import subprocess
import sys

import goals

KEPT = 0.7
TACTIC = "grind (arith, common_steps)"
IMPORTS = [("Rattle.std.proofs.Common", "arith"), ("Rattle.std.proofs.lemmas.Grind", "common_steps")]
# What a check says of an answer: its file, its line, and what is wrong.
WRONG = re.compile(r"^(?:\./)?proofs/(\S+?)/Answers\.antt:(\d+):\d+: error: (.*)", re.MULTILINE)


class Answers:
    """The file of answers of one function: its text as it was, and the answers that are tried, with their arguments."""

    def __init__(self, crate, function):
        self.crate, self.function = crate, function
        self.path = os.path.join(goals.CRATES, crate, "proofs", *function.split("."), "Answers.antt")
        self.old = self.text_of_file()
        self.tried, self.lines = {}, {}

    def text_of_file(self):
        if not os.path.isfile(self.path):
            return None
        with open(self.path, encoding="utf-8") as text:
            return text.read()

    def head(self):
        """The lines of the file as it was, with the imports that the answers take."""
        goal = f"use Rattle.{self.crate}.proofs.{self.function}.Goals as goal"
        text = self.old or f"-- {self.function.split('.')[-1]}: goals that the search finds slowly.\n{goal}\n"
        lines = text.rstrip("\n").split("\n")
        first = next(at for at, line in enumerate(lines) if line.startswith("use "))
        for module, name in IMPORTS:
            at = next((at for at, line in enumerate(lines) if line.startswith(f"use {module}.{{")), None)
            if at is None:
                lines.insert(first, f"use {module}.{{{name}}}")
            elif not re.search(rf"\b{name}\b", lines[at]):
                lines[at] = lines[at].replace("{", f"{{{name}, ", 1)
        if not any(line.endswith(".Goals as goal") for line in lines):
            last = max(at for at, line in enumerate(lines) if line.startswith("use "))
            lines.insert(last + 1, goal)
        return lines

    def write(self):
        """Writes the file with what is tried, or as it was where nothing is."""
        if not self.tried:
            self.restore()
            return
        lines = self.head()
        self.lines = {}
        for goal, arguments in self.tried.items():
            lines += ["", f"pub {goal} : goal.{goal}", f"{goal} {arguments} = {TACTIC}"]
            self.lines[len(lines) - 1] = self.lines[len(lines)] = goal
        os.makedirs(os.path.dirname(self.path), exist_ok=True)
        with open(self.path, "w", encoding="utf-8") as file:
            file.write("\n".join(lines) + "\n")

    def restore(self):
        if self.old is not None:
            with open(self.path, "w", encoding="utf-8") as file:
                file.write(self.old)
        elif os.path.isfile(self.path):
            os.remove(self.path)
            # a folder that has other files stays
            with contextlib.suppress(OSError):
                os.removedirs(os.path.dirname(self.path))

    def refuse(self, line, why, turned):
        """Takes an answer away; or, once, gives it the other arguments, where it was given too few or too many."""
        goal = self.lines.get(line)
        if goal not in self.tried:
            return
        if (self.function, goal) not in turned and "grind" not in why:
            turned.add((self.function, goal))
            self.tried[goal] = "c" if self.tried[goal] == "g c" else "g c"
        else:
            del self.tried[goal]


def check(crate, *flags):
    """What `rt check` says of the crate, and whether it is proved."""
    run = subprocess.run(["rt", "check", *flags], cwd=os.path.join(goals.CRATES, crate), capture_output=True, text=True)
    return run.stdout + run.stderr, run.returncode == 0


def dear_goals(crate, least):
    """The goals without an answer that took so many million steps, with these steps. Those of closures that cross threads, and
    those that have names of the toolchain's own, cannot be answered by themselves."""
    found = {}
    for (function, part, goal), steps in goals.goals(crate).items():
        if part == "Proof" and steps >= least * 1e6 and not re.search(r"-kept-\d+$|^join-.*-requires$|^\+", goal):
            found[function, goal] = steps
    return found


def try_all(crate, files):
    """Checks until no answer that is tried is refused."""
    turned = set()
    while True:
        for file in files.values():
            file.write()
        said, _ = check(crate, "--allow-holes")
        wrong = [it for it in WRONG.findall(said) if it[0].replace("/", ".") in files]
        if not wrong:
            return
        before = {name: dict(file.tried) for name, file in files.items()}
        for path, line, why in wrong:
            files[path.replace("/", ".")].refuse(int(line), why, turned)
        if before == {name: file.tried for name, file in files.items()}:
            return


def main():
    if not 2 <= len(sys.argv) <= 3:
        sys.exit(__doc__)
    crate = sys.argv[1]
    dear = dear_goals(crate, float(sys.argv[2]) if len(sys.argv) == 3 else 0.9)
    if not dear:
        print(f"{crate}: no goal without an answer takes so many steps")
        return 0
    files = {function: Answers(crate, function) for function, _ in dear}
    for function, goal in dear:
        generic = re.search(r"^\S+ g c\b", files[function].old or "", re.MULTILINE)
        files[function].tried[goal] = "g c" if generic else "c"
    try_all(crate, files)
    now = goals.goals(crate)
    saved = 0
    for function, file in files.items():
        for goal in list(file.tried):
            steps = now.get((function, "Answers", goal), dear[function, goal])
            if steps > KEPT * dear[function, goal]:
                del file.tried[goal]
            else:
                saved += dear[function, goal] - steps
        file.write()
    _, proved = check(crate)
    print(f"{crate}: {sum(len(it.tried) for it in files.values())} of {len(dear)} goals answered, {saved / 1e6:.1f} million steps less")
    return 0 if proved else 1


if __name__ == "__main__":
    sys.exit(main())
