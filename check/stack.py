#!/usr/bin/env python3
# SPDX-License-Identifier: Apache-2.0
"""Runs the built programs with little stack where they need most of it: sixteen plates, 64 workers, and refusals.

stack.py              each run has to end with its status with 1,280 KB of stack a thread, as by `ulimit -s 1280`
stack.py --measure    prints how much stack the first thread of each program and its other threads use (it needs cc)

A worker gets as much stack as the system's limit says, so the limit tries the workers too.
"""
import argparse
import os
import random
import resource
import subprocess
import sys
import tempfile
from dataclasses import dataclass
from pathlib import Path
from typing import Dict, Iterator, List, Tuple

HERE = Path(__file__).resolve().parent
CRATES = HERE.parent / "crates"
LIMIT = 1280 * 1024
INKS = [f"Ink{k}" for k in range(16)]
WIDTH, HEIGHT = 96, 80


@dataclass(frozen=True)
class Run:
    """A run of a program: its arguments, and the status that it has to end with."""

    program: str
    arguments: Tuple[str, ...]
    status: int


def plate(seed: int) -> bytes:
    """A plate of random samples, none of them between the ends."""
    samples = random.Random(seed)
    return b"P5\n%d %d\n255\n" % (WIDTH, HEIGHT) + bytes(samples.choice((0, 255)) for _ in range(WIDTH * HEIGHT))


def job() -> str:
    """A job of sixteen inks and sixty zones."""
    details = " ".join(f"/{ink} <</NeutralDensity 0.{10 + 5 * k}>>" for k, ink in enumerate(INKS))
    square = "{0} {0} moveto {1} {0} lineto {1} {1} lineto {0} {1} lineto closepath settrapzone"
    zones = "\n".join(square.format(z / 8, z / 8 + 4) for z in range(60))
    inks = f"/TrappingDetails <</Type 1001 /ColorantDetails <<{details}>> >>"
    return (f"<</HWResolution [600 600] {inks} >> setpagedevice\n"
            f"<</TrapWidth 0.5>> settrapparams\n{zones}\nshowpage\n")


def files() -> Dict[str, bytes]:
    """The files that the runs begin with."""
    held = {f"{ink}.pgm": plate(k) for k, ink in enumerate(INKS)}
    held["short.pgm"] = held["Ink0.pgm"][:-1]
    held["job"] = job().encode()
    held["bad"] = held["job"][:-20]
    words = " ".join(f"{ink}:{ink}.pgm:{{0}}.{ink}.pgm" for ink in INKS)
    held["list"] = "".join(f"job {k}.report {words.format(k)}\n" for k in range(20)).encode()
    return held


def pages(program: str, first: Tuple[str, ...]) -> Iterator[Run]:
    """The runs of a program that writes a page: done, and refused for its words, its job, a plate, a missing file."""
    outs = [f"{ink}:{ink}.pgm:{program}.{ink}.pgm" for ink in INKS]
    for name, words, status in (("job", outs, 0), ("job", outs + outs, 2), ("bad", outs, 3), ("none", outs, 5),
                                ("job", outs[:-1] + ["Ink15:short.pgm:out.pgm"], 4)):
        yield Run(program, (*first, name, f"{program}.report", *words), status)


def runs() -> List[Run]:
    """All runs, in an order in which a file is written before it is read."""
    inputs = tuple(f"{ink}:{ink}.pgm" for ink in INKS)
    return [
        *pages("trap", ("page", "--workers", "64", "--band", "3")),
        Run("trap", ("page", "--workers"), 2),
        Run("trap", ("sample", "1", "200", "200", "64"), 0),
        *pages("trapsheet", ("64",)),
        *pages("traprun", ("64", "3")),
        Run("trapset", ("traps", "job", "set", *inputs), 0),
        Run("trapset", ("traps", "bad", "other", *inputs), 3),
        Run("trapset", ("apply", "set", *(f"{ink}.pgm:{ink}.again.pgm" for ink in INKS)), 0),
        Run("trapset", ("apply", "job", "Ink0.pgm:out.pgm"), 8),
        Run("presscheck", ("16", "job", *inputs), 0),
        Run("presscheck", ("16", "bad", *inputs), 3),
        *pages("trapkeep", ("--rich-black", "1")),
        *pages("trapkeep", ("--underprint", "Ink0=1")),
        Run("trappool", ("64", "list"), 0),
        Run("trappool", ("64", "bad"), 3),
    ]


def program_file(name: str) -> Path:
    """Where a built program stands."""
    folder = os.environ.get("CHECK_PROGRAMS")
    return Path(folder) / name if folder else CRATES / name / "out" / name


def few() -> None:
    """Gives a run little stack. Called in the child, before the program begins."""
    resource.setrlimit(resource.RLIMIT_STACK, (LIMIT, LIMIT))


def call(run: Run, folder: str) -> int:
    """The status of a run with little stack."""
    ended = subprocess.run([program_file(run.program), *run.arguments], cwd=folder, env={"LC_ALL": "C"},
                           preexec_fn=few, stdout=subprocess.DEVNULL, timeout=180, check=False)
    return ended.returncode


def try_all(built: List[Run], folder: str) -> int:
    """How many runs did not end with their status; each is printed."""
    bad = 0
    for run in built:
        status = call(run, folder)
        if status != run.status:
            print(f"{run.program} {' '.join(run.arguments[:4])} ..: status {status}, and not {run.status}")
            bad += 1
    print(f"{len(built)} runs with {LIMIT // 1024} KB of stack for each thread, {bad} wrong")
    return bad


def measure(built: List[Run], folder: str) -> None:
    """Prints the most stack that each program used, of its first thread and of the others."""
    library, told = os.path.join(folder, "stack.so"), os.path.join(folder, "told")
    subprocess.run(["cc", "-shared", "-fPIC", "-O1", "-o", library, HERE / "stack.c", "-ldl"], check=True)
    most: Dict[str, List[int]] = {}
    for run in built:
        Path(told).write_text("", encoding="utf-8")
        subprocess.run([program_file(run.program), *run.arguments], cwd=folder, timeout=180, check=False,
                       env={"LD_PRELOAD": library, "STACK_TO": told}, stdout=subprocess.DEVNULL)
        words = Path(told).read_text(encoding="utf-8").split()
        found = [int(words[1]), int(words[3])]
        most[run.program] = [max(pair) for pair in zip(most.get(run.program, found), found)]
    for name, (first, worker) in most.items():
        print(f"{name}: {first:,} bytes, {worker:,} in another thread")


def main() -> int:
    """Tries the programs, or measures them."""
    parser = argparse.ArgumentParser(description="Runs the built programs with little stack.")
    parser.add_argument("--measure", action="store_true", help="print how much stack each program uses")
    asked = parser.parse_args()
    built = [run for run in runs() if program_file(run.program).is_file()]
    for name in sorted({run.program for run in runs()} - {run.program for run in built}):
        print(f"{name}: skipped, it is not built")
    with tempfile.TemporaryDirectory() as folder:
        for name, held in files().items():
            Path(folder, name).write_bytes(held)
        if asked.measure:
            measure(built, folder)
            return 0
        return 1 if try_all(built, folder) else 0


if __name__ == "__main__":
    sys.exit(main())
