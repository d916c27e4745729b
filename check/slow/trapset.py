# SPDX-License-Identifier: Apache-2.0
"""The program trapset: trap sets, which hold the traps alone as runs of samples with their new tints.

A set file is these lines, each ended by LF, with single spaces and numbers without leading zeros: `trap set`;
`page W H M plates N`; for each run `run Y X L`, its row, first sample and length, and then a tint for each plate;
`end`. Runs ascend by row and place, lie within the page and do not overlap. A line is bad where no set has it after
the lines before it. Whether the set is for the plates at hand is judged once its second line is known to be good.
"""
import re
from collections import namedtuple

from .pages import gather, read_file, read_plate
from .plates import GREATEST_MAXVAL, LONGEST_SIDE, MOST_SAMPLES, tints_of
from .refusals import SET, Refusal
from .rule import rule_of
from .words import MOST_PLATES, judge_distinct, judge_names, many, run_command
from .writing import write_file, write_plates

LONGEST_LINE = 160

NUMBER = rb"(0|[1-9][0-9]*)"
PAGE_LINE = re.compile(rb"page " + NUMBER + rb" " + NUMBER + rb" " + NUMBER + rb" plates " + NUMBER)

# The four numbers of a set's second line, and a run: row, first sample, length, and a tint for each plate.
Shape = namedtuple("Shape", "width height maxval plates")
Run = namedtuple("Run", "row first length tints")


def run(words, outside):
    run_command("trapset", {"traps": traps_command, "apply": apply_command}, words, outside)


def traps_command(words):
    """JOB SET NAME:IN ..."""
    names, inputs = many(words[2:], 2)
    judge_names(names)
    return lambda outside: write_traps(outside, words[0], words[1], names, inputs)


def write_traps(outside, job, set_name, names, inputs):
    page, _ = gather(outside, job, names, inputs)
    new = rule_of(page).new_planes()
    shape = Shape(page.width, page.height, page.maxval, len(new))
    write_file(outside, set_name, set_text(shape, page.planes, new), "set")


def apply_command(words):
    """SET IN:OUT ..."""
    inputs, outputs = many(words[1:], 2)
    judge_distinct(outputs)
    return lambda outside: apply_set(outside, words[0], inputs, outputs)


def apply_set(outside, set_name, inputs, outputs):
    """Reads the plates, applies the set, and then writes."""
    plates = [read_plate(outside, name, number) for number, name in enumerate(inputs)]
    runs = runs_of(read_file(outside, set_name, "set"), plates)
    write_plates(outside, outputs, plates, applied(runs, plates[0].width, [tints_of(plate) for plate in plates]))


def applied(runs, width, planes):
    """The planes with each run's tints on the samples that it covers."""
    planes = [list(tints) for tints in planes]
    for one in runs:
        start = one.row * width + one.first
        for plate, tint in enumerate(one.tints):
            planes[plate][start:start + one.length] = [tint] * one.length
    return planes


def set_text(shape, old, new):
    """The set of what changed: the longest runs of changed neighbours in a row with the same new tints."""
    lines = ["trap set", "page %d %d %d plates %d" % shape]
    for row in range(shape.height):
        for one in row_runs(shape, row, old, new):
            lines.append("run %d %d %d " % one[:3] + " ".join(map(str, one.tints)))
    return "".join(line + "\n" for line in lines + ["end"]).encode("ascii")


def row_runs(shape, row, old, new):
    """The runs of one row."""
    runs = []
    for x in range(shape.width):
        place = row * shape.width + x
        before, after = (tuple(tints[place] for tints in planes) for planes in (old, new))
        if before == after:
            continue
        if runs and runs[-1].first + runs[-1].length == x and runs[-1].tints == after:
            runs[-1] = runs[-1]._replace(length=runs[-1].length + 1)
        else:
            runs.append(Run(row, x, 1, after))
    return runs


def runs_of(data, plates):
    """The runs of a set for these plates; or the first line that is bad, or that the set is another page's."""
    lines = data.split(b"\n")
    shape, runs = None, []
    for number, line in enumerate(lines, 1):
        # What stands after the last line feed is no line, and a set that is cut lacks a line there.
        if number == len(lines) or len(line) > LONGEST_LINE:
            bad_line(number)
        if number == 1:
            line == b"trap set" or bad_line(number)
        elif number == 2:
            shape = page_line(line) or bad_line(number)
            if not fits(shape, plates):
                raise Refusal("set: Differs", SET)
        elif line == b"end":
            return runs if lines[number:] == [b""] else bad_line(number + 1)
        else:
            runs.append(run_line(line, shape, runs[-1:]) or bad_line(number))


def bad_line(number):
    raise Refusal("set: BadLine %d" % number, SET)


def page_line(line):
    """The shape that a page line tells, or None where it is none."""
    found = PAGE_LINE.fullmatch(line)
    if not found:
        return None
    width, height, maxval, plates = shape = Shape(*map(int, found.groups()))
    in_range = (1 <= width <= LONGEST_SIDE and 1 <= height <= LONGEST_SIDE and 1 <= maxval <= GREATEST_MAXVAL
                and 1 <= plates <= MOST_PLATES and width * height * plates <= MOST_SAMPLES)
    return shape if in_range else None


def run_line(line, shape, before):
    """The run that a line tells, or None where it is none or does not stand after the run before it."""
    if not re.fullmatch(rb"run " + NUMBER + rb"(?: " + NUMBER + rb")+", line):
        return None
    numbers = list(map(int, line.split(b" ")[1:]))
    if len(numbers) != 3 + shape.plates:
        return None
    one = Run(*numbers[:3], tuple(numbers[3:]))
    free = [(last.row, last.first + last.length) for last in before] or [(0, 0)]
    fits_in = one.row < shape.height and one.length >= 1 and one.first + one.length <= shape.width
    return one if fits_in and max(one.tints) <= shape.maxval and (one.row, one.first) >= free[0] else None


def fits(shape, plates):
    """Whether a set's shape is that of the plates."""
    return shape.plates == len(plates) and all(
        (plate.width, plate.height, plate.maxval) == shape[:3] for plate in plates)
