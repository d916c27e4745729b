# SPDX-License-Identifier: Apache-2.0
"""The tables of docs/JOBS.md that the second program goes by: the trapping parameters with their ranges and defaults, and the
kinds of ink with what they do.
"""
import os
import re
from collections import namedtuple

S = 10000
DOCUMENT = os.path.join(os.path.dirname(os.path.abspath(__file__)), "..", "..", "docs", "JOBS.md")

Parameter = namedtuple("Parameter", "least greatest default")
Kind = namedtuple("Kind", "counts spreads shuts")


def rows_of(document, first):
    """The rows of the table whose header begins with these cells, each as its cells without marks of code."""
    with open(document, encoding="utf-8") as file:
        lines = [[cell.strip().strip("`") for cell in line.strip().strip("|").split("|")] for line in file]
    starts = [at for at, cells in enumerate(lines) if cells[:len(first)] == first]
    assert len(starts) == 1, f"{document}: the table of {first} stands {len(starts)} times"
    at = starts[0] + 2
    while len(lines[at]) > 1:
        yield lines[at]
        at += 1


def in_ten_thousandths(text):
    return round(float(text) * S)


def parameter_of(text, default):
    """What a number may be: the range as it is written, with both ends or from above 0 on."""
    found = re.fullmatch(r"(?:(above 0,)|([0-9.]+)) to ([0-9.]+)", text)
    least = 1 if found.group(1) else in_ten_thousandths(found.group(2))
    return Parameter(least, in_ten_thousandths(found.group(3)), in_ten_thousandths(default))


def parameters(document=DOCUMENT):
    """The trapping parameters by name, in ten-thousandths, None for one that is true or false; and their defaults."""
    found, defaults = {}, {}
    for name, _, numbers, default, *_ in rows_of(document, ["Entry", "Unit", "Range", "Default"]):
        found[name] = parameter_of(numbers, default) if numbers else None
        defaults[name] = found[name].default if numbers else default == "true"
    return found, defaults


def kinds(document=DOCUMENT):
    """The kinds of ink by name."""
    head = ["ColorantType", "Counts as density", "Is spread by traps", "Keeps traps away"]
    return {name.strip("/"): Kind(counts == "yes", spreads == "yes", shuts == "yes")
            for name, counts, spreads, shuts, *_ in rows_of(document, head)}
