# SPDX-License-Identifier: Apache-2.0
"""The runs that faults are tried on, of all programs, and what is made of them."""
import programs
from samples import SET, plate

from .case import other_input

CASES = [case for name in programs.NAMES for case in programs.of(name, "FAULTS")]
# These write files in ways that a place on the disk can stand in the way of.
WRITING = [case for name in programs.NAMES for case in programs.of(name, "WRITING")]


def names_of(program):
    """Names of an output of a program, each with whether such a file can be written."""
    return programs.of(program, "NAMES", [])


def other_of(one):
    """The case, and another one over the same files and into the same names, which traps otherwise. No plate is replaced."""
    return programs.of(one.program, "other_of", other_input)(one)


def larger(one):
    """The case with plates of several pages of a disk, and with old files as large."""
    def grown(data):
        if data == SET:
            return SET.replace(b"page 6 1", b"page 60 120")
        if not data.startswith(b"P5"):
            return data
        count = data.count(b"P5")
        return plate(60, 120, data[-6:].hex() * 10) * count
    return one._replace(files={name: grown(data) for name, data in one.files.items()},
                        old={name: data * 400 for name, data in one.old.items()})
