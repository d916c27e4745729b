# SPDX-License-Identifier: Apache-2.0
"""What the tests of each program run on: a module for each row of programs.txt, by the program's name.

    make(rng)            the arguments and the files of a random case
    LINES                the lines that random cases are to meet
    REFUSED              the runs in which each request for memory is refused: arguments and files
    FAULTS, WRITING      the runs in which calls of the system fail, and those of them in whose way something on the disk may be

A module may have more, in place of what holds for most programs:

    MEMORY_LINES         the lines of a run that wants memory
    keeps_earlier_pages  whether a run that wanted memory may leave what it has written
    other_of(case)       the case, and another one over the same files and into the same names
    NAMES                names of an output, each with whether such a file can be written
"""
import importlib

from table import NAMES

MODULES = {name: importlib.import_module("programs." + name) for name in NAMES}


def of(program, name, usual=None):
    """What the module of a program has by that name, or what is usual."""
    return getattr(MODULES[program], name, usual)
