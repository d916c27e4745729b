# SPDX-License-Identifier: Apache-2.0
"""Refusals: each has the line that is told and the status that the program ends with."""
from table import USAGES

USAGE, JOB, PAGE, READ, WRITE, SET, LINES = 2, 3, 4, 5, 6, 8, 9


class Refusal(Exception):
    """The program ends with this status and tells this line."""

    def __init__(self, line, status):
        super().__init__(line)
        self.line, self.status = line, status


class JobFault(Exception):
    """A job's first fault: its kind, its offset, and for a parameter's fault the parameter."""

    def __init__(self, kind, at, key=None):
        super().__init__(kind, at, key)
        self.kind, self.at, self.key = kind, at, key


class PlateFault(Exception):
    """A plate file's first fault: its kind and its offset."""

    def __init__(self, kind, at):
        super().__init__(kind, at)
        self.kind, self.at = kind, at


def usage(program):
    """The refusal of arguments: the usage line of the table of programs."""
    return Refusal("usage: " + USAGES[program], USAGE)


def job_refusal(fault):
    """`job: KIND at AT`, or with the parameter's name between."""
    named = fault.kind if fault.key is None else fault.kind + " " + fault.key
    return Refusal("job: %s at %d" % (named, fault.at), JOB)


def no_details(plate):
    return Refusal("job: NoDetails for plate %d" % plate, JOB)


def plate_refusal(plate, fault):
    return Refusal("plate %d: %s at %d" % (plate, fault.kind, fault.at), PAGE)


def page_refusal(what):
    return Refusal("page: " + what, PAGE)


def sheet_refusal(what):
    return Refusal("sheet: " + what, PAGE)


def read_refusal(what):
    return Refusal("read fault: " + what, READ)


def write_refusal(what):
    return Refusal("write fault: " + what, WRITE)
