# SPDX-License-Identifier: Apache-2.0
"""What is written: the plates of a trapped page, and its report."""
from .outside import WriteFault
from .plates import plate_with, spelled
from .refusals import write_refusal


def write_file(outside, name, data, what):
    """Writes a file; a write fault is told as that of `what`."""
    try:
        outside.write(name, data)
    except WriteFault:
        raise write_refusal(what)


def write_plates(outside, names, plates, planes):
    """Writes the plates, with new tints, in order."""
    for number, (name, plate, tints) in enumerate(zip(names, plates, planes)):
        write_file(outside, name, spelled(plate_with(plate, tints)), "plate %d" % number)


def write_side_by_side(outside, names, plates, planes):
    """Writes the plates, with new tints, side by side: all stand, none, or those before one whose name can't be taken."""
    files = [(name, spelled(plate_with(plate, tints))) for name, plate, tints in zip(names, plates, planes)]
    try:
        outside.write_together(files)
    except WriteFault as fault:
        raise write_refusal("plate %d" % names.index(fault.args[0]))


def write_page(outside, names, report_name, plates, planes, report):
    """Writes the plates and then the report."""
    write_plates(outside, names, plates, planes)
    write_file(outside, report_name, report.encode("ascii"), "report")
