# SPDX-License-Identifier: Apache-2.0
"""The program trapsheet: sheets of any size, by the rule of a page."""
from math import gcd

from .pages import assemble, judged_job, read_job, read_plate
from .plates import PAGE, SHEET
from .refusals import sheet_refusal, usage
from .reports import report
from .rule import rule_of
from .words import NoCommand, named_plates, number
from .writing import write_file, write_page, write_side_by_side

LONGEST_STEP = 2048
# A point in ten-thousandths, 72 of which are an inch; and how far from the origin a vertex may be.
POINT, FARTHEST = 10000, 1000000 * 10000


def run(words, outside):
    """The number of workers is judged, and changes nothing of what comes out."""
    try:
        job, report_name, names, inputs, outputs = command(words)
    except NoCommand:
        raise usage("trapsheet")
    judged = judged_job(read_job(outside, job))
    plates = [read_plate(outside, name, number, SHEET) for number, name in enumerate(inputs)]
    page = assemble(judged, plates, names, SHEET)
    streams = judge_sheet(page)
    rule = rule_of(page)
    new = rule.new_planes()
    if streams:
        write_side_by_side(outside, outputs, plates, new)
        write_file(outside, report_name, report(rule, new).encode("ascii"), "report")
    else:
        write_page(outside, outputs, report_name, plates, new, report(rule, new))


def command(words):
    """WORKERS JOB REPORT NAME:IN:OUT ...: no file that is written may be one that is read."""
    if len(words) < 4:
        raise NoCommand()
    number(words[0], 1, 64)
    job, report_name = words[1:3]
    names, inputs, outputs = named_plates(words[3:], report_name)
    if {job, *inputs} & {report_name, *outputs}:
        raise NoCommand()
    return job, report_name, names, inputs, outputs


def judge_sheet(page):
    """Whether the sheet streams, which it does cut into strips of windows: its zones may not be too far, and it needs a short step. One
    within a page's limits is else trapped as a page, and a larger one is refused."""
    fault = cut_fault(page)
    samples = page.width * page.height * len(page.planes)
    if fault and (max(page.width, page.height) > PAGE.side or samples > PAGE.samples):
        raise sheet_refusal(fault)
    return fault is None


def cut_fault(page):
    """Why a sheet cannot be cut, if it can't."""
    sides = [72 * POINT * side // page.resolution if page.resolution else 0 for side in (page.width, page.height)]
    for which, zone in enumerate(page.zones):
        for path in zone.path:
            for vertex in path:
                if any(abs(coordinate) + side > FARTHEST for coordinate, side in zip(vertex, sides)):
                    return "Far in zone %d" % which
    if len(page.zones) > 1 and page.resolution // gcd(page.resolution, 72 * POINT) > LONGEST_STEP:
        return "Uncut"
    return None
