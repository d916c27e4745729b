# SPDX-License-Identifier: Apache-2.0
"""The page that a job and its plates make.

The job's fault comes first, then that of each plate in order, then a plate without details where some zone is enabled,
then a plate of another size or maxval than plate 0, then too many samples, then a zone that reaches too far.
"""
from .entries import S, Ink
from .jobs import LONGEST_JOB, job_of
from .outside import ReadFault
from .plates import PAGE, plate_of, tints_of
from .refusals import JobFault, PlateFault, job_refusal, no_details, page_refusal, plate_refusal, read_refusal

WIDEST_REACH = 256


class Page:
    """Sides, maxval, resolution; for each plate its tints row after row, its colorant's name and its ink; the zones."""

    def __init__(self, width, height, maxval, resolution, planes, names, inks, zones):
        self.width, self.height, self.maxval, self.resolution = width, height, maxval, resolution
        self.planes, self.names, self.inks, self.zones = planes, names, inks, zones
        self.plates = range(len(planes))

    def samples(self):
        """All samples, row after row from the top."""
        return [(x, y) for y in range(self.height) for x in range(self.width)]

    def tint(self, plate, sample):
        return self.planes[plate][sample[1] * self.width + sample[0]]

    def reach(self):
        """The greatest reach of the enabled zones, in half-samples, 0 where there is none."""
        return max([zone_reach(zone, self.resolution) for zone in self.zones if zone.params["Enabled"]], default=0)


def zone_reach(zone, resolution):
    """How far an edge can trap: the trap width, or the black width where that is more, in half-samples."""
    factor = max(zone.params["BlackWidth"], S)
    return zone.params["TrapWidth"] * factor * resolution // (36 * S * S)


def assemble(job, plates, names, limits=PAGE):
    """The page, or its first refusal: a colorant without details, then plates and zones that make no page."""
    trapping = any(zone.params["Enabled"] for zone in job.zones)
    for number, name in enumerate(names):
        if trapping and name not in job.details:
            raise no_details(number)
    judge_shapes(plates, limits)
    for number, zone in enumerate(job.zones):
        if zone.params["Enabled"] and zone_reach(zone, job.resolution) > WIDEST_REACH:
            raise page_refusal("ReachTooWide zone %d" % number)
    first = plates[0]
    inks = [job.details.get(name, Ink(S, "Normal")) for name in names]
    return Page(first.width, first.height, first.maxval, job.resolution, [tints_of(plate) for plate in plates], names,
                inks, job.zones)


def judge_shapes(plates, limits):
    """All plates have the sides and the maxval of plate 0, and those of a page together not too many samples."""
    first = plates[0]
    for number, plate in enumerate(plates):
        if (plate.width, plate.height) != (first.width, first.height):
            raise page_refusal("SizeDiffers plate %d" % number)
        if plate.maxval != first.maxval:
            raise page_refusal("MaxvalDiffers plate %d" % number)
    if limits is PAGE and first.width * first.height * len(plates) > PAGE.samples:
        raise page_refusal("TooManySamples")


def read_file(outside, name, what):
    """The bytes of a file; a read fault is told as that of `what`."""
    try:
        return outside.read(name)
    except ReadFault:
        raise read_refusal(what)


def read_job(outside, name):
    """The bytes of the job's file, of which no more are looked at than show that it is too long."""
    return read_file(outside, name, "job")[:LONGEST_JOB + 1]


def judged_job(data):
    try:
        return job_of(data)
    except JobFault as fault:
        raise job_refusal(fault)


def read_plate(outside, name, number, limits=PAGE):
    data = read_file(outside, name, "plate %d" % number)
    try:
        return plate_of(data, limits)
    except PlateFault as fault:
        raise plate_refusal(number, fault)


def gather(outside, job, names, inputs):
    """The page of a job's file and its plates' files: the job first, then each plate in order, then what they make."""
    judged = judged_job(read_job(outside, job))
    plates = [read_plate(outside, name, number) for number, name in enumerate(inputs)]
    return assemble(judged, plates, names), plates
