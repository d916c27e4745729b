# SPDX-License-Identifier: Apache-2.0
"""Jobs: the statements of a job, what is in force at each of them, and the first fault."""
from collections import namedtuple

from .entries import DEFAULTS, setpagedevice_in, settrapparams_in
from .objects import objects_of
from .paths import Path
from .refusals import JobFault
from .tokens import tokens_of

LONGEST_JOB = 1048576
MOST_ZONES = 250
MOST_ZONE_VERTICES = 16384

# A zone's parameters by name, its path as a list of subpaths, and its step limits by colorant.
Zone = namedtuple("Zone", "params path limits")
# `resolution` is 0 where none was set; zone 0 comes first; `details` are the inks by name.
Job = namedtuple("Job", "resolution zones details")

OPERANDS = {
    b"setpagedevice": ["Dict"], b"settrapparams": ["Dict"],
    b"newpath": [], b"closepath": [], b"settrapzone": [], b"showpage": [],
    b"moveto": ["Number"] * 2, b"lineto": ["Number"] * 2, b"rmoveto": ["Number"] * 2, b"rlineto": ["Number"] * 2,
}


def job_of(data):
    """The job that the bytes mean, or their first fault: tokens first, then objects, then statements."""
    if len(data) > LONGEST_JOB:
        raise JobFault("JobTooLong", LONGEST_JOB)
    return Statements().all(objects_of(tokens_of(data)), len(data))


class Statements:
    """The statements so far. What is in force is sought among them, from the last one back."""

    def __init__(self):
        self.params, self.devices, self.path, self.zones, self.job = [], [], Path(), [], None

    def all(self, objects, length):
        """The job of a list of objects at the top."""
        operands = []
        for thing in objects:
            if self.job is not None:
                raise JobFault("AfterShowpage", thing.at)
            if thing.kind != "Operator":
                operands.append(thing)
                continue
            self.statement(operands, thing)
            operands = []
        if self.job is None:
            raise JobFault("NoShowpage", length)
        return self.job

    def statement(self, operands, operator):
        """One statement, with exactly the operands of its operator."""
        if operator.value not in OPERANDS:
            raise JobFault("UnknownOperator", operator.at)
        if [operand.kind for operand in operands] != OPERANDS[operator.value]:
            raise JobFault("WrongOperands", operator.at)
        if operator.value == b"setpagedevice":
            self.devices.append(setpagedevice_in(operands[0]))
        elif operator.value == b"settrapparams":
            self.params.append(settrapparams_in(operands[0]))
        elif operator.value == b"newpath":
            self.path = Path()
        elif operator.value == b"closepath":
            self.path.close()
        elif operator.value == b"settrapzone":
            self.settrapzone(operator.at)
        elif operator.value == b"showpage":
            self.showpage(operator.at)
        else:
            self.path.draw(operator.value, operands[0].value, operands[1].value, operator.at)

    def parameters(self):
        """The parameters in force: of each the value in the last dictionary that names it, else its default."""
        return {key: last([found[key] for found, _ in self.params if key in found], default)
                for key, default in DEFAULTS.items()}

    def limits(self):
        """The limits in force: those of the last dictionary that has ColorantZoneDetails, else none."""
        return last([found for _, found in self.params if found is not None], {})

    def device(self, key, default):
        """What is in force of `setpagedevice`."""
        return last([found[key] for found in self.devices if key in found], default)

    def settrapzone(self, at):
        """The next zone: the path, with the parameters and the limits in force."""
        if len(self.zones) == MOST_ZONES:
            raise JobFault("TooManyZones", at)
        vertices = sum(len(subpath) for zone in self.zones for subpath in zone.path)
        if vertices + self.path.vertices() > MOST_ZONE_VERTICES:
            raise JobFault("TooManyVertices", at)
        self.zones.append(Zone(self.parameters(), self.path.subpaths, self.limits()))
        self.path = Path()

    def showpage(self, at):
        """The end: zone 0 is the whole page where no zone was made, and else what no zone covers, disabled."""
        zones = [Zone(self.parameters(), [], self.limits())] + self.zones
        if self.zones:
            zones[0] = disabled(zones[0])
        if not self.device("Trapping", True):
            zones = [disabled(zone) for zone in zones]
        resolution = self.device("HWResolution", 0)
        if resolution == 0 and (self.zones or zones[0].params["Enabled"]):
            raise JobFault("NoPageDevice", at)
        self.job = Job(resolution, zones, self.device("TrappingDetails", {}))


def last(found, default):
    return found[-1] if found else default


def disabled(zone):
    return zone._replace(params=dict(zone.params, Enabled=False))
