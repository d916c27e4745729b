# SPDX-License-Identifier: Apache-2.0
"""What the entries of a dictionary before `settrapparams` or `setpagedevice` may be, and their first misfit."""
from collections import namedtuple

from . import tables
from .objects import last_entries
from .refusals import JobFault
from .tables import S

LONGEST_NAME = 64

# In ten-thousandths, judged after cutting.
PARAMETERS, DEFAULTS = tables.parameters()

Ink = namedtuple("Ink", "density kind")
KINDS = tables.kinds()


def text(name):
    """A name's bytes as a text of as many characters, to compare it with a plate's name."""
    return name.decode("latin-1")


def judge_parameter(key, value):
    """The value of a parameter, or its fault at the value."""
    parameter = PARAMETERS[key]
    if value.kind != ("Boolean" if parameter is None else "Number"):
        raise JobFault("WrongKind", value.at, key)
    if parameter is not None and not parameter.least <= value.value <= parameter.greatest:
        raise JobFault("OutOfRange", value.at, key)
    return value.value


def parameters_in(dictionary):
    """The parameters that a dictionary before `settrapparams` names."""
    return {text(key): judge_parameter(text(key), value)
            for key, value in last_entries(dictionary) if text(key) in PARAMETERS}


def limits_in(dictionary):
    """The step limits by colorant that ColorantZoneDetails names, or None where there is no such entry."""
    for key, value in last_entries(dictionary):
        if key == b"ColorantZoneDetails":
            judged = {text(name): limit_in(entry) for name, entry in dictionary_entries(value)}
            return {name: limit for name, limit in judged.items() if limit is not None and len(name) <= LONGEST_NAME}
    return None


def limit_in(value):
    """The StepLimit of one colorant, None where its dictionary has none."""
    limits = [judge_parameter("StepLimit", entry)
              for key, entry in dictionary_entries(value) if key == b"StepLimit"]
    return limits[0] if limits else None


def dictionary_entries(value):
    """The last entries of a value that has to be a dictionary."""
    if value.kind != "Dict":
        raise JobFault("NotDictionary", value.at)
    return last_entries(value)


def settrapparams_in(dictionary):
    """What `settrapparams` sets: parameters, and limits or None. Of two faults that with the lesser offset is told."""
    found, faults = [], []
    for part in (parameters_in, limits_in):
        try:
            found.append(part(dictionary))
        except JobFault as fault:
            faults.append(fault)
    if faults:
        raise min(faults, key=lambda fault: fault.at)
    return found


def resolution_in(value):
    """HWResolution: an array of two equal whole numbers from 1 to 10,000."""
    items = value.value if value.kind == "Array" else []
    if len(items) != 2 or any(item.kind != "Number" for item in items):
        raise JobFault("BadResolution", value.at)
    across, down = items[0].value, items[1].value
    if across != down or across % S != 0 or not S <= across <= 10000 * S:
        raise JobFault("BadResolution", value.at)
    return across // S


def trapping_in(value):
    if value.kind != "Boolean":
        raise JobFault("WrongKind", value.at, "Trapping")
    return value.value


def inks_in(details):
    """TrappingDetails: the inks by name."""
    inks, has_type = {}, False
    for key, value in dictionary_entries(details):
        if key == b"Type":
            has_type = True
            if (value.kind, value.value) != ("Number", 1001 * S):
                raise JobFault("WrongType", value.at)
        elif key == b"ColorantDetails":
            inks = {text(name): ink_in(entry) for name, entry in dictionary_entries(value)}
    if not has_type:
        raise JobFault("MissingKey", details.at)
    return inks


def ink_in(details):
    """One colorant's dictionary."""
    density, kind = None, "Normal"
    for key, value in dictionary_entries(details):
        if key == b"NeutralDensity":
            if value.kind != "Number" or not 10 <= value.value <= 10 * S:
                raise JobFault("BadDensity", value.at)
            density = value.value
        elif key == b"ColorantType":
            if value.kind != "Literal" or text(value.value) not in KINDS:
                raise JobFault("BadKind", value.at)
            kind = text(value.value)
    if density is None:
        raise JobFault("MissingKey", details.at)
    return Ink(density, kind)


# The entries of `setpagedevice` that mean something, each with its judge.
DEVICE = {b"HWResolution": resolution_in, b"Trapping": trapping_in, b"TrappingDetails": inks_in}


def setpagedevice_in(dictionary):
    """What `setpagedevice` sets, by key."""
    return {text(key): DEVICE[key](value) for key, value in last_entries(dictionary) if key in DEVICE}
