# SPDX-License-Identifier: Apache-2.0
"""Plate files: raw PGM in this project's profile (Netpbm's PGM manual gives the format).

A plate file is a header and a raster. The header is `P5`, a gap, the width, a gap, the height, a gap, the maxval and
one whitespace byte. A gap is one or more whitespace bytes and comments; a comment is `#` up to the next LF or CR and
that byte.
"""
import re
from collections import namedtuple

from .refusals import PlateFault

LONGEST_HEADER = 65536
LONGEST_SIDE = 16384
MOST_SAMPLES = 160000000
GREATEST_MAXVAL = 65535

# The limits of a plate: the samples of a side, and those of all.
Limits = namedtuple("Limits", "side samples")
LONGEST_SHEET_SIDE = 262144
PAGE, SHEET = Limits(LONGEST_SIDE, MOST_SAMPLES), Limits(LONGEST_SHEET_SIDE, LONGEST_SHEET_SIDE ** 2)

Plate = namedtuple("Plate", "width height maxval samples")

WHITE = b" \t\r\n\v\f"
GAP_ITEM = re.compile(rb"[ \t\r\n\v\f]|#[^\r\n]*[\r\n]")
DIGITS = re.compile(rb"[0-9]+")

# A number of a header: its value, the place of its first digit, and the place after its last.
Number = namedtuple("Number", "value first end")


class Prefix:
    """How many bytes may begin a header (`reach`), the numbers among them, and whether they are a whole one.

    The numbers' values and the header's length are not looked at here.
    """

    def __init__(self, data):
        self.data, self.reach, self.numbers = data, 0, []
        numbers = self.is_magic() and all(self.is_gap() and self.is_number() for _ in range(3))
        self.whole = numbers and self.is_one_of(WHITE)

    def is_magic(self):
        return self.is_one_of(b"P") and self.is_one_of(b"5")

    def is_one_of(self, allowed):
        """Whether the next byte is one of these. It then belongs to the prefix."""
        found = self.data[self.reach:self.reach + 1]
        if found and found in allowed:
            self.reach += 1
            return True
        return False

    def is_gap(self):
        """One item or more. A comment that does not end belongs to the prefix, up to the end of the bytes."""
        begun = self.reach
        while item := GAP_ITEM.match(self.data, self.reach):
            self.reach = item.end()
        if self.data[self.reach:self.reach + 1] == b"#":
            self.reach = len(self.data)
            return False
        return self.reach > begun

    def is_number(self):
        digits = DIGITS.match(self.data, self.reach)
        if digits:
            self.numbers.append(Number(value_of(digits.group()), digits.start(), digits.end()))
            self.reach = digits.end()
        return digits is not None


def value_of(digits):
    """The number that the digits spell. One of more than twelve digits is far beyond each limit, whatever its value."""
    return int(digits.lstrip(b"0")[:12] or b"0")


def header_faults(prefix, limits):
    """The faults of a header as (moment, kind, at): a moment is the number of bytes that decide the fault."""
    reach = prefix.reach
    if not prefix.whole and reach < len(prefix.data):
        yield reach + 1, "BadMagic" if reach < 2 else "BadHeader", reach
    for count, number in enumerate(prefix.numbers, 1):
        # A number is judged with the byte after it, where that byte may stand there.
        if number.end < reach:
            yield from number_fault([one.value for one in prefix.numbers[:count]], number.first, number.end + 1, limits)
    # A header that goes on beyond its limit; a number's fault of the same moment comes first.
    if reach >= LONGEST_HEADER and not has_header(prefix):
        yield LONGEST_HEADER, "BadHeader", LONGEST_HEADER


def has_header(prefix):
    return prefix.whole and prefix.reach <= LONGEST_HEADER


def number_fault(values, first, moment, limits):
    """The fault of the last of a header's numbers that have been read."""
    value = values[-1]
    if len(values) < 3 and not 1 <= value <= limits.side:
        yield moment, "SideRange", first
    elif len(values) == 2 and values[0] * value > limits.samples:
        yield moment, "TooManySamples", first
    elif len(values) == 3 and not 1 <= value <= GREATEST_MAXVAL:
        yield moment, "MaxvalRange", first


def image(data, limits=PAGE):
    """The plate that the bytes begin with, and how many bytes spell it; else the first fault that they have."""
    prefix = Prefix(data)
    faults = list(header_faults(prefix, limits))
    plate, end = None, None
    if has_header(prefix) and not faults:
        width, height, maxval = (number.value for number in prefix.numbers)
        start, size = prefix.reach, 1 if maxval < 256 else 2
        samples = samples_of(data[start:start + width * height * size], size)
        for place, sample in enumerate(samples if max(samples, default=0) > maxval else ()):
            if sample > maxval:
                faults.append((start + size * (place + 1), "SampleAboveMaxval", start + size * place))
        if len(samples) == width * height:
            plate, end = Plate(width, height, maxval, samples), start + size * len(samples)
    if plate is None:
        faults.append((len(data) + 1, "Truncated", len(data)))
    if faults:
        _, kind, at = min(faults, key=lambda fault: fault[0])
        raise PlateFault(kind, at)
    return plate, end


def samples_of(raster, size):
    """The whole samples of a raster, each of one byte, or of two with the most significant first."""
    if size == 1:
        return raster
    return [high << 8 | low for high, low in zip(raster[0::2], raster[1::2])]


def plate_of(data, limits=PAGE):
    """The plate that a file spells, or its first fault."""
    plate, end = image(data, limits)
    if end < len(data):
        raise PlateFault("TrailingBytes", end)
    return plate


def spelled(plate):
    """The one canonical spelling of a plate."""
    size = 1 if plate.maxval < 256 else 2
    raster = b"".join(sample.to_bytes(size, "big") for sample in plate.samples)
    return b"P5\n%d %d\n%d\n" % (plate.width, plate.height, plate.maxval) + raster


def tints_of(plate):
    """Sample 0 is black and the maxval is white, so a tint is `maxval - sample`."""
    return [plate.maxval - sample for sample in plate.samples]


def plate_with(plate, tints):
    """The plate of the same shape with these tints."""
    return plate._replace(samples=[plate.maxval - tint for tint in tints])
