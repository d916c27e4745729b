# SPDX-License-Identifier: Apache-2.0
"""The program presscheck: how many samples misregister could leave bare, before and after trapping.

A sample is at risk where it has ink and each plate, shifted by itself by at most the radius along both axes, can bring
a sample without ink there.
"""
from .pages import gather
from .refusals import usage
from .rule import rule_of
from .words import NoCommand, judge_names, many, number


def run(words, outside):
    try:
        radius, job, names, inputs = command_of(words)
    except NoCommand:
        raise usage("presscheck")
    page, _ = gather(outside, job, names, inputs)
    before = risk(page, page.planes, radius)
    after = risk(page, rule_of(page).new_planes(), radius)
    outside.tell("press check\nradius %d\nbefore %d\nafter %d\nend\n" % (radius, before, after))


def command_of(words):
    """RADIUS JOB NAME:IN ..."""
    if len(words) < 3:
        raise NoCommand()
    radius = number(words[0], 0, 16)
    names, inputs = many(words[2:], 2)
    judge_names(names)
    return radius, words[1], names, inputs


def risk(page, planes, radius):
    """How many samples are at risk."""
    return sum(is_at_risk(page, planes, radius, sample) for sample in page.samples())


def is_at_risk(page, planes, radius, sample):
    """Some plate has ink on the sample, and each plate, shifted by itself, can leave it bare."""
    x, y = sample
    inked = any(tints[y * page.width + x] > 0 for tints in planes)
    return inked and all(can_be_bare(page, tints, radius, sample) for tints in planes)


def can_be_bare(page, tints, radius, sample):
    """Whether a shift of at most the radius along both axes brings a sample of the page without ink here."""
    columns = shifts(sample[0], radius, page.width)
    rows = shifts(sample[1], radius, page.height)
    return any(tints[row * page.width + column] == 0 for row in rows for column in columns)


def shifts(place, radius, side):
    """The places within the radius that lie on the page."""
    return [place + shift for shift in range(-radius, radius + 1) if 0 <= place + shift < side]
