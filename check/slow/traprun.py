# SPDX-License-Identifier: Apache-2.0
"""The program traprun: jobs of many pages, one `showpage` for each; a plate file has one image for each page.

The tokens and objects of the whole job are judged first, then whether it has a `showpage`, ends with one, and has no
more than 256. Each page is then read, trapped and written by itself, before the next. What `setpagedevice` and
`settrapparams` set goes on from page to page; paths and zones do not.
"""
import re

from .jobs import LONGEST_JOB
from .objects import objects_of
from .outside import ReadFault
from .pages import assemble, judged_job, read_job
from .plates import image
from .refusals import (JOB, PAGE, JobFault, PlateFault, Refusal, job_refusal, plate_refusal, read_refusal, usage)
from .reports import report
from .rule import rule_of
from .tokens import tokens_of
from .words import NoCommand, named_plates, number
from .writing import write_page

MOST_PAGES = 256


def run(words, outside):
    try:
        command = command_of(words)
    except NoCommand:
        raise usage("traprun")
    command(outside)


def command_of(words):
    """WORKERS BAND JOB REPORT NAME:IN:OUT ... No input may be a file that some page could write."""
    if len(words) < 5:
        raise NoCommand()
    number(words[0], 1, 64)
    number(words[1], 1, 4096)
    job, report_name = words[2:4]
    names, inputs, outputs = named_plates(words[4:], report_name)
    for written in outputs + [report_name]:
        if any(re.fullmatch(re.escape(written) + r"\.[0-9]+", name, re.S) for name in [job] + inputs):
            raise NoCommand()
    return lambda outside: trap_pages(outside, job, report_name, names, inputs, outputs)


def trap_pages(outside, job, report_name, names, inputs, outputs):
    """Page after page: reads, traps and writes. Behind the last page no plate may have another image."""
    data = read_job(outside, job)
    count = page_count(data)
    for page in range(count):
        try:
            trap_one(outside, page, page_text(data, page), names, inputs, outputs, report_name)
        except Refusal as refusal:
            raise Refusal("page %d: %s" % (page, refusal.line), refusal.status)
    for plate, name in enumerate(inputs):
        if read_image(outside, name, plate, count) is not None:
            raise Refusal("run: plate %d: Extra" % plate, PAGE)


def trap_one(outside, page, text, names, inputs, outputs, report_name):
    """One page, whose files have its number at their ends."""
    job = judged_job(text)
    plates = [must_have(read_image(outside, name, plate, page), plate) for plate, name in enumerate(inputs)]
    rule = rule_of(assemble(job, plates, names))
    new = rule.new_planes()
    at_page = ["%s.%d" % (name, page) for name in outputs + [report_name]]
    write_page(outside, at_page[:-1], at_page[-1], plates, new, report(rule, new))


def must_have(plate, number_of_plate):
    if plate is None:
        raise Refusal("plate %d: Ends" % number_of_plate, PAGE)
    return plate


def objects_at_top(data):
    """The objects of the whole job, or its first fault in tokens or objects."""
    if len(data) > LONGEST_JOB:
        raise JobFault("JobTooLong", LONGEST_JOB)
    return objects_of(tokens_of(data))


def is_showpage(thing):
    return thing.kind == "Operator" and thing.value == b"showpage"


def page_count(data):
    """How many pages a job has, or what stands in the way of telling."""
    try:
        objects = objects_at_top(data)
        ends = [place for place, thing in enumerate(objects) if is_showpage(thing)]
        if not ends:
            raise JobFault("NoShowpage", len(data))
        for thing in objects[ends[-1] + 1:]:
            raise JobFault("AfterShowpage", thing.at)
    except JobFault as fault:
        raise job_refusal(fault)
    if len(ends) > MOST_PAGES:
        raise Refusal("run: TooManyPages at %d" % objects[ends[MOST_PAGES]].at, JOB)
    return len(ends)


def page_text(data, page):
    """The job of one page: the bytes to the end of its `showpage`, with blanks for what earlier pages drew and ended.

    Of the earlier pages' statements those of `setpagedevice` and `settrapparams` stay, so what they set goes on.
    """
    text, passed, first = bytearray(data), 0, None
    for thing in objects_at_top(data):
        first = thing.at if first is None else first
        if thing.kind != "Operator":
            continue
        end = thing.at + len(thing.value)
        if is_showpage(thing) and passed == page:
            return bytes(text[:end])
        statement = first, end
        # Only the statements of earlier pages are blanked: those of this page come after `page` many showpages.
        if passed < page and thing.value not in (b"setpagedevice", b"settrapparams"):
            text[slice(*statement)] = b" " * (end - statement[0])
        passed += is_showpage(thing)
        first = None
    raise AssertionError("the job has such a page")


def read_image(outside, name, plate, page):
    """The image of a page in a plate file, after those of earlier pages; None where the file ends before it."""
    try:
        data = outside.read(name)
    except ReadFault:
        raise read_refusal("plate %d" % plate)
    start = 0
    for which in range(page + 1):
        if start == len(data):
            return None
        try:
            found, length = image(data[start:])
        except PlateFault as fault:
            raise plate_refusal(plate, PlateFault(fault.kind, start + fault.at))
        start += length
    return found
