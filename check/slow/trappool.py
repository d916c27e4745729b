# SPDX-License-Identifier: Apache-2.0
"""The program trappool: a list of jobs, each a line, that are all read before the first is written.

A list has 1 to 256 lines, each ended by LF, and at most 1,048,576 bytes. No output of the whole list stands twice. A
refusal is that of its line alone, and the next line goes on, also where a file could not be written.
"""
from collections import namedtuple

from .pages import gather, read_file
from .refusals import JOB, LINES, Refusal, usage
from .reports import report
from .rule import rule_of
from .words import NoCommand, judge_distinct, named_plates, number
from .writing import write_page

LONGEST_LIST = 1048576
MOST_LINES = 256
MOST_SAMPLES_IN_ALL = 320000000

Line = namedtuple("Line", "job report names inputs outputs")


def run(words, outside):
    try:
        if len(words) != 2:
            raise NoCommand()
        number(words[0], 1, 64)
    except NoCommand:
        raise usage("trappool")
    lines = lines_of(read_file(outside, words[1], "list")[:LONGEST_LIST + 1])
    replies = replies_of(outside, lines)
    refused = False
    for which, (line, reply) in enumerate(zip(lines, replies)):
        said = answer(outside, line, reply)
        refused = refused or said != "done"
        outside.tell("job %d: %s\n" % (which, said))
    return LINES if refused else 0


def replies_of(outside, lines):
    """For each line its trapped page, or its refusal's text. Pages are taken while all together are not too large."""
    replies, samples = [], 0
    for line in lines:
        try:
            page, plates = gather(outside, line.job, line.names, line.inputs)
        except Refusal as refusal:
            replies.append(refusal.line)
            continue
        size = page.width * page.height * len(plates)
        if samples + size > MOST_SAMPLES_IN_ALL:
            replies.append("TooLarge")
            continue
        samples += size
        rule = rule_of(page)
        replies.append((rule, plates, rule.new_planes()))
    return replies


def answer(outside, line, reply):
    """What is told of a line: `done` once its files are written, or its refusal."""
    if isinstance(reply, str):
        return reply
    rule, plates, new = reply
    try:
        write_page(outside, line.outputs, line.report, plates, new, report(rule, new))
    except Refusal as refusal:
        return refusal.line
    return "done"


def lines_of(data):
    """The lines of a list: `JOB REPORT NAME:IN:OUT ...` with single spaces; or the number of the first bad one."""
    texts = data.split(b"\n")
    lines, place = [], 0
    for which, text in enumerate(texts):
        place += len(text) + 1
        # Behind the last line feed stands nothing.
        if which == len(texts) - 1 and text == b"" and which > 0:
            return lines
        # The last text has no line feed; a list that is too long is bad where it becomes so.
        if which == len(texts) - 1 or which == MOST_LINES or place > LONGEST_LIST:
            break
        try:
            lines.append(line_of(text))
            judge_distinct([name for line in lines for name in line.outputs + [line.report]])
        except NoCommand:
            break
    raise Refusal("list: BadLine %d" % which, JOB)


def line_of(text):
    """One line's words."""
    try:
        words = text.decode("utf-8").split(" ")
    except UnicodeDecodeError:
        raise NoCommand()
    if len(words) < 3 or "" in words:
        raise NoCommand()
    return Line(*words[:2], *named_plates(words[2:], words[1]))
