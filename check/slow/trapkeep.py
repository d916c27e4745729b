# SPDX-License-Identifier: Apache-2.0
"""The program trapkeep: inks are drawn back under their cover: rich black or an underprint (docs/KEEPAWAY.md)."""
import re
from collections import namedtuple

from . import refusals
from .entries import S
from .keepaway import PIXEL, RichBlack, Underprint
from .pages import gather
from .rule import rule_of
from .words import NoCommand, judge_distinct, named_plates
from .writing import write_page

USUAL_LIMIT = 8500
WIDEST = 100 * S
MOST_PIXELS = 128

# What the options ask for: the width under black, or None; its limit; the inks to spare; and underprints by name.
Uses = namedtuple("Uses", "width limit spared underprints")


def run(words, outside):
    try:
        uses, rest = options_of(words)
        job, report_name, names, inputs, outputs = files_of(rest)
        judge_uses(uses, names)
    except NoCommand:
        raise refusals.usage("trapkeep")
    page, plates = gather(outside, job, names, inputs)
    judge_widths(uses, page.resolution)
    use = use_of(uses, page)
    new = use.new_planes()
    write_page(outside, outputs, report_name, plates, new, report(use, page, new))


def options_of(words):
    """The options, and the words after them."""
    rest, found = list(words), {"--rich-black": [], "--black-limit": [], "--except": [], "--underprint": []}
    while rest and rest[0].startswith("--"):
        word = rest.pop(0)
        if word == "--":
            break
        if word not in found or not rest:
            raise NoCommand()
        found[word].append(rest.pop(0))
    width = [decimal(word, WIDEST) for word in found["--rich-black"]]
    limit = [decimal(word, S) for word in found["--black-limit"]]
    pairs = [name_and_width(word) for word in found["--underprint"]]
    spared = found["--except"]
    judge_distinct([name for name, _ in pairs])
    alone = (limit or spared) and not width
    if alone or len(width) > 1 or len(limit) > 1 or bool(width) == bool(pairs):
        raise NoCommand()
    return Uses((width or [None])[0], (limit or [USUAL_LIMIT])[0], spared, dict(pairs)), rest


def decimal(word, greatest):
    """A number in ten-thousandths: digits with at most one point; those after the fourth decimal are cut."""
    if not re.fullmatch("[0-9]+[.]?[0-9]*|[.][0-9]+", word):
        raise NoCommand()
    whole, _, part = word.partition(".")
    value = int(whole or "0") * S + int((part + "0000")[:4])
    if value > greatest:
        raise NoCommand()
    return value


def name_and_width(word):
    """NAME=WIDTH; the last equals sign divides."""
    name, equals, width = word.rpartition("=")
    if not equals:
        raise NoCommand()
    return name, decimal(width, WIDEST)


def files_of(words):
    """JOB REPORT NAME:IN:OUT ...: no file that is written may be one that is read."""
    if len(words) < 3:
        raise NoCommand()
    job, report_name = words[:2]
    names, inputs, outputs = named_plates(words[2:], report_name)
    if {job, *inputs} & {report_name, *outputs}:
        raise NoCommand()
    return job, report_name, names, inputs, outputs


def judge_uses(uses, names):
    """An option names plates alone."""
    if not set(uses.spared) | set(uses.underprints) <= set(names):
        raise NoCommand()


def judge_widths(uses, resolution):
    """No width is more than 128 pixels."""
    widths = [*uses.underprints.values(), uses.width or 0]
    if max(widths) * resolution > MOST_PIXELS * PIXEL:
        raise refusals.Refusal("keepaway: TooWide", refusals.PAGE)


def use_of(uses, page):
    """The one use that the options ask for."""
    if uses.underprints:
        return Underprint(page, {page.names.index(name): width for name, width in uses.underprints.items()})
    return RichBlack(rule_of(page), uses.width, uses.limit, uses.spared)


def report(use, page, new):
    """Its lines: the page, the covered pixels, and for each plate how many of its pixels changed, by cause."""
    black = isinstance(use, RichBlack)
    lines = ["keepaway report",
             "page %d %d %d plates %d" % (page.width, page.height, page.maxval, len(page.planes)),
             "covered %d" % len(use.cover)]
    for name, before, after in zip(page.names, page.planes, new):
        changed = sum(one != other for one, other in zip(before, after))
        lines.append("plate %s rich-black %d underprint %d" % ((name, changed, 0) if black else (name, 0, changed)))
    return "".join(line + "\n" for line in [*lines, "end"])
