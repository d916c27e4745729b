# SPDX-License-Identifier: Apache-2.0
"""The parts that the press room wrote into a job, found by the comments that it puts before them, and the rules that
an owner may switch off: traps within a box, small type and thin lines, and images.
"""
from __future__ import annotations

import json
import re
from collections.abc import Sequence
from dataclasses import dataclass
from functools import lru_cache

from .reading import MOST_TEXTS, statements

HEAD, OPTIONS, OWNER, PAGE, TRIM, LAYER, THIN, PAIR, IMAGES, ASIDE, END = (
    "head", "options", "owner", "page", "trim", "layer", "thin", "pair", "images", "aside", "end")
RULES = (TRIM, THIN, IMAGES)
TAIL = (THIN, PAIR, IMAGES, END)
"""What comes after the owner's zones."""
MARKS: Sequence[tuple[str, bytes]] = (
    (OPTIONS, rb"% Trapping parameters (?:of options and presets|that were told by words):"), (OWNER, rb"% From .*:"),
    (PAGE, rb"% The whole page:"), (TRIM, rb"% The page within its \w+ box .*:"),
    (LAYER, rb"% The layer .* \(--layer\):"),
    # Zones that were drawn in the editor are the owner's; what a rule set aside is made anew with the rule's zones.
    (OWNER, rb"% press desk: zones(?: over images)?"),
    (ASIDE, rb"% press desk: (?:thin strokes|images(?: are trapped)?|the whole page in place of its box)"),
    (THIN, rb"% Thin strokes \(.*:"), (IMAGES, rb"% Within images nothing is trapped.*:"),
    (PAIR, rb"% .* and .* \((?:not trapped|[\d.]+ times the trap width), .*\):"))
MARK = re.compile(b"^(?:" + b"|".join(b"(%s)" % mark for _, mark in MARKS) + b")$", re.M)
OFF = b"%~ "
"""What a line begins with that a rule does not use while it is off."""


@dataclass(frozen=True)
class Section:
    """A part of a job: its kind, and where it begins and ends."""

    kind: str
    start: int
    end: int


@lru_cache(MOST_TEXTS)
def sections(text: bytes) -> tuple[Section, ...]:
    """The parts of a job in their order. One that was written by hand has a head, and an end that begins with
    showpage. Text in which lines end otherwise than by a line feed has no other parts."""
    end = line_start(text, [one.start for one in statements(text) if one.operator == "showpage"][-1])
    marks = [] if b"\r" in text or b"\f" in text else [
        (MARKS[(found.lastindex or 1) - 1][0], found.start()) for found in MARK.finditer(text, 0, end)]
    starts = [(HEAD, 0), *marks, (END, end)]
    ends = [*starts[1:], ("", len(text))]
    return tuple(Section(kind, start, after) for (kind, start), (_, after) in zip(starts, ends))


def section_of(text: bytes, kind: str) -> Section | None:
    """All parts of a kind as one, if they follow each other; None if there is none."""
    found = [one for one in sections(text) if one.kind == kind]
    if not found or any(one.end != after.start for one, after in zip(found, found[1:])):
        return None
    return Section(kind, found[0].start, found[-1].end)


def tail_start(text: bytes) -> int:
    """Where the parts begin that come after the owner's zones."""
    found = sections(text)
    return next(one.start for one in found if one.kind in TAIL)


def line_start(text: bytes, at: int) -> int:
    """The start of a statement's line, unless another statement is before it on that line."""
    start = text.rfind(b"\n", 0, at) + 1
    return at if text[start:at].strip() else start


def set_aside(lines: bytes) -> bytes:
    """Lines as comments that can be taken back."""
    return b"".join(OFF + line for line in lines.splitlines(keepends=True))


def taken_back(lines: bytes) -> bytes:
    """The lines that were set aside."""
    return b"".join(line.removeprefix(OFF) for line in lines.splitlines(keepends=True) if line.startswith(OFF))


NAMES = {HEAD: "the page", ASIDE: "the page", OPTIONS: "the page", PAGE: "the page", TRIM: "the page within its box",
         THIN: "small type and thin lines", IMAGES: "images"}
DESK_ZONE = re.compile(rb'^% Zone (".*"):$|^newpath .* settrapzone  (% the whole page)$', re.M)


def zone_names(text: bytes) -> list[str]:
    """A name of each zone of a job, by the comment before it: a zone of the editor has its own."""
    marks = [(one.start, NAMES.get(one.kind) or name_in(text, one)) for one in sections(text)]
    marks += [(found.start(), json.loads(found[1]) if found[1] else NAMES[PAGE]) for found in DESK_ZONE.finditer(text)]
    marks.sort()
    return [[name for start, name in marks if start <= zone.end][-1]
            for zone in statements(text) if zone.operator == "settrapzone"]


def name_in(text: bytes, part: Section) -> str:
    """The name of a part by its comment: a layer, a pair of inks, or a file of zones."""
    line = text[part.start:part.end].partition(b"\n")[0].decode("utf-8", "replace")
    return line.removeprefix("% ").partition(" (")[0].rstrip(":").replace("From ", "zones of ")
