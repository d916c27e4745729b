# SPDX-License-Identifier: Apache-2.0
"""The tokens of a job: the syntax is that of PLRM3, in this project's part of it."""
import re
from collections import namedtuple

from .refusals import JobFault

GREATEST_WHOLE = 1000000

# `value` is a Literal's name, a Word's bytes or a Number in ten-thousandths, else None.
Token = namedtuple("Token", "kind at value")

WHITESPACE = rb"\0\t\n\f\r "
REGULAR = rb"[^\0\t\n\f\r ()<>\[\]{}/%]"
GAP = re.compile(rb"(?:[" + WHITESPACE + rb"]|%[^\n\r\f]*)*")
BRACKETS = {b"<<": "OpenDict", b">>": "CloseDict", b"[": "OpenArray", b"]": "CloseArray"}
BRACKET = re.compile(rb"<<|>>|\[|\]")
HEXADECIMAL = re.compile(rb"<[0-9A-Fa-f" + WHITESPACE + rb"]*>")
RUN = re.compile(REGULAR + rb"+")
NUMBER = re.compile(rb"([+-]?)(?:([0-9]+)(?:\.([0-9]*))?|\.([0-9]+))")
LIKE_A_NUMBER = re.compile(rb"[0-9+.-]")


def tokens_of(job):
    """The tokens of the bytes, each the longest at its place, with gaps between them; or the first byte with none."""
    tokens, place = [], GAP.match(job).end()
    while place < len(job):
        token, place = token_at(job, place)
        tokens.append(token)
        place = GAP.match(job, place).end()
    return tokens


def token_at(job, at):
    """The token that begins at a place, and the place after it."""
    bracket = BRACKET.match(job, at)
    if bracket:
        return Token(BRACKETS[bracket.group()], at, None), bracket.end()
    first = job[at:at + 1]
    if first == b"/":
        return literal_at(job, at)
    if first == b"(":
        return Token("Text", at, None), end_of_text(job, at)
    if first == b"<":
        text = HEXADECIMAL.match(job, at)
        if text:
            return Token("Text", at, None), text.end()
    run = RUN.match(job, at)
    if run:
        return run_token(run.group(), at), run.end()
    raise JobFault("BadToken", at)


def literal_at(job, at):
    """`/` and the regular bytes after it. A `/` directly followed by another is none."""
    name = RUN.match(job, at + 1)
    end = name.end() if name else at + 1
    if end == at + 1 and job[end:end + 1] == b"/":
        raise JobFault("BadToken", at)
    return Token("Literal", at, job[at + 1:end]), end


def end_of_text(job, at):
    """The place after the parenthesis that matches the one at `at`; a backslash takes the next byte with it."""
    depth, place = 0, at
    while place < len(job):
        byte = job[place:place + 1]
        depth += {b"(": 1, b")": -1}.get(byte, 0)
        place += 2 if byte == b"\\" else 1
        if depth == 0:
            return place
    raise JobFault("BadToken", at)


def run_token(run, at):
    """A run of regular bytes: a Number, or a Word, which does not begin like a number."""
    spelling = NUMBER.fullmatch(run)
    if spelling:
        return Token("Number", at, ten_thousandths(spelling, at))
    if LIKE_A_NUMBER.match(run):
        raise JobFault("BadToken", at)
    return Token("Word", at, run)


def ten_thousandths(spelling, at):
    """The value of a number in ten-thousandths: the digits after the fourth are cut."""
    sign, whole, after, alone = spelling.groups()
    digits = (whole or b"0").lstrip(b"0") or b"0"
    if len(digits) > 7 or int(digits) > GREATEST_WHOLE:
        raise JobFault("NumberTooLarge", at)
    fraction = (after or alone or b"")[:4].ljust(4, b"0")
    value = int(digits) * 10000 + int(fraction)
    return -value if sign == b"-" else value
