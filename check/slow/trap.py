# SPDX-License-Identifier: Apache-2.0
"""The program trap: `trap page` and `trap sample`."""
from .entries import DEFAULTS, Ink
from .jobs import Zone
from .pages import Page, gather
from .plates import LONGEST_SIDE, MOST_SAMPLES
from .refusals import page_refusal
from .reports import report
from .rule import rule_of
from .words import NoCommand, named_plates, number, run_command
from .writing import write_page

OPTIONS = {"--workers": 64, "--band": 4096}


def run(words, outside):
    """One command. Workers and bands are judged, and change nothing of what comes out."""
    run_command("trap", {"page": page_command, "sample": sample_command}, words, outside)


def page_command(words):
    """[--workers N] [--band B] JOB REPORT NAME:IN:OUT ..."""
    plain = without_options(words)
    if len(plain) < 3:
        raise NoCommand()
    job, report_name = plain[:2]
    names, inputs, outputs = named_plates(plain[2:], report_name)
    return lambda outside: trap_page(outside, job, report_name, names, inputs, outputs)


def without_options(words):
    """The words that are no options. An option stands once at most, among the words before a `--`, with one number.

    Before the `--`, a word that begins with a hyphen and is longer is an option; all words after it are plain.
    """
    plain, seen, rest = [], set(), list(words)
    while rest:
        word = rest.pop(0)
        if word == "--":
            return plain + rest
        if not word.startswith("-") or word == "-":
            plain.append(word)
            continue
        option, joined, value = word.partition("=")
        if option not in OPTIONS or option in seen or not (joined or rest):
            raise NoCommand()
        seen.add(option)
        number(value if joined else rest.pop(0), 1, OPTIONS[option])
    return plain


def trap_page(outside, job, report_name, names, inputs, outputs):
    """Reads the job and the plates, traps, and only then writes: the plates in order, then the report."""
    page, plates = gather(outside, job, names, inputs)
    rule = rule_of(page)
    new = rule.new_planes()
    write_page(outside, outputs, report_name, plates, new, report(rule, new))


def sample_command(words):
    """NUMBER WIDTH HEIGHT WORKERS"""
    if len(words) != 4:
        raise NoCommand()
    which = number(words[0], 0, 2 ** 32 - 1)
    width, height = (number(word, 1, LONGEST_SIDE) for word in words[1:3])
    number(words[3], 1, 64)
    return lambda outside: trap_sample(outside, which, width, height)


def trap_sample(outside, which, width, height):
    """Traps a page that the program makes by itself, and tells its report."""
    if 4 * width * height > MOST_SAMPLES:
        raise page_refusal("TooManySamples")
    rule = rule_of(sample_page(which, width, height))
    outside.tell(report(rule, rule.new_planes()))


SAMPLE_INKS = [("Cyan", 6100), ("Magenta", 7600), ("Yellow", 1600), ("Black", 17000)]
# The tints of the eight colours of a sample page.
SAMPLE_COLOURS = [(255, 0, 0, 0), (0, 255, 0, 0), (0, 0, 255, 0), (0, 0, 0, 255),
                  (0, 0, 0, 0), (128, 0, 255, 0), (0, 255, 255, 0), (64, 64, 0, 128)]


def sample_page(which, width, height):
    """The page of a number: tiles of eight by eight samples, each of one of eight colours."""
    def colour(x, y):
        i, j = x // 8, y // 8
        return SAMPLE_COLOURS[(which + 3 * i + 5 * j + i * j) % 8]
    colours = [colour(x, y) for y in range(height) for x in range(width)]
    planes = [[tints[plate] for tints in colours] for plate in range(4)]
    zone = Zone(dict(DEFAULTS, TrapWidth=7500), [], {})
    return Page(width, height, 255, 600, planes, [name for name, _ in SAMPLE_INKS],
                [Ink(density, "Normal") for _, density in SAMPLE_INKS], [zone])
