#!/usr/bin/env python3
# SPDX-License-Identifier: Apache-2.0
"""Compares the library with the slow program, through Python: library.py COUNT SEED.

Each case is a page by the call of a page, and then a window of that page by the call of a window, with memory of its own, guards
before and after each buffer, and arguments of which some do not fit: the status, the text, its length, the samples, the gaps between
rows and the guards have to be as the slow program says. Of a window it looks at the whole page, and takes what lies in the core.
Where the arguments fit, the package's own calls have to give the same; what a report and an error by an open job say in numbers has to be what their
text says, the error by the one kind of library/kinds.txt that fits it. A few calls that were worked out by hand come first. The
library is the one that TRAP_LIBRARY names, or library/out/libtrap.so.1.
"""
import array
import ctypes
import functools
import math
import os
import random
import re
import sys
from collections import Counter, namedtuple

HERE = os.path.dirname(os.path.abspath(__file__))
TOP = os.path.dirname(HERE)
os.environ.setdefault("TRAP_LIBRARY", os.path.join(TOP, "library", "out", "libtrap.so.1"))
sys.path[:0] = [os.path.join(TOP, "python"), HERE]

import trapping  # noqa: E402
from maker import jobs, pictures  # noqa: E402
from slow.pages import assemble, judged_job  # noqa: E402
from slow.plates import LONGEST_SHEET_SIDE, LONGEST_SIDE, MOST_SAMPLES, Plate  # noqa: E402
from slow.refusals import Refusal  # noqa: E402
from slow.reports import report  # noqa: E402
from slow.rule import rule_of  # noqa: E402
from trapping._library import Place, export  # noqa: E402

GUARD = b"\xa5" * 64
DELIMITERS = b"()<>[]{}/%"
MOST_COORDINATE = 10 ** 10  # a million points
MOST = {"B": 255, "H": 65_535}

# The arguments of a call: the type of the samples as arrays have it, and the room for the text.
Call = namedtuple("Call", "job names numbers width height step maxval code room")
# Where a window stands on its sheet, and its core within it.
Stands = namedtuple("Stands", "sheet_width sheet_height left top core_left core_top core_width core_height")
# What a call gives.
Answer = namedtuple("Answer", "status text numbers")


def is_name(name):
    return 1 <= len(name) <= 64 and all(33 <= b <= 126 and b not in DELIMITERS for b in name)


def unfit(call):
    """Which of the arguments does not fit, the first of them, or None."""
    names = call.names.split(b"\n")
    if not (len(names) <= 16 and all(map(is_name, names)) and len(set(names)) == len(names)):
        return "Names"
    if not (1 <= call.width <= LONGEST_SIDE and 1 <= call.height <= LONGEST_SIDE and call.width * call.height <= MOST_SAMPLES):
        return "Sides"
    if call.width > call.step:
        return "Step"
    if not 1 <= call.maxval <= MOST[call.code]:
        return "Maxval"
    if len(call.numbers) != len(names) * call.height * call.step:
        return "Samples"
    return None


def places(call, c):
    """Where the samples of plane c lie, in their order."""
    return [(c * call.height + y) * call.step + x for y in range(call.height) for x in range(call.width)]


def page_of(call):
    """The page of a call whose arguments fit; the slow program's Refusal where there is none."""
    judged = judged_job(call.job)
    names = [name.decode() for name in call.names.split(b"\n")]
    plates = []
    for c in range(len(names)):
        tints = [call.numbers[at] for at in places(call, c)]
        for place, tint in enumerate(tints):
            if tint > call.maxval:
                raise Refusal("plate %d: SampleAboveMaxval at %d" % (c, place), 4)
        plates.append(Plate(call.width, call.height, call.maxval, [call.maxval - tint for tint in tints]))
    return assemble(judged, plates, names)


def wanted(call):
    """What has to come out."""
    name = unfit(call)
    if name:
        return Answer(2, "call: %s\n" % name, call.numbers)
    try:
        rule = rule_of(page_of(call))
    except Refusal as refusal:
        return Answer(refusal.status, refusal.line + "\n", call.numbers)
    planes = rule.new_planes()
    after = list(call.numbers)
    for c, plane in enumerate(planes):
        for at, tint in zip(places(call, c), plane):
            after[at] = tint
    return Answer(0, report(rule, planes), after)


def guarded(data):
    """Memory with the data in it, exactly as long as they are, between guards."""
    return ctypes.create_string_buffer(GUARD + data + GUARD, len(data) + 2 * len(GUARD))


def content(memory):
    """The data of guarded memory, or None where a guard was written to."""
    raw, size = memory.raw, len(GUARD)
    return raw[size:-size] if raw[:size] == GUARD == raw[-size:] else None


def found(call, stands=None):
    """What the export gives: the status, what stands in the text's buffer, its length, and the samples. It is that of a window
    where it is told how that stands."""
    samples = guarded(array.array(call.code, call.numbers).tobytes())
    text, length = guarded(b"\0" * call.room), ctypes.c_size_t(77)
    place = () if stands is None else (ctypes.byref(Place(*stands)),)
    status = export("trap_%s%d" % ("planes" if stands is None else "window", 8 if call.code == "B" else 16))(
        call.job, len(call.job), call.names, len(call.names), ctypes.addressof(samples) + len(GUARD), len(call.numbers),
        call.width, call.height, call.step, call.maxval, *place, ctypes.addressof(text) + len(GUARD), call.room, ctypes.byref(length))
    after = array.array(call.code)
    after.frombytes(content(samples) or b"")
    return status, content(text), length.value, list(after)


def is_right(call, answer, stands=None):
    """Whether the export gives the answer."""
    text = answer.text.encode("latin-1")
    put = text[:call.room] + b"\0" * (call.room - len(text))
    return found(call, stands) == (answer.status, put, len(text), answer.numbers)


def by_package(call, planes_apart):
    """What the package's calls give: of planes that lie apart, or of a stack of them."""
    names = call.names.decode("latin-1").split("\n")
    stack = array.array(call.code, call.numbers)
    size = call.height * call.step
    try:
        if planes_apart:
            planes = {name: stack[c * size:(c + 1) * size] for c, name in enumerate(names)}
            told = trapping.trap(call.job, planes, maxval=call.maxval, width=call.width, height=call.height)
            stack = [tint for plane in planes.values() for tint in plane]
        else:
            told = trapping.trap_stack(call.job, names, stack, maxval=call.maxval, width=call.width, height=call.height, step=call.step)
    except trapping.Refusal as refusal:
        return Answer(refusal.status, refusal.line + "\n", call.numbers if planes_apart else list(stack))
    return Answer(0, told.text, list(stack))


def spoiled(call, rng):
    """The call with one argument changed."""
    most, numbers, names = MOST[call.code], list(call.numbers), call.names
    kind = rng.randrange(10)
    if kind == 0:
        numbers[rng.randrange(len(numbers))] = rng.choice([most, min(call.maxval + 1, most)])
        return call._replace(numbers=numbers)
    if kind == 1:
        return call._replace(names=rng.choice([
            b"", names + b"\n", b"\n" + names, names.replace(b"\n", b" "), names + b"\n" + names.split(b"\n")[0],
            b"\n".join(b"i%d" % k for k in range(17)), names + b"x" * 65, b"(x)"]))
    if kind == 2:
        return call._replace(width=rng.choice([0, LONGEST_SIDE + 1, call.width + 1, 2 ** 32 - 1]))
    if kind == 3:
        return call._replace(height=rng.choice([0, LONGEST_SIDE + 1, call.height + 1, 2 ** 32 - 1]))
    if kind == 4:
        return call._replace(maxval=rng.choice([0, 65535, 65536, 2 ** 32 - 1, most, most + 1]))
    if kind == 5:
        return call._replace(numbers=numbers[:-1] if rng.random() < 0.5 else numbers + [0])
    if kind == 6:
        width, height = rng.choice([(16384, 16384), (16384, 9765), (16384, 9766)])
        return call._replace(width=width, height=height)
    if kind == 7:
        return call._replace(numbers=[])
    if kind == 8:
        return call._replace(step=rng.choice([0, max(0, call.step - 1), call.step + 1, 2 ** 32 - 1]))
    return call._replace(width=call.height, height=call.width)


def made(rng):
    """A random call, mostly one whose arguments fit."""
    code = rng.choice("BHH")
    picture = pictures.picture(rng)
    while picture.maxval > MOST[code]:
        picture = pictures.picture(rng)
    job = jobs.long_job(rng) if rng.random() < 0.004 else jobs.job(rng, picture)
    step = picture.width + (rng.choice([0, 0, 1, 3, 8]) if picture.width < 100 else 0)
    gap = [rng.randrange(MOST[code] + 1) for _ in range(step - picture.width)]
    numbers = [tint for plane in picture.planes for y in range(picture.height)
               for tint in plane[y * picture.width:(y + 1) * picture.width] + gap]
    call = Call(job, "\n".join(picture.names).encode(), numbers, picture.width, picture.height, step, picture.maxval, code,
                rng.choice([65536, 65536, 65536, 0, 1, 10, 40, rng.randrange(300)]))
    return spoiled(call, rng) if rng.random() < 0.14 else call


# Windows

def is_on_sheet(call, stands):
    """Whether a window lies on its sheet, and its core, which is not empty, in the window."""
    return (stands.core_width > 0 and stands.core_height > 0 and stands.left + call.width <= stands.sheet_width <= LONGEST_SHEET_SIDE
            and stands.top + call.height <= stands.sheet_height <= LONGEST_SHEET_SIDE
            and stands.core_left + stands.core_width <= call.width and stands.core_top + stands.core_height <= call.height)


def halo_of(job):
    """How far a window goes on beyond its core."""
    widest = max([zone.params["TrapWidth"] * max(zone.params["BlackWidth"], 10_000) * job.resolution // (36 * 10 ** 8)
                  for zone in job.zones if zone.params["Enabled"]], default=0)
    return max(1, (widest + 1) // 2)


def is_wide(call, stands, halo):
    """Whether a window goes on so far on each side that is no border of the sheet."""
    return ((stands.left == 0 or stands.core_left >= halo) and (stands.top == 0 or stands.core_top >= halo)
            and (stands.left + call.width == stands.sheet_width or stands.core_left + stands.core_width + halo <= call.width)
            and (stands.top + call.height == stands.sheet_height or stands.core_top + stands.core_height + halo <= call.height))


def corner(call, stands):
    """How many columns the window's lower left corner stands from the sheet's, and how many rows."""
    return stands.left, stands.sheet_height - stands.top - call.height


def step_of(resolution):
    return resolution // math.gcd(resolution, 720_000)


def far_zone(job, call, stands):
    """The first zone with a vertex too far from the window's corner, or None."""
    right, up = [720_000 * side // job.resolution if job.resolution else 0 for side in corner(call, stands)]
    for number, zone in enumerate(job.zones):
        if any(abs(x - right) > MOST_COORDINATE or abs(y - up) > MOST_COORDINATE for path in zone.path for x, y in path):
            return number
    return None


def judged_window(call, stands):
    """Raises the refusal that a window's call ends with, if any."""
    name = unfit(call) or (None if is_on_sheet(call, stands) else "Place")
    if name:
        raise Refusal("call: %s" % name, 2)
    job = judged_job(call.job)
    has_step = len(job.zones) == 1 or all(side % step_of(job.resolution) == 0 for side in corner(call, stands))
    if not (is_wide(call, stands, halo_of(job)) and has_step):
        raise Refusal("call: Place", 2)
    far = far_zone(job, call, stands)
    if far is not None:
        raise Refusal("sheet: Far in zone %d" % far, 4)
    page_of(call)


def core_report(rule, planes, samples):
    """The report of these samples of a sheet."""
    page = rule.page
    deciding = set(rule.deciding)
    changed = {(x, y): [planes[c][y * page.width + x] != page.planes[c][y * page.width + x] for c in page.plates] for x, y in samples}
    lines = ["trap report", "page %d %d %d plates %d" % (page.width, page.height, page.maxval, len(page.plates))]
    for zone in range(len(page.zones)):
        own = [sample for sample in samples if rule.zone(sample) == zone]
        lines.append("zone %d samples %d changed %d" % (zone, len(own), sum(any(changed[sample]) for sample in own)))
    lines.append("edges %d" % sum(((2 * x + 1, 2 * y) in deciding) + ((2 * x, 2 * y + 1) in deciding) for x, y in samples))
    for plate in page.plates:
        lines.append("plate %s changed %d" % (page.names[plate], sum(changed[sample][plate] for sample in samples)))
    return "".join(line + "\n" for line in [*lines, "end"])


def wanted_window(sheet, call, stands):
    """What has to come out of a window of a sheet; None where it is a window of another sheet."""
    try:
        judged_window(call, stands)
    except Refusal as refusal:
        return Answer(refusal.status, refusal.line + "\n", call.numbers)
    if not is_same_sheet(sheet, call, stands):
        return None
    rule = rule_of(page_of(sheet))
    planes = rule.new_planes()
    after, samples = list(call.numbers), []
    for y in range(stands.core_top, stands.core_top + stands.core_height):
        for x in range(stands.core_left, stands.core_left + stands.core_width):
            samples.append((stands.left + x, stands.top + y))
            for c, plane in enumerate(planes):
                after[(c * call.height + y) * call.step + x] = plane[(stands.top + y) * sheet.width + stands.left + x]
    return Answer(0, core_report(rule, planes, samples), after)


def span(rng, side, halo, step, is_down):
    """Of a side: where a window begins and how long it is, where its core begins in it and how long that is. The halo is wide enough,
    and the window's left or lower end is at the step."""
    first = rng.randrange(side)
    core = rng.randint(1, side - first) if rng.random() < 0.7 else 1
    start = max(0, first - halo - rng.choice([0, 0, 1, 3]))
    end = min(side, first + core + halo + rng.choice([0, 0, 1, 3]))
    if is_down:
        end = side - (side - end) // step * step
    else:
        start -= start % step
    return start, end - start, first - start, core


def window_of(sheet, rng):
    """A window of a sheet, mostly one that fits, and how it stands."""
    try:
        job = judged_job(sheet.job)
        halo, step = halo_of(job), step_of(job.resolution) if len(job.zones) > 1 else 1
    except Refusal:
        halo, step = 1, 1
    kind = rng.random()
    halo = max(0, halo - 1) if kind < 0.05 else halo
    step = 1 if kind > 0.95 else step
    left, width, core_left, core_width = span(rng, sheet.width, halo, step, False)
    top, height, core_top, core_height = span(rng, sheet.height, halo, step, True)
    stands = Stands(sheet.width, sheet.height, left, top, core_left, core_top, core_width, core_height)
    row = width + rng.choice([0, 0, 1, 5])
    gap = [rng.randrange(MOST[sheet.code] + 1) for _ in range(row - width)]
    numbers = []
    for c in range(len(sheet.names.split(b"\n"))):
        for y in range(top, top + height):
            at = (c * sheet.height + y) * sheet.step + left
            numbers += sheet.numbers[at:at + width] + gap
    call = sheet._replace(numbers=numbers, width=width, height=height, step=row,
                          room=rng.choice([65536, 65536, 65536, 0, 1, 10, 40, rng.randrange(300)]))
    if 0.05 <= kind < 0.1:
        name = rng.choice(Stands._fields)
        number = rng.choice([0, getattr(stands, name) + 1, max(0, getattr(stands, name) - 1), LONGEST_SHEET_SIDE + 1, 2 ** 32 - 1])
        stands = stands._replace(**{name: number})
    return (spoiled(call, rng) if 0.1 <= kind < 0.14 else call), stands


def is_same_sheet(sheet, call, stands):
    """Whether the window's samples are those that the sheet has there: what was spoiled may stand elsewhere."""
    if (stands.sheet_width, stands.sheet_height) != (sheet.width, sheet.height) or call.maxval != sheet.maxval:
        return False
    names = call.names.split(b"\n")
    return call.names == sheet.names and all(
        call.numbers[(c * call.height + y) * call.step + x]
        == sheet.numbers[(c * sheet.height + stands.top + y) * sheet.step + stands.left + x]
        for c in range(len(names)) for y in range(call.height) for x in range(call.width))


def forms():
    """The forms of the lines in library/kinds.txt, each with the number of its kind."""
    with open(os.path.join(TOP, "library", "kinds.txt"), encoding="utf-8") as file:
        rows = [line.rstrip("\n").split("\t") for line in file if line[0] != "#"]
    for number, _, *line in rows:
        if line and ".." not in line[0]:
            yield int(number), re.compile(re.sub("PLATE|ZONE|NAME|OFFSET", lambda field: rf"(?P<{field[0].lower()}>\w+)", line[0]))


FORMS = list(forms())


def is_said(error):
    """Whether the numbers of an error by an open job are what its line says: one form of a kind fits the line, and each field has what
    stands in it."""
    fitting = [(number, fits.groupdict()) for number, form in FORMS if (fits := form.fullmatch(error.line))]
    fields = {"plate": error.plate, "zone": error.zone, "name": error.parameter, "offset": error.place}
    named = {name: str(field) for name, field in fields.items() if field is not None}
    return isinstance(error, trapping.TrapError) and fitting == [(error.code, named)] and error.status == error.code // 100


def window_by_package(call, stands, opened=None):
    """What the package's call gives, with the job's bytes or an open job."""
    trap = opened.trap_window if opened else functools.partial(trapping.trap_window, call.job)
    stack = array.array(call.code, call.numbers)
    try:
        told = trap(call.names.decode("latin-1").split("\n"), stack, sheet=stands[:2], at=stands[2:4], core=stands[4:],
                    maxval=call.maxval, width=call.width, height=call.height, step=call.step)
    except trapping.Refusal as refusal:
        return Answer(refusal.status if not opened or is_said(refusal) else -1, refusal.line + "\n", list(stack))
    read = trapping.Report(told.text)
    are_counts = (told.zones, told.edges, told.changed) == (read.zones, read.edges, read.changed)
    return Answer(0 if are_counts else -1, told.text, list(stack))


def refuses_empty_core(call, stands):
    """Whether the package refuses an empty core before the library does."""
    try:
        window_by_package(call, stands)
    except ValueError:
        return True
    return False


def halo_by_open_job(job):
    """The halo of an open job."""
    with trapping.OpenJob(job) as opened:
        return opened.halo()


def halo_faults(sheet):
    """What differs of the calls that tell the halo."""
    try:
        answer = halo_of(judged_job(sheet.job))
    except Refusal as refusal:
        answer = refusal.line
    for name, call in (("trap_halo", trapping.halo), ("trap_open_halo", halo_by_open_job)):
        try:
            told = call(sheet.job)
        except trapping.Refusal as refusal:
            told = refusal.line if call is trapping.halo or is_said(refusal) else f"another kind than {refusal.line}"
        if told != answer:
            yield "%s, which gives %s," % (name, told)


def open_faults(call, stands, answer):
    """What differs of a window by an open job, which is asked for twice. Whether a job is opened is compared by halo_faults."""
    try:
        opened = trapping.OpenJob(call.job)
    except trapping.Refusal:
        return
    with opened:
        for turn in ("an open job's window", "an open job's second window"):
            if window_by_package(call, stands, opened) != answer:
                yield turn, answer


def window_faults(sheet, rng, kinds):
    """What differs of a window of a sheet, in words and with what has to come."""
    call, stands = window_of(sheet, rng)
    answer = wanted_window(sheet, call, stands)
    if answer is None:
        return
    kinds["window: %s" % (answer.text.strip() if answer.status == 2 else "status %d" % answer.status)] += 1
    if not is_right(call, answer, stands):
        yield "the export of a window", answer
    if not stands.core_width or not stands.core_height:
        if not refuses_empty_core(call, stands):
            yield "trap_window, which takes an empty core,", answer
    elif unfit(call) is None:
        if window_by_package(call, stands) != answer:
            yield "trap_window", answer
        yield from open_faults(call, stands, answer)


def faults(call, answer):
    """What differs, in words."""
    if not is_right(call, answer):
        yield "the export"
    if unfit(call) is None:
        if by_package(call, False) != answer:
            yield "trap_stack"
        if call.step == call.width and by_package(call, True) != answer:
            yield "trap"


def sheet_of(call):
    """The call as a sheet, where it can be one: its arguments fit, and it makes a page or its job has a fault."""
    if unfit(call) is not None:
        return None
    numbers = list(call.numbers)
    for c in range(len(call.names.split(b"\n"))):
        for at in places(call, c):
            numbers[at] = min(numbers[at], call.maxval)
    return call._replace(numbers=numbers)


# Calls whose answers were worked out by hand: an edge in the middle of a row, two names that are one, a core of one sample in its
# window, and a core that stands too near its window's border.
HAND_JOB = (b"<< /HWResolution [72 72] /TrappingDetails << /Type 1001 /ColorantDetails << /Cyan << /NeutralDensity 0.61 >> "
            b"/Magenta << /NeutralDensity 0.76 >> >> >> >> setpagedevice << /TrapWidth 2 >> settrapparams showpage")
HAND_NAMES = b"Cyan\nMagenta"
HAND_HALO = 2
BY_HAND = (
    (Call(HAND_JOB, HAND_NAMES, [255] * 3 + [0] * 6 + [255] * 3, 6, 1, 6, 255, "H", 200), None,
     Answer(0, "trap report\npage 6 1 255 plates 2\nzone 0 samples 6 changed 2\nedges 1\nplate Cyan changed 1\nplate Magenta changed 1\nend\n",
            [255] * 4 + [0] * 4 + [255] * 4)),
    (Call(HAND_JOB, b"Cyan\nCyan", [255, 0, 0, 255], 2, 1, 2, 255, "B", 5), None, Answer(2, "call: Names\n", [255, 0, 0, 255])),
    (Call(HAND_JOB, HAND_NAMES, [255] * 4 + [0] * 8 + [255] * 4, 8, 1, 8, 255, "B", 200), Stands(12, 1, 2, 0, 3, 0, 1, 1),
     Answer(0, "trap report\npage 12 1 255 plates 2\nzone 0 samples 1 changed 1\nedges 1\nplate Cyan changed 0\nplate Magenta changed 1\nend\n",
            [255] * 4 + [0] * 7 + [255] * 5)),
    (Call(HAND_JOB, HAND_NAMES, [0] * 16, 8, 1, 8, 255, "B", 20), Stands(12, 1, 2, 0, 1, 0, 1, 1), Answer(2, "call: Place\n", [0] * 16)),
)


def hand_faults():
    """Which of the calls that were worked out by hand give something else."""
    for number, (call, stands, answer) in enumerate(BY_HAND):
        if not is_right(call, answer, stands):
            yield "call %d by hand" % number
    if trapping.halo(HAND_JOB) != HAND_HALO:
        yield "the halo by hand"


def version_faults():
    """What tells another version than the repository's file."""
    with open(os.path.join(TOP, "VERSION"), encoding="ascii") as file:
        numbers = tuple(int(word) for word in file.read().strip().split("."))
    with open(os.path.join(TOP, "library", "trap.h"), encoding="ascii") as file:
        told = int(re.search(r"^#define LIBTRAP_VERSION (\d+)", file.read(), re.M)[1])
    if trapping.library_version() != numbers:
        yield "trap_version"
    if (told // 10000, told // 100 % 100, told % 100) != numbers:
        yield "LIBTRAP_VERSION"


def main(count, seed):
    different, kinds = 0, Counter()
    for name in version_faults():
        different += 1
        print("%s is not that of VERSION" % name)
    for name in hand_faults():
        different += 1
        print("%s has another answer" % name)
    for number in range(count):
        rng = random.Random("%s %d" % (seed, number))
        call = made(rng)
        answer = wanted(call)
        kinds[answer.text.split(" at ")[0].strip() if answer.status == 2 else "status %d" % answer.status] += 1
        wrong = [(fault, answer) for fault in faults(call, answer)]
        sheet = sheet_of(call)
        if sheet is not None:
            wrong += window_faults(sheet, rng, kinds)
            wrong += [(fault, answer) for fault in halo_faults(sheet)]
        for fault, told in wrong:
            different += 1
            print("case %d of seed %s: %s differs from status %d, %s" % (number, seed, fault, told.status, told.text.strip()))
    print("library: %s" % ", ".join("%s %d" % pair for pair in sorted(kinds.items())))
    print("%d cases, %d different" % (count, different))
    return 1 if different else 0


if __name__ == "__main__":
    if len(sys.argv) != 3:
        sys.exit(__doc__)
    sys.exit(main(int(sys.argv[1]), sys.argv[2]))
