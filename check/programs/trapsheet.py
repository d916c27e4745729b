# SPDX-License-Identifier: Apache-2.0
"""trapsheet: pages, and sheets of strips and windows: what its tests run on."""
from faults.case import case, PAGE
from lines import GATHER_LINES, WRITE_LINES
from maker import pictures
from maker.cases import joined, one_page, output_name, outputs, with_bad_words, workers_word
from samples import outs, PAIR, SHOP, STRIPS, UNCUT

# What random cases are to meet, "" for a run that ends without a line.
LINES = ["", "usage", "untold", "sheet: Far in zone #", "sheet: Uncut",
         *(line for line in GATHER_LINES if "TooManySamples" not in line), *WRITE_LINES]

# The runs in which each request for memory is refused.
REFUSED = [(["2", "job", "report", *outs(files)], files) for files in (SHOP, STRIPS, UNCUT)]

# The runs in which calls of the system fail, with one worker: several read the plates in parallel, and a call has another
# number in each run. That of three strips fails while some rows are written and others not.
SHEET = case("trapsheet", ["1", *PAGE[1:]], PAIR, ["c.out", "m.out", "report"], ["c.out", "report"],
             together=("c.out", "m.out"))
HIGH = case("trapsheet", ["1", *PAGE[1:]], STRIPS, ["c.out", "m.out", "report"], ["m.out"], together=("c.out", "m.out"))
WRITING = [SHEET]
FAULTS = [SHEET, HIGH]


def make(rng):
    """A page, now and then one of several strips or windows, or one whose plates are too wide for a page."""
    files = {}
    picture, job, inputs = one_page(rng, files, pictures.picture(rng, cut_shape(rng)) if rng.random() < 0.04 else None)
    if rng.random() < 0.03:
        job, inputs = wide_sheet(rng, files, len(inputs))
    report = rng.choice(inputs + [job]) if rng.random() < 0.02 else output_name(rng, "report")
    words = [workers_word(rng), job, report, *joined(picture.names, inputs, outputs(rng, inputs))]
    return with_bad_words(rng, words), files


def cut_shape(rng):
    """Sides by which a sheet of a few plates is cut: strips have 256 rows, and windows 800,000 samples."""
    if rng.random() < 0.7:
        return rng.randint(1, 4), rng.randint(257, 600)
    return rng.randint(1600, 2600), rng.randint(1, 2)


def wide_sheet(rng, files, count):
    """Plates of a few rows or columns above a page's limits, and a job that traps nothing, some with a refused zone."""
    side = rng.choice([16385, 16384, 20000, 262144, 262145])
    width, height = rng.choice([(side, 1), (1, side), (side, 2)])
    resolution, far = rng.choice([(600, 288), (9973, 288), (600, 1000000), (72, 999000)])
    zone = b"0 0 moveto %d 0 lineto 0 9 lineto settrapzone " % far if rng.random() < 0.7 else b""
    device = b"<< /HWResolution [%d %d] >> setpagedevice " % (resolution, resolution)
    files["sheet-job"] = device + b"<< /Enabled false >> settrapparams " + zone + b"showpage"
    for plate in range(count):
        samples = bytes(rng.randrange(2) for _ in range(width * height))
        files["s%d" % plate] = b"P5 %d %d 1\n" % (width, height) + samples
    return "sheet-job", ["s%d" % plate for plate in range(count)]
