# SPDX-License-Identifier: Apache-2.0
"""trapkeep: pages under black, or with white under colours: what its tests run on."""
from faults.case import case, PAGE
from lines import GATHER_LINES, WRITE_LINES
from maker import jobs, pictures
from maker.cases import joined, one_page, output_name, outputs, with_bad_words
from samples import outs, RICH, SHOP

# What random cases are to meet, "" for a run that ends without a line.
LINES = ["", "usage", "untold", "keepaway: TooWide", *GATHER_LINES, *WRITE_LINES]

# The runs in which each request for memory is refused.
REFUSED = [
    *((["--rich-black", "1", "job", "report", *outs(files)], files) for files in (RICH, SHOP)),
    (["--underprint", "Cyan=1", "job", "report", *outs(RICH)], RICH),
]

# The run in which calls of the system fail.
KEEP = case("trapkeep", ["--rich-black", "1", *PAGE[1:]], RICH, ["c.out", "m.out", "report"], ["m.out"])
WRITING = FAULTS = [KEEP]


def make(rng):
    """A page for one of the two uses, mostly shapes of several inks on a lighter ground."""
    files = {}
    if rng.random() < 0.3:
        picture, job, inputs = one_page(rng, files)
    else:
        picture, job, inputs = one_page(rng, files, pictures.with_type(rng, pictures.picture(rng)))
        if rng.random() < 0.8:
            files["keep-job"], job = jobs.keep_job(rng, picture), "keep-job"
    report = rng.choice(inputs + [job]) if rng.random() < 0.02 else output_name(rng, "report")
    words = keep_options(rng, picture.names)
    words += [job, report, *joined(picture.names, inputs, outputs(rng, inputs))]
    return with_bad_words(rng, words), files


def keep_options(rng, names):
    """The options of one use; now and then of none or of both."""
    some = rng.sample(names, rng.randint(1, min(2, len(names))))
    black = [["--rich-black", points(rng, 100)]]
    if rng.random() < 0.5:
        black.append(["--black-limit", points(rng, 1)])
    if rng.random() < 0.3:
        black += [["--except", name] for name in some]
    white = [["--underprint", "%s=%s" % (name, points(rng, 100))] for name in some]
    options = black if rng.random() < 0.6 else white
    if rng.random() < 0.02:
        options = rng.choice([[], black + white, black[1:], black + black, white + white])
    rng.shuffle(options)
    return [word for option in options for word in option] + ["--"] * (rng.random() < 0.1)


def points(rng, greatest):
    """A width or a limit, in many spellings; some are none."""
    if rng.random() < 0.02:
        return rng.choice(["", ".", "-1", "+1", "1e0", "100.0001", "1.0001", "1.2.3", " 1", "1,5", "٣"])
    if greatest == 1:
        return rng.choice(["0", "0", "1.", ".5", ".1", "0.85", "0.9999", "0.00019", "%.6f" % rng.random()])
    near = rng.choice([0.5, 1, 1.4999, 1.5, 2, 2.5, 3, rng.uniform(0, 6)])
    odd = ["0", "100", "100.00009", str(rng.randint(0, 100)), "%.3f" % (near * 72 / rng.choice([36, 144, 600]))]
    return rng.choice([*["%g" % near, "%.4f" % near, "%.6f" % near] * 3, *odd])
