# SPDX-License-Identifier: Apache-2.0
"""traprun: a job of many pages: what its tests run on."""
from faults.case import case, other_input, OUTPUTS
from lines import JOB_LINES, PAGE_LINES, PLATE_LINES, READ_LINES, WHOLE_JOB_LINES, WRITE_LINES
from maker import jobs, pictures, plates
from maker.cases import band_word, FULL, input_name, joined, output_name, outputs, with_bad_words, workers_word
from samples import outs, TWICE

# What random cases are to meet, "" for a run that ends without a line.
LINES = ["", "usage", "untold", "read fault: job", "run: TooManyPages at #", "run: plate #: Extra",
         "page #: plate #: Ends", *WHOLE_JOB_LINES, *PLATE_LINES[:7],
         *("page #: " + line for line in [*JOB_LINES, *PLATE_LINES[:7], *PAGE_LINES, READ_LINES[1], *WRITE_LINES]
           if line not in WHOLE_JOB_LINES)]

# The runs in which each request for memory is refused.
REFUSED = [(["2", "1", "job", "report", *outs(TWICE)], TWICE)]


def run_case():
    """Two pages; the line of a page begins with its number."""
    writes = {"%s.%d" % (name, page): "page %d: write fault: %s\n" % (page, OUTPUTS[name])
              for page in range(2) for name in ["c.out", "m.out", "report"]}
    words = ["2", "1", "job", "report", "Cyan:Cyan:c.out", "Magenta:Magenta:m.out"]
    return case("traprun", words, TWICE, [], ["c.out.0", "report.0", "c.out.1"], writes=writes, pages=2)


# The runs in which calls of the system fail.
WRITING = FAULTS = [run_case()]
TWICE_OTHER = TWICE["job"].replace(b"/TrapWidth 2", b"/TrapWidth 2 /Enabled false")


def other_of(one):
    """The case with another job."""
    return other_input(one, "job", TWICE_OTHER)


def keeps_earlier_pages(found, plain, before):
    """Whether memory ran out at a page, and the pages before it are as in the run without a refusal."""
    status, told, files = found
    return status == 7 and told == b"out of memory\n" and all(
        plain[2].get(file) == data for file, data in files.items() if file not in before)


def make(rng):
    """A job of some pages; now and then with images too few or too many."""
    files = {}
    count = rng.choice([1, 1, 2, 2, 3, 5])
    first = pictures.picture(rng)
    pages = [first] + [pictures.picture(rng, names=first.names) for _ in range(count - 1)]
    job = input_name(rng, "job", files, many_pages(rng, pages))
    shown = pages if rng.random() < 0.85 else rng.choice([pages[:-1], pages + [first], pages * 2])
    inputs = [input_name(rng, "p%d" % plate, files, data)
              for plate, data in enumerate(plates.image_files(rng, shown or [first], 0.025))]
    name = rng.choice(inputs)
    if rng.random() < 0.12 and name in files:
        files[name] = rng.choice([b"", files[name] * 2, *(files[name] + more for more in MORE_BYTES)])
    # With a page's number after it the name of a device would be that of a new file outside the folder.
    report, *written = (name.replace(FULL, "full") for name in [output_name(rng, "report"), *outputs(rng, inputs)])
    plain = [one for one in [report, *written] if "/" not in one and len(one) < 100]
    if rng.random() < 0.03 and plain:
        files["%s.%d" % (rng.choice(plain), rng.randrange(count))] = None
    if rng.random() < 0.05 and plain:
        job, *inputs = like_an_output(rng, files, [job, *inputs], plain)
    words = [workers_word(rng), band_word(rng), job, report, *joined(first.names, inputs, written)]
    return with_bad_words(rng, words), files


def like_an_output(rng, files, inputs, written):
    """The inputs, one of them under a name that some page could write, or under one that is nearly such a name."""
    place = rng.randrange(len(inputs))
    end = rng.choice([".0", ".1", ".77", ".000", ".", "0", ".0x", ".x0", ".0.0", ".-1"])
    name = rng.choice(written) + end
    if inputs[place] in files and name not in files:
        files[name] = files.pop(inputs[place])
        inputs[place] = name
    return inputs


# What may stand after the images of a plate file: whole plates, and ones with a fault.
MORE_BYTES = [b"P5 1 1 1 \1", b"P", b"\n", b"P5x", b"P5 0 1 1\n", b"P5 16384 16384 1\n", b"P5 1 1 0\n",
              b"P5 1 1 9\n\n", b"P5 2 1 9\n\1"]


def many_pages(rng, pages):
    """The job; now and then one at a limit, or of more pages than there may be."""
    if rng.random() < 0.004:
        return jobs.long_job(rng)
    if rng.random() < 0.006:
        off = b"<< /Enabled false >> settrapparams " + b"showpage " * rng.choice([256, 257, 300])
        return off + rng.choice([b"", b"1", b"newpath", b"["])
    return jobs.jobs(rng, pages)
