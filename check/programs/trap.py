# SPDX-License-Identifier: Apache-2.0
"""trap page and trap sample: what its tests run on."""
from faults.case import case, PAGE
from lines import GATHER_LINES, WRITE_LINES
from maker.cases import Case as RandomCase
from maker.cases import band_word, joined, number_word, one_page, output_name, outputs, with_bad_words, workers_word
from samples import outs, PAIR, SHOP, ZONES

# What random cases are to meet, "" for a run that ends without a line.
LINES = ["", "report", "usage", "status 1", "untold", "page: TooManySamples", *GATHER_LINES, *WRITE_LINES]

# The runs in which each request for memory is refused.
REFUSED = [
    (["page", "job", "report", *outs(PAIR)], PAIR),
    (["page", "--workers", "2", "--band", "1", "job", "report", *outs(ZONES)], ZONES),
    (["page", "job", "report", *outs(SHOP)], SHOP),
    (["sample", "0", "16", "8", "2"], {}),
]

# The runs in which calls of the system fail. Something on the disk may be in the way of those of WRITING.
PLAIN = case("trap", PAGE, PAIR, ["c.out", "m.out", "report"], ["c.out", "report"])
WRITING = [PLAIN]
FAULTS = [
    PLAIN,
    case("trap", ["page", "--workers", "2", "--band", "1", "job", "out/report", "Cyan:Cyan:Cyan"], ZONES, [],
         writes={"Cyan": "write fault: plate 0\n", "out/report": "write fault: report\n"}),
    case("trap", PAGE, PAIR, ["c.out", "m.out", "report"], ["report"], links={"c.out": "link", "link": "out/c"},
         writes={"c.out": "write fault: plate 0\n", "link": "write fault: plate 0\n", "out/c": "write fault: plate 0\n",
                 "m.out": "write fault: plate 1\n", "report": "write fault: report\n"}),
    case("trap", ["sample", "0", "16", "8", "2"], {}, []),
]


def named(report, is_right):
    """The page of two plates with its report by that name, and whether such a file can be written."""
    words = [report if word == "report" else word for word in PLAIN.words]
    writes = {report if name == "report" else name: line for name, line in PLAIN.writes.items()}
    return PLAIN._replace(words=words, writes=writes, old={}), is_right


NAMES = [named("r" * 200, True), named("r" * 201, True), named("r" * 255, True), named("r" * 256, False),
         named("report/", False), named("out/..", False), named(".", False), named("./" * 1500 + "report", True),
         named("./" * 2045 + "report", False), named("job/report", False), named("out//report", True),
         named("/dev/full", False)]


def with_options(rng, words):
    """The words of a page with options in all places where they may stand, and in some where they may not."""
    words = list(words)
    closing = rng.randint(0, len(words)) if rng.random() < 0.08 else None
    options = [["--workers", workers_word(rng)], ["--band", band_word(rng)]]
    options = [option for option in options if rng.random() < 0.7]
    if rng.random() < 0.015:
        options.append(rng.choice([["--workers", "2"], ["--band", "2"], ["--work", "2"], ["--workers"], ["-w", "2"]]))
    places = {}
    for option in options:
        last = len(words) if closing is None else closing
        place = 0 if rng.random() < 0.6 else rng.randint(0, last)
        joined_up = rng.random() < 0.4 and len(option) == 2
        places.setdefault(place, []).append(["=".join(option)] if joined_up else option)
    made = []
    for place in range(len(words) + 1):
        made += [word for option in places.get(place, []) for word in option]
        made += ["--"] * (place == closing)
        made += words[place:place + 1]
    return made


def make(rng):
    """`trap page`, and now and then `trap sample`."""
    if rng.random() < 0.08:
        return sample(rng), {}
    files = {}
    picture, job, inputs = one_page(rng, files)
    report = rng.choice(inputs + [job]) if rng.random() < 0.02 else output_name(rng, "report")
    words = [job, report, *joined(picture.names, inputs, outputs(rng, inputs))]
    words = with_options(rng, with_bad_words(rng, words, 0.05))
    words = ["page", *words] if rng.random() < 0.99 else with_bad_words(rng, ["page", *words], 1)
    if rng.random() < 0.005:
        # A word that is not UTF-8.
        words.insert(rng.randint(0, len(words)), rng.choice(["\udcff", "a\udcc3", "\udced\udca0\udc80"]))
    return words, files


def sample(rng):
    width, height = rng.choice([(rng.randint(1, 30), rng.randint(1, 20)), (rng.randint(1, 12), rng.randint(1, 60))])
    number = rng.choice([rng.randint(0, 20), rng.randint(0, 2 ** 32 - 1), 2 ** 32 - 1])
    words = ["sample", number_word(rng, number), number_word(rng, width), number_word(rng, height), workers_word(rng)]
    if rng.random() < 0.15:
        words[1:4] = rng.choice([["0", "16384", "16384"], ["4294967296", "2", "2"], ["1", "16385", "1"],
                                 ["1", "1", "0"], ["1", "16384", "2442"]])
    return with_bad_words(rng, words)


def large_case():
    """A page of more samples than a page may have: sixteen plates with one file of ten million samples."""
    files = {"plate": b"P5 3163 3163 1\n" + bytes(3163 * 3163), "job": b"<< /Enabled false >> settrapparams showpage"}
    words = ["page", "job", "report", *("ink%d:plate:out%d" % (number, number) for number in range(16))]
    return RandomCase("trap", words, files, False)
