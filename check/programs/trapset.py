# SPDX-License-Identifier: Apache-2.0
"""trapset: the traps of a page as a file: what its tests run on."""
from faults.case import case, other_input
from lines import GATHER_LINES
from maker import pictures, plates, sets
from maker.cases import input_name, joined, one_page, output_name, outputs, with_bad_words
from samples import PAIR, SET

# What random cases are to meet, "" for a run that ends without a line.
LINES = ["", "usage", "untold", *GATHER_LINES, "read fault: set", "write fault: set", "write fault: plate #",
         "set: BadLine #", "set: Differs"]

# The runs in which each request for memory is refused.
REFUSED = [
    (["traps", "job", "set", "Cyan:Cyan", "Magenta:Magenta"], PAIR),
    (["apply", "set", "Cyan:c.out", "Magenta:m.out"], {**PAIR, "set": SET}),
]

# The runs in which calls of the system fail.
TRAPS = case("trapset", ["traps", "job", "set", "Cyan:Cyan", "Magenta:Magenta"], PAIR, ["set"], ["set"])
APPLY = case("trapset", ["apply", "set", "Cyan:c.out", "Magenta:m.out"],
             {"Cyan": PAIR["Cyan"], "Magenta": PAIR["Magenta"], "set": SET}, ["c.out", "m.out"], ["m.out"])
WRITING = FAULTS = [TRAPS, APPLY]


def other_of(one):
    """The case with another job, or another set."""
    return other_input(one, one.words[1])


def make(rng):
    if rng.random() < 0.45:
        return trapset_traps(rng)
    return trapset_apply(rng)


def trapset_traps(rng):
    files = {}
    picture, job, inputs = one_page(rng, files)
    words = ["traps", job, output_name(rng, "set"), *joined(picture.names, inputs)]
    return with_bad_words(rng, words), files


def trapset_apply(rng):
    files = {}
    picture = pictures.picture(rng)
    inputs = [input_name(rng, "p%d" % plate, files, plates.plate_file(rng, picture, plate))
              for plate in range(len(picture.planes))]
    name = input_name(rng, "set", files, sets.set_file(rng, picture))
    words = joined(inputs, outputs(rng, inputs))
    if rng.random() < 0.05:
        words = words[1:] or words
    return with_bad_words(rng, ["apply", name, *words]), files
