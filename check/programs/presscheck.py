# SPDX-License-Identifier: Apache-2.0
"""presscheck: the misregistration count of a page: what its tests run on."""
from faults.case import case
from lines import GATHER_LINES
from maker.cases import joined, number_word, one_page, with_bad_words, wrong_number
from samples import PAIR

# What random cases are to meet.
LINES = ["result", "usage", "untold", *GATHER_LINES]

# The runs in which each request for memory is refused, and those in which calls of the system fail.
REFUSED = [(["1", "job", "Cyan:Cyan", "Magenta:Magenta"], PAIR)]
WRITING = []
FAULTS = [case("presscheck", ["1", "job", "Cyan:Cyan", "Magenta:Magenta"], PAIR, [])]


def make(rng):
    files = {}
    picture, job, inputs = one_page(rng, files)
    radius = rng.choice(["0", "1", "1", "2", "3", "16", number_word(rng, rng.randint(0, 16))])
    if rng.random() < 0.02:
        radius = rng.choice(["17", wrong_number(rng, 16)])
    return with_bad_words(rng, [radius, job, *joined(picture.names, inputs)]), files
