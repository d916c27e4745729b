# SPDX-License-Identifier: Apache-2.0
"""What a run is on which faults are tried: small pages, the files before it, and the line that it prints if a call fails."""
from collections import namedtuple

from samples import job

OLD = b"what stood here before\n"

# A program's words; the files before, by their names, and those of them that are outputs; for each input and for each output
# what is told of a fault of it. A list of jobs has for each name the number of its line, and a run how many pages it has. Links
# have what they lead to. Outputs that grow side by side take their names together.
Case = namedtuple("Case", "program words files old reads writes lines pages links together", defaults=({}, 0, {}, ()))

INPUTS = {"job": "job", "Cyan": "plate 0", "Magenta": "plate 1", "list": "list", "set": "set"}
OUTPUTS = {"c.out": "plate 0", "m.out": "plate 1", "report": "report", "set": "set"}
PAGE = ["page", "job", "report", "Cyan:Cyan:c.out", "Magenta:Magenta:m.out"]

# The same page by another job, and another set, for two runs into the same names.
OTHER_JOB = job("/TrapWidth 2 /Enabled false")
OTHER_SET = b"trap set\npage 6 1 255 plates 2\nrun 0 3 2 9 9\nend\n"
OTHERS = {"job": OTHER_JOB, "set": OTHER_SET}


def case(program, words, files, outputs, old=(), **more):
    """A case in which these outputs are written, and those of `old` are there before."""
    reads = more.pop("reads", {name: "read fault: %s\n" % INPUTS[name] for name in files})
    writes = more.pop("writes", {name: "write fault: %s\n" % OUTPUTS[name] for name in outputs})
    return Case(program, words, files, {name: OLD for name in old}, reads, writes, **more)


def other_input(one, name="job", data=None):
    """The case, and another one with another input of that name: over the same files, and into the same names."""
    one = one._replace(files={**one.files, "other": data or OTHERS[name]})
    return one, one._replace(words=["other" if word == name else word for word in one.words])
