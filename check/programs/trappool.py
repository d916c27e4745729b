# SPDX-License-Identifier: Apache-2.0
"""trappool: a list of jobs: what its tests run on."""
from faults.case import Case, OLD, OTHER_JOB
from lines import GATHER_LINES, WRITE_LINES
from maker.cases import FOLDER, FULL, input_name, joined, one_page, output_name, outputs, with_bad_words, workers_word
from samples import PAIR

# What random cases are to meet.
LINES = ["usage", "untold", "read fault: list", "list: BadLine #", "job #: done",
         *("job #: " + line for line in [*GATHER_LINES, *WRITE_LINES])]

# The runs in which each request for memory is refused. A line that wants memory is reported with its number.
REFUSED = [(["2", "list"], {**PAIR, "list": b"job report Cyan:Cyan:c.out Magenta:Magenta:m.out\n"})]
MEMORY_LINES = [b"out of memory\n", b"job 0: out of memory\n"]


def pool_case():
    """Two lines of a list, the second in place of its plate."""
    names = ["a", "b"]
    files = {"list": b"a.job a.report Cyan:a.c:a.c.out Magenta:a.m:a.m.out\n"
                     b"b.job out/b.report Magenta:b.m:b.m Cyan:b.c:out/b.c\n"}
    reads, writes, lines = {"list": "read fault: list\n"}, {}, {}
    for line, name in enumerate(names):
        files.update({name + ".job": PAIR["job"], name + ".c": PAIR["Cyan"], name + ".m": PAIR["Magenta"]})
    for line, inputs, written in [(0, ["a.c", "a.m"], ["a.c.out", "a.m.out"]), (1, ["b.m", "b.c"], ["b.m", "out/b.c"])]:
        named = names[line] + ".job", ["a.report", "out/b.report"][line]
        reads[named[0]] = "read fault: job\n"
        reads.update({name: "read fault: plate %d\n" % plate for plate, name in enumerate(inputs)})
        writes.update({name: "write fault: plate %d\n" % plate for plate, name in enumerate(written)})
        writes[named[1]] = "write fault: report\n"
        lines.update({name: line for name in [*named, *inputs, *written]})
    old = {"a.c.out": OLD, "a.report": OLD, "out/b.c": OLD}
    return Case("trappool", ["2", "list"], files, old, reads, writes, lines)


# The runs in which calls of the system fail.
WRITING = FAULTS = [pool_case()]


def other_of(one):
    """Two lists over the same files and into the same names. No plate is replaced."""
    text = one.files["list"].replace(b"b.m:b.m ", b"b.m:b.m.out ")
    other = text.replace(b"a.job", b"other.job").replace(b"b.job", b"other.job")
    files = {**one.files, "list": text, "other.job": OTHER_JOB, "other": other}
    writes = {"b.m.out" if name == "b.m" else name: line for name, line in one.writes.items()}
    one = one._replace(files=files, writes=writes)
    return one, one._replace(words=["2", "other"])


def make(rng):
    """A list of jobs. Their files stand apart, but some outputs are inputs of other lines."""
    files, lines = {}, []
    for which in range(rng.choice([1, 2, 2, 3, 4])):
        own = {}
        picture, job, inputs = one_page(rng, own)
        here = {name: name if name.startswith((FOLDER, "nowhere")) else "%d-%s" % (which, name)
                for name in [job, *inputs, *own]}
        here.update({name: "%d+%s" % (which, name.partition("/")[2]) for name in own if name.startswith(FOLDER)})
        files.update({here[name]: data for name, data in own.items()})
        written = outputs(rng, [here[name] for name in inputs], "-%d" % which)
        line = [here[job], output_name(rng, "report-%d" % which)]
        lines.append(" ".join(line + joined(picture.names, [here[name] for name in inputs], written)))
    name = input_name(rng, "list", files, list_file(rng, lines))
    return with_bad_words(rng, [workers_word(rng), name]), files


def list_file(rng, lines):
    """The bytes of a list, some with a bad line."""
    lines = [line.encode() for line in lines]
    kind = rng.random()
    if kind < 0.02:
        lines += [b"j r%d C:p:o%d" % (n, n) for n in range(rng.choice([256, 257]) - len(lines))]
    elif kind < 0.03:
        last = b" r C:p:o\n"
        room = 1048576 - sum(len(line) + 1 for line in lines) - len(last)
        lines.append(b"j" * (room + rng.choice([0, 1, 2, 500])) + last[:-1])
    elif kind < 0.15:
        place = rng.randrange(len(lines))
        lines[place] = bad_line(rng, lines, place)
    text = b"".join(line + b"\n" for line in lines)
    if rng.random() < 0.06:
        cut = text[:rng.randint(0, len(text))]
        text = rng.choice([text[:-1], text[:-1], b"", b"\n", text + b"\n", text + b"x", cut])
    return text


def bad_line(rng, lines, place):
    line = lines[place]
    words = line.split(b" ")
    # With a byte more /dev/full would be the name of a file that may be created.
    returned = line if line.endswith(FULL.encode()) else line + b"\r"
    return rng.choice([
        b"", b" " + line, line + b" ", line.replace(b" ", b"  ", 1), line.replace(b" ", b"\t", 1), returned,
        b" ".join(words[:2]), line + b" \xff:a:b", line + b" a:b", line + b" C:a:" + words[1], line + b" " + words[2],
        line + b" Z:a:b Z:a:c", rng.choice(lines), line + b" " + b" ".join(b"N%d:a:q%d" % (n, n) for n in range(16)),
        b"\0" + line, line + b"\0", b"-- " + line, b"j r\xc3\xa9 C:p:o\xc3\xa9",
    ])
