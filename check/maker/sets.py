# SPDX-License-Identifier: Apache-2.0
"""Set files for a picture: right ones, and ones that are bad at some line."""


def set_file(rng, picture):
    """A set of runs by chance; in some a line is changed, put in or left out."""
    shape = [picture.width, picture.height, picture.maxval, len(picture.planes)]
    if rng.random() < 0.06:
        place = rng.randrange(4)
        shape[place] = max(1, shape[place] + rng.choice([-1, 1]))
    lines = [b"trap set", b"page %d %d %d plates %d" % tuple(shape)] + runs(rng, picture) + [b"end"]
    kind = rng.random()
    if kind < 0.4:
        break_line(rng, lines)
    elif kind < 0.5:
        lines.insert(-1, run_at_limits(rng, picture))
    text = b"".join(line + b"\n" for line in lines)
    if rng.random() < 0.06:
        text = text[:rng.randint(0, len(text))]
    if rng.random() < 0.06:
        text += rng.choice([b"\n", b"x", b"end\n", b"\0", b"run 0 0 1 0\n", b"x" * 200])
    return text


def runs(rng, picture):
    """Lines of runs that ascend and do not overlap."""
    lines = []
    for row in range(picture.height):
        place = 0
        while rng.random() < 0.5 and place < picture.width:
            first = rng.randint(place, picture.width - 1)
            length = rng.randint(1, picture.width - first)
            lines.append(run(row, first, length, [rng.randint(0, picture.maxval) for _ in picture.planes]))
            place = first + length
    return lines


def run(row, first, length, tints):
    return b"run %d %d %d " % (row, first, length) + b" ".join(b"%d" % tint for tint in tints)


def run_at_limits(rng, picture):
    """A run in the last row, which fits in or misses by one."""
    row, first = picture.height - 1, rng.randint(0, picture.width - 1)
    length, tints = picture.width - first, [picture.maxval] * len(picture.planes)
    kind = rng.randrange(5)
    if kind == 0:
        return run(row + 1, first, length, tints)
    if kind == 1:
        return run(row, first, length + 1, tints)
    if kind == 2:
        return run(row, first, 0, tints)
    if kind == 3:
        tints[rng.randrange(len(tints))] += 1
    return run(row, first, length, tints)


def break_line(rng, lines):
    """One line is no longer what may stand there."""
    place = rng.randrange(len(lines))
    kind = rng.randrange(7)
    if kind == 0:
        del lines[place]
    elif kind == 1:
        lines.insert(place, lines[rng.randrange(len(lines))])
    elif kind == 2 and len(lines) > 4:
        other = rng.randrange(2, len(lines) - 1)
        lines[2], lines[other] = lines[other], lines[2]
    elif kind == 3:
        lines[place] = lines[place] + rng.choice([b" ", b" 0", b"\r", b"x" * 160])
    elif kind == 4:
        lines[place] = lines[place].replace(b" ", rng.choice([b"  ", b"\t", b" 0", b" +", b" -"]), 1)
    elif kind == 5:
        change_number(rng, lines, place)
    else:
        lines[place] = rng.choice([b"", b"end ", b"END", b"run", b"run 0 0 0 0", b"trap set", b"run " + b"9" * 160,
                                   b"page 0 1 255 plates 1", b"page 1 1 0 plates 1", b"page 1 1 65536 plates 1",
                                   b"page 16385 1 1 plates 1", b"page 1 1 1 plates 17", b"page 16384 9766 1 plates 1"])


def change_number(rng, lines, place):
    """One number of a line is another, often out of range by one."""
    words = lines[place].split(b" ")
    numbers = [at for at, word in enumerate(words) if word.isdigit()]
    if numbers:
        at = rng.choice(numbers)
        words[at] = b"%d" % max(0, int(words[at]) + rng.choice([-1, 1, 1, 10, 65536, 2 ** 32, 2 ** 64]))
        lines[place] = b" ".join(words)
