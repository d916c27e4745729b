# SPDX-License-Identifier: Apache-2.0
"""Plate files of a picture, broken ones among them."""
from . import spelling


def samples(picture, plate):
    return [picture.maxval - tint for tint in picture.planes[plate]]


def plate_file(rng, picture, plate, broken=0.03):
    """The bytes of one plate's file."""
    data = spelling.plate(rng, picture.width, picture.height, picture.maxval, samples(picture, plate))
    return break_plate(rng, picture, plate, data) if rng.random() < broken else data


def break_plate(rng, picture, plate, data):
    """A file with a fault, or one that is a plate of another shape."""
    kind = rng.choice([0, 0, 1, 1, 2, 2, 2, 2, 3, 3, 4, 4, 5, 5, 6, 6, 7, 7, 8])
    width, height, maxval = picture[:3]
    if kind == 0:
        return data[:rng.randint(0, len(data))]
    if kind == 1:
        return data + rng.choice([b"\0", b"\n", b"P5", data])
    if kind == 2:
        return with_header(rng, data)
    if kind == 3:
        place = rng.randint(0, min(len(data) - 1, 20))
        return data[:place] + bytes([rng.randrange(256)]) + data[place + rng.randint(0, 1):]
    if kind == 4:
        return spelling.plate(rng, height + 1, width, maxval, [0] * width * (height + 1))
    if kind == 5:
        other = rng.choice([value for value in (1, 100, 255, 256, 65535) if value != maxval])
        return spelling.plate(rng, width, height, other, [0] * width * height)
    if kind == 6 and maxval not in (255, 65535):
        above = list(samples(picture, plate))
        above[rng.randrange(len(above))] = maxval + 1
        cut = spelling.plate(rng, width, height, maxval, above)
        return cut[:rng.randint(0, len(cut))] if rng.random() < 0.3 else cut
    if kind == 7:
        return long_header(rng, data)
    return rng.choice([b"", b"P", b"p5", b"P6 1 1 255\n\0", b"P5\n", b"P55", b"\xff" * 20])


def with_header(rng, data):
    """Another header before the raster, with numbers at the limits or with something odd between them."""
    sides, maxval, gaps, end = [b"1", b"1"], b"255", [b" "] * 3, b"\n"
    kind = rng.randrange(4)
    if kind == 0:
        sides = rng.choice([b"0 1", b"1 0", b"16385 1", b"1 16385", b"16384 9766", b"9766 16384", b"16384 9765",
                            b"00000 1", b"99999999999999999999 1", b"16384 16384", b"4294967297 1", b"-1 1",
                            b"1.5 1"]).split()
    elif kind == 1:
        maxval = rng.choice([b"0", b"000", b"65536", b"65537", b"00065535", b"4294967551", b"100000000000000", b"x",
                             b"+1"])
    elif kind == 2:
        gaps[rng.randrange(3)] = rng.choice([b"", b"#", b"\0", b"#a\n#b\r ", b"\n#", b"a", b"\xa0"])
    else:
        end = rng.choice([b"\v", b"\f", b"#\n", b"", b"a", b"\0"])
    if rng.random() < 0.2:
        maxval = b"0"
    header = b"P5" + gaps[0] + sides[0] + gaps[1] + sides[1] + gaps[2] + maxval + end
    return header[:rng.randint(0, len(header))] if rng.random() < 0.1 else header + data[-3:]


def long_header(rng, data):
    """A header of about as many bytes as one may have, 65,536; its numbers may be faults about there."""
    numbers = rng.choice([b"1 1 255\n", b"1 1 255\n", b"0 1 255\n", b"1 0 255\n", b"1 1 0\n", b"16385 1 1\n",
                          b"00000000 1 1\n"])
    size = 65536 - 2 - len(numbers) + rng.choice([-1, 0, 1, 1000, rng.randint(-3, 12), rng.randint(-3, 12)])
    return b"P5" + (b" " * size if rng.random() < 0.5 else b"#" + b"x" * (size - 2) + b"\n") + numbers + data[-1:]


def image_files(rng, pictures, broken=0.03):
    """For each plate the file of its images, one for each page."""
    return [b"".join(plate_file(rng, picture, plate, broken) for picture in pictures)
            for plate in range(len(pictures[0].planes))]


