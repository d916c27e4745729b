#!/usr/bin/env python3
# SPDX-License-Identifier: Apache-2.0
"""Writes the page on which the press room is measured, bench/a4.pdf: a busy page of A4 in four inks.

    bench/a4_page.py [FILE]

A heading on a tint, a photograph, discs on a gradient, small type on paper and in colour on a tint, a vignette with type, and much
paper. Nothing in it is compressed and no font is embedded, so the same script writes the same bytes everywhere. It prints the digest
of the file, which is that of docs/SPEED.md.
"""
import hashlib
import os
import random
import sys

HERE = os.path.dirname(os.path.abspath(__file__))
PAGE = os.path.join(HERE, "a4.pdf")
WIDTH, HEIGHT = 595.276, 841.89
SEED = 61
PHOTOGRAPH = (300, 280)
WORDS = ("trap spread choke plate ink register paper press black cyan magenta yellow tint screen proof sheet zone edge width "
         "density overprint knockout vignette gradient separation varnish spot").split()


def photograph(chance):
    """The samples of a photograph: smooth noise with grain, in four inks."""
    width, height = PHOTOGRAPH
    cell = 40
    grid = [[[chance.randrange(10, most) for most in (170, 170, 170, 90)] for _ in range(width // cell + 2)]
            for _ in range(height // cell + 2)]
    out = bytearray()
    for y in range(height):
        row, down = divmod(y, cell)
        for x in range(width):
            column, across = divmod(x, cell)
            corners = grid[row][column], grid[row][column + 1], grid[row + 1][column], grid[row + 1][column + 1]
            shares = ((cell - across) * (cell - down), across * (cell - down), (cell - across) * down, across * down)
            out += bytes(sum(share * corner[ink] for share, corner in zip(shares, corners)) // cell ** 2 + chance.getrandbits(6)
                         for ink in range(4))
    return bytes(out)


def disc(x, y, radius):
    """The path of a disc."""
    far = 0.5523 * radius
    turns = ((x + radius, y + far, x + far, y + radius, x, y + radius), (x - far, y + radius, x - radius, y + far, x - radius, y),
             (x - radius, y - far, x - far, y - radius, x, y - radius), (x + far, y - radius, x + radius, y - far, x + radius, y))
    return "%.2f %.2f m %s f" % (x + radius, y, " ".join("%.2f %.2f %.2f %.2f %.2f %.2f c" % turn for turn in turns))


def discs(chance, box, step, count_of_inks):
    """Discs in rows and columns, a little out of line."""
    left, lower, right, upper = box
    inks = ("0 1 0 0", "1 0 0 0", "0 0 1 0", "0 .78 .86 0", "0 0 0 1", ".78 0 1 0")[:count_of_inks]
    lines = ["q %d %d %d %d re W n" % (left, lower, right - left, upper - lower)]
    for y in range(lower, upper, step):
        for x in range(left, right, step):
            lines.append("%s k %s" % (chance.choice(inks), disc(x + chance.randrange(step), y + chance.randrange(step),
                                                                  chance.randrange(5, 16))))
    return lines + ["Q"]


def lines_of_type(chance, box, size, ink, font="F1"):
    """Lines of words, cut off at the right side of the box."""
    left, lower, right, upper = box
    out = ["q %d %d %d %d re W n BT /%s %g Tf %s k %g TL 1 0 0 1 %d %.2f Tm" % (
        left, lower, right - left, upper - lower, font, size, ink, 1.25 * size, left + 2, upper - 1.1 * size)]
    for _ in range(int((upper - lower) / (1.25 * size))):
        words = [chance.choice(WORDS) for _ in range(int((right - left) / size / 1.5))]
        out.append("(%s) Tj T*" % " ".join(words))
    return out + ["ET Q"]


def drawing(chance):
    """What the page paints."""
    out = ["0.9 0 0 0 k 24 724 547 84 re f"]
    out += ["BT /F2 50 Tf 0 .95 0 0 k 1 0 0 1 36 742 Tm (TRAPS IN REGISTER) Tj ET"]
    out += ["q 322 0 0 295 24 404 cm /Im Do Q"]
    out += ["q 369 404 202 295 re W n /Across sh Q"] + discs(chance, (369, 404, 571, 699), 23, 6)
    out += lines_of_type(chance, (24, 290, 297, 384), 7, "0 0 0 1")
    out += ["0 0 .85 0 k 303 290 268 94 re f"] + lines_of_type(chance, (303, 290, 571, 384), 7, ".9 0 0 0")
    out += lines_of_type(chance, (24, 186, 297, 280), 9, "0 0 0 1")
    out += ["q 0 36 595.276 110 re W n /Down sh Q"] + discs(chance, (0, 36, 595, 146), 42, 4)
    out += lines_of_type(chance, (40, 90, 555, 140), 16, ".9 0 .15 0", "F2")
    out += ["0 1 .1 0 K .6 w"] + ["%d 200 m %d 270 l S" % (x, x + 40) for x in range(330, 530, 12)]
    return "\n".join(out).encode()


def shading(first, last, across):
    """A gradient between two colours."""
    coords = "369 0 571 0" if across else "0 146 0 36"
    return ("<< /ShadingType 2 /ColorSpace /DeviceCMYK /Coords [%s] /Extend [true true] /Function << /FunctionType 2 /Domain [0 1] "
            "/N 1 /C0 [%s] /C1 [%s] >> >>" % (coords, first, last)).encode()


def stream(entries, data):
    """A stream that is not compressed."""
    return b"<< %s /Length %d >> stream\n%s\nendstream" % (entries, len(data), data)


def pdf():
    """The bytes of the file."""
    chance = random.Random(SEED)
    image = b"/Type /XObject /Subtype /Image /Width %d /Height %d /ColorSpace /DeviceCMYK /BitsPerComponent 8" % PHOTOGRAPH
    fonts = [b"<< /Type /Font /Subtype /Type1 /BaseFont /%s /Encoding /WinAnsiEncoding >>" % name
             for name in (b"Helvetica", b"Helvetica-Bold")]
    box = "/MediaBox [0 0 %g %g] /TrimBox [0 0 %g %g]" % (WIDTH, HEIGHT, WIDTH, HEIGHT)
    page = ("<< /Type /Page /Parent 2 0 R %s /Contents 4 0 R /Resources << /Font << /F1 5 0 R /F2 6 0 R >> /XObject << /Im 7 0 R >> "
            "/Shading << /Across 8 0 R /Down 9 0 R >> >> >>" % box).encode()
    objects = [b"<< /Type /Catalog /Pages 2 0 R >>", b"<< /Type /Pages /Kids [3 0 R] /Count 1 >>", page,
               stream(b"", drawing(chance)), *fonts, stream(image, photograph(chance)),
               shading(".78 0 .08 0", ".24 0 .86 0", True), shading("0 1 .12 0", "0 .16 0 0", False)]
    out, places = b"%PDF-1.4\n", []
    for number, one in enumerate(objects, 1):
        places.append(len(out))
        out += b"%d 0 obj\n%s\nendobj\n" % (number, one)
    table = b"".join(b"%010d 00000 n \n" % place for place in places)
    return out + b"xref\n0 %d\n0000000000 65535 f \n%strailer\n<< /Size %d /Root 1 0 R >>\nstartxref\n%d\n%%%%EOF\n" % (
        len(objects) + 1, table, len(objects) + 1, len(out))


def write(path=PAGE):
    """Writes the page, unless it is there. Answers its digest."""
    data = pdf()
    with open(path, "wb") as file:
        file.write(data)
    return hashlib.sha256(data).hexdigest()


if __name__ == "__main__":
    print(write(*sys.argv[1:2]))
