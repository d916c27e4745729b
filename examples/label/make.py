#!/usr/bin/env python3
# SPDX-License-Identifier: Apache-2.0
"""Makes the label: make.py OUT.pdf. Two pages of 252 by 168 points, front and back, in CMYK, a spot colour and a foil.
make.py OUT.pdf lid makes the jar's lid: a page of that size in CMYK, a dark blue and silver, with bleed, crop marks and a
colour bar.

Everything knocks out what lies under it, as a PDF does that asks for no overprint. All is reckoned in whole numbers or written
with few digits, and nothing is compressed, so the file is the same on every machine.
"""
import sys

WIDTH, HEIGHT = 252, 168
RED, FOIL = "/Red cs 1 scn", "/Foil cs 1 scn"
WHITE, BLACK, YELLOW = "0 0 0 0 k", "0 0 0 1 k", "0 .12 1 0 k"
GREEN, LEAF, SKY = ".85 .1 .9 .1 k", ".6 0 .9 0 k", ".8 .15 0 0 k"
IMAGE_SIDE = 120
# The lid: its boxes, its inks and colours, and the patches of its colour bar.
BLEED, TRIM = (11.5, 11.5, 240.5, 156.5), (20, 20, 232, 148)
BLUE, SILVER = "/Blue cs 1 scn", "/Silver cs 1 scn"
NAVY, SCARLET, RICH = "1 .6 0 .2 k", "0 .95 .9 0 k", ".6 .5 .4 1 k"
PATCHES = ("1 0 0 0 k", "0 1 0 0 k", "0 0 1 0 k", "0 0 0 1 k", BLUE, SILVER, "1 1 0 0 k", "0 1 1 0 k", "1 0 1 0 k")

# An EAN-13: the seven modules of each digit on the left in its two codes, and which of these the first digit asks for.
ODD = "0001101 0011001 0010011 0111101 0100011 0110001 0101111 0111011 0110111 0001011".split()
PARITY = "OOOOOO OOEOEE OOEEOE OOEEEO OEOOEE OEEOOE OEEEOO OEOEOE OEOEEO OEEOEO".split()


def turned(code):
    return "".join("01"[bit == "0"] for bit in code)


def modules(twelve):
    """The 95 modules of a number of twelve digits, 1 being a bar, and the digits with the one that checks them."""
    digits = twelve + str(-sum(int(digit) * (1, 3)[k % 2] for k, digit in enumerate(twelve)) % 10)
    left = "".join(ODD[int(digit)] if kind == "O" else turned(ODD[int(digit)])[::-1]
                   for digit, kind in zip(digits[1:7], PARITY[int(digits[0])]))
    right = "".join(turned(ODD[int(digit)]) for digit in digits[7:])
    return "101" + left + "01010" + right + "101", digits


def circle(x, y, radius):
    """A circle's path, of four curves."""
    bend = radius * 0.5523
    points = [(x + radius, y), (x + radius, y + bend), (x + bend, y + radius), (x, y + radius), (x - bend, y + radius),
              (x - radius, y + bend), (x - radius, y), (x - radius, y - bend), (x - bend, y - radius), (x, y - radius),
              (x + bend, y - radius), (x + radius, y - bend), (x + radius, y)]
    pairs = ["%.2f %.2f" % point for point in points]
    return pairs[0] + " m " + " ".join(" ".join(pairs[k:k + 3]) + " c" for k in (1, 4, 7, 10)) + " h"


def box(x, y, width, height):
    return f"{x} {y} {width} {height} re f"


def type_at(x, y, size, text, font="Bold", spread=0):
    return f"BT /{font} {size} Tf {spread} Tc {x} {y} Td ({text}) Tj ET"


def leaf(x, y, length, up):
    """A leaf from a point to the right, or to the left where the length is below 0."""
    half = abs(length) * 0.45 * up
    return (f"{x} {y} m {x + length * .3:.2f} {y + half:.2f} {x + length * .8:.2f} {y + half:.2f} {x + length} {y} c "
            f"{x + length * .7:.2f} {y - half * .3:.2f} {x + length * .3:.2f} {y - half * .3:.2f} {x} {y} c f")


def rays(x, y, inner, outer, count):
    """Thin lines out of a point, all around, on a grid of sixteen directions a quarter."""
    lines = []
    for k in range(count):
        along, quarter = k * 64 // count % 16, k * 64 // count // 16
        east, north = 16 - along, along
        length = (east * east + north * north) ** 0.5
        east, north = east / length, north / length
        for _ in range(quarter):
            east, north = -north, east
        lines.append("%.2f %.2f m %.2f %.2f l S" % (x + inner * east, y + inner * north, x + outer * east, y + outer * north))
    return lines


def barcode(x, y, module, height, twelve):
    """Bars, with the digits under them."""
    bits, digits = modules(twelve)
    parts = [BLACK]
    for k, bit in enumerate(bits):
        if bit == "1":
            guard = k < 3 or k >= 92 or 45 <= k < 50
            parts.append(box("%.2f" % (x + k * module), y - (4 if guard else 0), "%.2f" % module, height + (4 if guard else 0)))
    for start, text in ((-8, digits[0]), (5, digits[1:7]), (52, digits[7:])):
        parts.append(type_at("%.2f" % (x + start * module), y - 5.5, 6, text, "Plain", 0.75))
    return parts


def quince():
    """A picture of a quince in CMYK: light from the upper left, a blush on the right, a shadow below."""
    samples = bytearray()
    middle, radius = IMAGE_SIDE // 2, IMAGE_SIDE * 11 // 24
    for y in range(IMAGE_SIDE):
        for x in range(IMAGE_SIDE):
            away = (x - middle) ** 2 + (y - middle) ** 2
            if away > radius * radius:
                fall = min(255, (y * 120) // IMAGE_SIDE + 20)
                samples += bytes((fall, fall // 6, fall // 2, 0))
                continue
            light = (x - middle * 3 // 4) ** 2 + (y - middle * 2 // 3) ** 2
            dark = min(255, light * 200 // (radius * radius))
            blush = max(0, (x - middle) * 2 + (middle - abs(y - middle)) // 2)
            samples += bytes((dark * dark // 800, min(230, 10 + dark // 4 + blush), max(60, 245 - max(0, 40 - dark) * 4),
                              dark * dark // 900))
    return bytes(samples)


def front():
    return [
        "q 0 0 252 168 re W n /Sky sh Q",
        ".25 w .9 .5 0 0 K", *rays(126, 96, 60, 150, 64),
        FOIL, circle(126, 96, 58), circle(126, 96, 54.5), "f*",
        YELLOW, circle(126, 96, 54.5), "f",
        LEAF, leaf(126, 134, 26, 1), leaf(126, 134, -26, 1),
        RED, type_at(30, 82, 50, "QUINCE"),
        RED, box(0, 44, 252, 22),
        WHITE, type_at(40, 49.5, 17, "MARMALADE", "Bold", 6.4),
        FOIL, box(0, 66, 252, 1.5), box(0, 42.5, 252, 1.5),
        GREEN, box(0, 0, 252, 42.5),
        "q", circle(38, 21.5, 16), "W n 33 0 0 33 21.5 5 cm /Picture Do Q",
        YELLOW, type_at(62, 28, 6, "SLOWLY BOILED IN SMALL COPPER PANS", "Bold", 0.3),
        WHITE, type_at(62, 20, 5, "Of quinces from old trees by the river, cane sugar and a little lemon.", "Plain"),
        RED, type_at(62, 12.5, 5, "Once opened keep it cool and eat it within six weeks.", "Bold"),
        ".3 w 0 .12 1 0 K", *(f"62 {y} m 240 {y} l S" for y in ("9", "7.8", "6.6")),
        BLACK, circle(224, 140, 17), "f",
        YELLOW, type_at(213.5, 141, 12, "340"), type_at(220.5, 131, 8, "g"),
        RED, circle(28, 140, 17), "f",
        WHITE, type_at(18.6, 142, 6, "NO. 7", "Bold", 0.4), SKY, type_at(15.6, 134.5, 4.5, "SINCE 1912", "Bold"),
    ]


def back():
    words = ["Quinces 55 %, cane sugar, lemon juice 2 %, quince pectin.", "No colours and no flavours are added.",
             "May hold traces of pips. Stir before serving.", "Best before: see the lid. Store in a dry place.",
             "Filled by hand at the mill on the river bank."]
    table = [("Energy", "1040 kJ"), ("Fat", "0.1 g"), ("Sugars", "58 g"), ("Fibre", "1.9 g"), ("Salt", "0.02 g")]
    return [
        GREEN, box(0, 0, 252, 168),
        ".25 w .6 0 .9 0 K", *(f"{x} 0 m {x + 84} 168 l S" for x in range(-84, 252, 6)),
        "q 12 96 132 60 re W n /Panel sh Q",
        RED, type_at(17, 144, 9, "WHAT IS IN IT", "Bold", 0.5),
        SKY, *(type_at(17, 134 - 7 * k, 4.5, text, "Bold") for k, text in enumerate(words)),
        RED, box(12, 92, 132, 4),
        WHITE, box(12, 12, 132, 74), BLACK, type_at(17, 76, 6, "IN 100 GRAMS"),
        *(part for k, (name, much) in enumerate(table) for part in
          (type_at(17, 66 - 11 * k, 6, name, "Plain"), type_at(110, 66 - 11 * k, 6, much, "Plain"),
           f".3 w 0 0 0 1 K 15 {63 - 11 * k} m 141 {63 - 11 * k} l S")),
        WHITE, box(154, 12, 86, 52), *barcode(164, 26, 0.74, 32, "201234567890"),
        FOIL, circle(197, 112, 38), "f",
        RED, circle(197, 112, 33), "f",
        YELLOW, type_at(174, 116, 15, "FROM", "Bold", 0.8), type_at(173, 101, 13, "TREES", "Bold", 0.8),
        "q", circle(197, 138, 4), "W n 8 0 0 8 193 134 cm /Picture Do Q",
    ]


def marks():
    """Crop marks at the lid's corners, on every plate, and patches of its inks above it."""
    left, lower, right, upper = TRIM
    lines = [f"{x} {y} m {x} {y + 8} l S" for x in (left, right) for y in (1, HEIGHT - 9)]
    lines += [f"{x} {y} m {x + 8} {y} l S" for x in (1, WIDTH - 9) for y in (lower, upper)]
    patches = [f"{color} {box(54 + 16 * k, 158.5, 16, 8)}" for k, color in enumerate(PATCHES)]
    return ["/All CS 1 SCN .25 w", *lines, *patches]


def lid():
    left, lower, right, upper = BLEED
    words = ("Keep the jar upright and cool, below 18 degrees.", "The lid clicks when the jar is opened first.",
             "Glass and lid are collected for the next batch.", "Filled by hand at the mill on the river bank.")
    return [
        *marks(),
        BLUE, box(left, lower, right - left, upper - lower),
        SILVER, circle(68, 102, 36), "f", BLUE, circle(68, 102, 31.5), "f", SILVER, type_at(43, 94, 23, "No 7"),
        SCARLET, box(118, 62, 104, 76),
        NAVY, type_at(124, 124, 11, "MARMALADE"),
        *(type_at(124, 110 - 8 * k, 4, text, "Bold") for k, text in enumerate(words)),
        YELLOW, type_at(124, 69, 6, "quince-mill.example", "Bold", 0.3),
        SILVER, box(left, 44, right - left, 3),
        RICH, box(left, lower, right - left, 44 - lower),
        WHITE, type_at(26, 29, 10, "OPEN BY HALF A TURN", "Bold", 1.2),
        type_at(26, 22.5, 4.5, "Best before the date on the rim. Once opened, eat within six weeks.", "Plain"),
    ]


def shading(line, ends):
    return (f"<< /ShadingType 2 /ColorSpace /DeviceCMYK /Coords [{line}] /Extend [true true] /Function "
            f"<< /FunctionType 2 /Domain [0 1] /C0 [{ends[0]}] /C1 [{ends[1]}] /N 1 >> >>")


def spot(name, mixed):
    return (f"[/Separation /{name} /DeviceCMYK << /FunctionType 2 /Domain [0 1] /C0 [0 0 0 0] /C1 [{mixed}] /N 1 >>]")


def stream(head, data):
    return f"<< {head} /Length {len(data)} >>\nstream\n".encode() + data + b"\nendstream"


def page(contents, resources, boxes=()):
    sides = "".join(f" /{name} [{' '.join(map(str, sides))}]" for name, sides in (("MediaBox", (0, 0, WIDTH, HEIGHT)), *boxes))
    return f"<< /Type /Page /Parent 2 0 R{sides} /Contents {contents} 0 R /Resources {resources} 0 R >>".encode()


def fonts():
    return " ".join(f"/{name} << /Type /Font /Subtype /Type1 /BaseFont /{base} >>"
                    for name, base in (("Bold", "Helvetica-Bold"), ("Plain", "Helvetica")))


def of_label():
    resources = (f"<< /Font << {fonts()} >> /ColorSpace << /Red {spot('Label#20Red', '0 .95 .85 0')} "
                 f"/Foil {spot('Gold#20Foil', '.15 .3 .75 .1')} >> /XObject << /Picture 8 0 R >> "
                 f"/Shading << /Sky {shading('0 168 0 40', ('.95 .3 0 0', '.25 0 .1 0'))} "
                 f"/Panel {shading('12 0 144 0', ('0 .05 .9 0', '0 0 .15 0'))} >> >>")
    image = stream(f"/Type /XObject /Subtype /Image /Width {IMAGE_SIDE} /Height {IMAGE_SIDE} /BitsPerComponent 8 "
                   "/ColorSpace /DeviceCMYK", quince())
    return [b"<< /Type /Catalog /Pages 2 0 R >>", b"<< /Type /Pages /Kids [3 0 R 4 0 R] /Count 2 >>",
            page(5, 7), page(6, 7), stream("", "\n".join(front()).encode()), stream("", "\n".join(back()).encode()),
            resources.encode(), image]


def of_lid():
    resources = (f"<< /Font << {fonts()} >> /ColorSpace << /Blue {spot('PANTONE#20287#20C', '1 .75 .02 .18')} "
                 f"/Silver {spot('PANTONE#20877#20C', '0 0 0 .4')} /All {spot('All', '1 1 1 1')} >> >>")
    return [b"<< /Type /Catalog /Pages 2 0 R >>", b"<< /Type /Pages /Kids [3 0 R] /Count 1 >>",
            page(4, 5, (("BleedBox", BLEED), ("TrimBox", TRIM))), stream("", "\n".join(lid()).encode()), resources.encode()]


def main():
    file, places = b"%PDF-1.5\n%\xe2\xe3\xcf\xd3\n", []
    for number, thing in enumerate(of_lid() if sys.argv[2:] == ["lid"] else of_label(), 1):
        places.append(len(file))
        file += f"{number} 0 obj\n".encode() + thing + b"\nendobj\n"
    start = len(file)
    file += f"xref\n0 {len(places) + 1}\n0000000000 65535 f \n".encode()
    file += b"".join(f"{place:010d} 00000 n \n".encode() for place in places)
    file += f"trailer << /Size {len(places) + 1} /Root 1 0 R >>\nstartxref\n{start}\n%%EOF\n".encode()
    with open(sys.argv[1], "wb") as out:
        out.write(file)


main()
