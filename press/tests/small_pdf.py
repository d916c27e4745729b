#!/usr/bin/env python3
# SPDX-License-Identifier: Apache-2.0
"""Makes the small PDF files of the press room's tests: small_pdf.py FOLDER."""
import os
import sys

sys.dont_write_bytecode = True
from pdf_writer import JAPAN, Pdf, spaces


def page(spots, content):
    """A page's spots, all of one look, and what is drawn."""
    return spaces(spots), content


def squares(spots, step=12):
    """A square of each spot, side by side, on a bar of cyan."""
    return page(spots, "1 0 0 0 k 0 20 120 4 re f " +
                " ".join(f"/S{k} cs 1 scn {k * step} 8 {step} 16 re f" for k in range(len(spots))))


def image():
    """A picture of 40 by 20 samples: blocks of cyan and magenta, a photograph's edges in small."""
    return b"".join(bytes((255, 0, 0, 0) if (x // 10 + y // 10) % 2 else (0, 255, 0, 0)) for y in range(20) for x in range(40))


def add_image(file):
    return file.image("/Width 40 /Height 20 /BitsPerComponent 8 /ColorSpace /DeviceCMYK", image())


def pdf(path, pages, size=(120, 48), more="", pictured=False):
    """A PDF. `more` stands in each page's dictionary; where it is pictured, a page may draw the picture as /Im."""
    file = Pdf()
    drawn = f" /XObject << /Im {add_image(file)} >>" if pictured else ""
    for resources, content in pages:
        file.page(content, size, resources + drawn, more)
    with open(path, "wb") as out:
        out.write(file.bytes(version="1.5"))


def patterned(path, pair):
    """A pattern with a picture in it, and a pair of colours beside it."""
    file = Pdf()
    tile = file.stream(f"/Type /Pattern /PatternType 1 /PaintType 1 /TilingType 1 /BBox [0 0 25 20] /XStep 25 /YStep 20 "
                       f"/Resources << /XObject << /Im {add_image(file)} >> >>", "q 25 0 0 20 0 0 cm /Im Do Q")
    file.page("/Pattern cs /P scn 10 4 50 40 re f " + pair, resources=f"/Pattern << /P {tile} >>")
    with open(path, "wb") as out:
        out.write(file.bytes())


ODD_NAMES = [b"PANTONE 185 C", b"PANTONE/185/C", b"100% (matt)", "Gr\u00fcn".encode(), b"-dash", b"a:b", b"x" * 100, b"tab\there", b"#5"]


def write_samples(folder):
    """Writes every sample file into the folder."""
    pdf(os.path.join(folder, "two.pdf"), [squares([b"Warm Red", b"Gold Foil"])])
    pdf(os.path.join(folder, "gray.pdf"), [page([], "0.4 g 10 10 60 20 re f")])
    pdf(os.path.join(folder, "blank.pdf"), [page([], "")])
    pdf(os.path.join(folder, "odd.pdf"), [squares(ODD_NAMES)])
    pdf(os.path.join(folder, "many.pdf"), [squares([b"S%d" % k for k in range(13)], 9)])
    pdf(os.path.join(folder, "three.pdf"), [page([], f"{k / 4} g 10 10 60 20 re f") for k in range(3)])
    pdf(os.path.join(folder, "wide.pdf"), [page([], "0.4 g 10 0 60 1 re f")], (2000, 2))
    pdf(os.path.join(folder, "huge.pdf"), [page([], "0 0 0 1 k 10 10 60 20 re f")], (14400, 14400))
    # Cyan beside magenta, with nothing else to be said of it.
    pair = "1 0 0 0 k 10 10 40 28 re f 0 1 0 0 k 50 10 40 28 re f"
    pdf(os.path.join(folder, "pair.pdf"), [page([], pair)])
    pdf(os.path.join(folder, "cropped.pdf"), [page([], pair)], more="/CropBox [10 5 110 43] /BleedBox [5 0 115 48]")
    pdf(os.path.join(folder, "sizeless.pdf"), [page([], pair)], (0, 0))
    pdf(os.path.join(folder, "spellings.pdf"), [squares([b"cyan", b"Warm Red", b"WARM RED"])])
    pdf(os.path.join(folder, "japan.pdf"), [(JAPAN, "0 0 0 1 k BT /F 20 Tf 10 10 Td <0D0418C8> Tj ET")])
    pdf(os.path.join(folder, "twenty.pdf"), [page([], pair)] * 20, (60, 20))
    # A picture, and the pair of colours beside it; turned, and with another box.
    beside = "1 0 0 0 k 70 4 20 40 re f 0 1 0 0 k 90 4 20 40 re f"
    content = "q 50 0 0 40 5 4 cm /Im Do Q " + beside
    patterned(os.path.join(folder, "pattern.pdf"), beside)
    pdf(os.path.join(folder, "photo.pdf"), [page([], content)], pictured=True)
    pdf(os.path.join(folder, "turned.pdf"), [page([], content)], more="/Rotate 90 /CropBox [0 0 118 46]", pictured=True)
    round_clip = "q 30 44 m 50 24 l 30 4 l 10 24 l h W n 50 0 0 40 5 4 cm /Im Do Q"
    pdf(os.path.join(folder, "clipped.pdf"), [page([], round_clip)], pictured=True)
    # A die line that knocks out, a varnish, and a spot of a swatch book, on yellow.
    technical = "0 0 1 0 k 0 0 120 48 re f /S0 CS 1 SCN 2 w 10 10 50 28 re S /S1 cs 1 scn 70 10 20 28 re f /S2 cs 1 scn 95 10 20 28 re f"
    pdf(os.path.join(folder, "technical.pdf"), [page([b"CutContour", b"UV-Lack", b"PANTONE Reflex Blue C"], technical)])
    with open(os.path.join(folder, "two.pdf"), "rb") as file:
        whole = file.read()
    # A damaged PDF: Ghostscript looks for what its table of places would say.
    with open(os.path.join(folder, "pair.pdf"), "rb") as file:
        damaged = file.read().replace(b"startxref\n", b"startxref\n1")
    eps = b"%!PS-Adobe-3.0 EPSF-3.0\n%%BoundingBox: 0 0 60 40\n1 0 0 0 setcmykcolor 5 5 20 30 rectfill [/Separation (Warm Red) " \
        b"/DeviceCMYK {dup 0 exch 0.9 mul 3 -1 roll 0.8 mul 0}] setcolorspace 1 setcolor 25 5 20 30 rectfill showpage\n"
    for name, data in (("damaged", damaged), ("drawn", eps)):
        with open(os.path.join(folder, name + (".eps" if name == "drawn" else ".pdf")), "wb") as out:
            out.write(data)
    for name, data in (("empty", b""), ("text", b"no PDF at all\n"), ("cut", whole[:300])):
        with open(os.path.join(folder, name + ".pdf"), "wb") as out:
            out.write(data)


if __name__ == "__main__":
    write_samples(sys.argv[1])
