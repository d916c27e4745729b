#!/usr/bin/env python3
# SPDX-License-Identifier: Apache-2.0
"""Makes files like the worst that a shop is sent: worst_files.py FOLDER. Large formats, many and odd spots, overprints, transparency,
photographs, turned pages, wrong boxes, missing fonts, broken PDFs, PostScript of several kinds, and tables as spreadsheets save
them. It tells of each its name, what press/all ends with, the words that it is given, and what is bad about it, with tabs between.
"""
import math
import os
import subprocess
import sys
import zlib

sys.dont_write_bytecode = True
from pdf_writer import JAPAN, Pdf, spaces, spot

BUSY_CELL = 40
INKS = ("1 0 0 0", "0 1 0 0", "0 0 1 0", "0 0 0 1", ".6 0 .9 0", "0 .6 1 0", ".3 .2 .2 .1", ".7 .6 .6 1")
TYPE = "/Font << /F << /Type /Font /Subtype /Type1 /BaseFont /Helvetica-Bold >> >>"
# Of each file: what makes it, what press/all ends with, and what is bad about it.
FILES = {}


def makes(name, status, what):
    """A decorator of what makes a file."""
    def note(make):
        FILES[name] = make, status, what
        return make
    return note


def disc(x, y, radius):
    bend = radius * 0.5523
    return (f"{x + radius:.2f} {y} m {x + radius:.2f} {y + bend:.2f} {x + bend:.2f} {y + radius:.2f} {x} {y + radius:.2f} c "
            f"{x - bend:.2f} {y + radius:.2f} {x - radius:.2f} {y + bend:.2f} {x - radius:.2f} {y} c "
            f"{x - radius:.2f} {y - bend:.2f} {x - bend:.2f} {y - radius:.2f} {x} {y - radius:.2f} c "
            f"{x + bend:.2f} {y - radius:.2f} {x + radius:.2f} {y - bend:.2f} {x + radius:.2f} {y} c h")


def busy(width, height, cell=BUSY_CELL):
    """A page that is full: squares and discs of process inks, and type of each size over it."""
    lines = []
    for row in range(int(height // cell) + 1):
        for column in range(int(width // cell) + 1):
            x, y, k = column * cell, row * cell, row * 3 + column
            lines.append(f"{INKS[k % 7]} k {x} {y} {cell} {cell} re f {INKS[(k * 5 + 1) % 8]} k {disc(x + cell / 2, y + cell / 2, cell * .35)} f")
    lines += [f"0 0 0 {k % 2} k BT /F {4 + 2 * k} Tf {cell / 2} {cell / 3 + k * cell * 2} Td (Seam and sliver, {4 + 2 * k} points) Tj ET"
              for k in range(int(height / cell / 2))]
    lines.append(f"0 0 0 1 K .05 w 0 0 m {width} {height} l S .25 w 0 {height} m {width} 0 l S")
    return "\n".join(lines)


def photo(width, height, channels):
    """Samples like a photograph's: soft fades, hard edges, and noise."""
    out, noise = bytearray(), 1
    for y in range(height):
        for x in range(width):
            noise = (noise * 1103515245 + 12345) & 0x7FFFFFFF
            edge = 90 if (x // 23 + y // 17) % 3 == 0 else 0
            for channel in range(channels):
                value = 90 + 70 * math.sin(x / (9 + 4 * channel)) * math.cos(y / (13 - 2 * channel)) + edge * (channel % 2) + noise % 17
                out.append(min(255, max(0, int(value))))
    return bytes(out)


def picture(file, width, height, space, channels, more=""):
    return file.image(f"/Width {width} /Height {height} /BitsPerComponent 8 /ColorSpace {space} /Filter /FlateDecode {more}",
                      zlib.compress(photo(width, height, channels)))


# Large formats, many plates

def large(width, height, cell=BUSY_CELL, unit=1):
    def make():
        file = Pdf()
        file.page(busy(width, height, cell), (width, height), TYPE, f"/UserUnit {unit}")
        return file.bytes()
    return make


def with_spots(count):
    def make():
        file, names = Pdf(), [b"Spot %d" % k for k in range(count)]
        squares = " ".join(f"/S{k} cs 1 scn {10 + k * 20} 30 20 60 re f /S{k} cs .4 scn {10 + k * 20} 90 20 20 re f" for k in range(count))
        file.page("1 0 0 0 k 0 0 500 45 re f 0 0 0 1 k 0 100 500 4 re f " + squares, (500, 120), spaces(names))
        return file.bytes()
    return make


# What inks do to one another

@makes("technical.pdf", 0, "die lines, varnish, white, foil and glue, of which some knock out")
def technical():
    """A die line that overprints and one that knocks out, a varnish, a white, a foil, a glue."""
    file = Pdf()
    names = [b"CutContour", b"Crease line", b"Varnish Gloss", b"White opaque", b"Gold Foil", "Klebefläche".encode(), b"PANTONE 185 C"]
    content = ("0 .2 .9 0 k 0 0 300 200 re f .9 .6 0 0 k 60 60 180 80 re f /S6 cs 1 scn 90 80 60 40 re f "
               "/Over gs /S0 CS 1 SCN 1 w 20 20 260 160 re S /Out gs /S1 CS 1 SCN .5 w 150 20 m 150 180 l S "
               "/S2 cs 1 scn 160 85 60 30 re f /S3 cs 1 scn 30 30 40 20 re f /S4 cs 1 scn 230 30 40 40 re f /S5 cs 1 scn 230 150 40 20 re f")
    file.page(content, (300, 200), spaces(names) + " /ExtGState << /Over << /OP true /op true /OPM 1 >> /Out << /OP false /op false >> >>")
    return file.bytes()


@makes("overprint.pdf", 0, "overprints of an ink, a spot, type and white")
def overprint():
    """Yellow, a spot, black type and a white that overprint cyan, and the same that knock out."""
    file = Pdf()
    row = ("0 0 1 0 k 20 {0} 30 30 re f /S0 cs 1 scn 70 {0} 30 30 re f 0 0 0 0 k 120 {0} 30 30 re f 0 0 0 1 k BT /F 24 Tf 165 {0} Td (Black) "
           "Tj ET 0 .5 0 0 k 245 {0} 30 30 re f ")
    content = ("1 0 0 0 k 10 10 280 140 re f /Over gs " + row.format(100) + "/Out gs " + row.format(30))
    file.page(content, (300, 160), TYPE + spaces([b"Warm Red"]) +
              " /ExtGState << /Over << /OP true /op true /OPM 1 >> /Out << /OP false /op false >> >>")
    return file.bytes()


@makes("transparency.pdf", 0, "blends, soft masks and tints over a spot, in a CMYK group and in one of RGB")
def transparency():
    """Shadows, blends, and a soft mask over process inks and a spot; on a page whose group is CMYK, and on one whose group is RGB."""
    file = Pdf()
    fade = file.add("<< /ShadingType 2 /ColorSpace /DeviceGray /Coords [0 0 300 0] /Function << /FunctionType 2 /Domain [0 1] /C0 [0] /C1 [1] "
                    "/N 1 >> >>")
    mask = file.stream(f"/Type /XObject /Subtype /Form /BBox [0 0 300 200] /Group << /S /Transparency /CS /DeviceGray >> "
                       f"/Resources << /Shading << /Fade {fade} >> >>", "/Fade sh")
    states = ("/ExtGState << /Half << /ca .5 /CA .5 >> /Times << /BM /Multiply >> /Light << /BM /Screen >> /Tone << /BM /Luminosity >> "
              f"/Soft << /SMask << /S /Luminosity /G {mask} >> >> /Plain << /ca 1 /BM /Normal /SMask /None >> >>")
    content = ("1 0 0 0 k 10 110 130 80 re f /S0 cs 1 scn 150 110 140 80 re f /Half gs 0 1 0 0 k 60 90 170 60 re f /S0 cs 1 scn 20 100 60 30 re f "
               "/Plain gs /Times gs 0 0 1 0 k 100 130 110 20 re f 0 0 0 .6 k 30 160 230 10 re f /Plain gs /Light gs 0 1 0 0 k 40 176 200 8 re f "
               "/Plain gs /Soft gs 0 0 0 1 k 10 20 280 30 re f /S0 cs 1 scn 10 55 280 20 re f /Plain gs 0 .8 .8 0 k 130 10 30 80 re f "
               "/Tone gs .2 .8 0 0 k 200 5 60 100 re f")
    for space in ("/DeviceCMYK", "/DeviceRGB"):
        file.page(content, (300, 200), states + spaces([b"Reflex"], "1 .8 0 .05"), f"/Group << /S /Transparency /CS {space} /I true >>")
    return file.bytes()


@makes("shades.pdf", 0, "fades beside each other")
def shades():
    """Fades of process inks and of a spot, straight, round, and by a function of steps."""
    file = Pdf()
    ramp = "/Function << /FunctionType 2 /Domain [0 1] /C0 [1 0 0 0] /C1 [0 1 0 0] /N 1 >>"
    steps = ("/Function << /FunctionType 3 /Domain [0 1] /Bounds [.5] /Encode [0 1 0 1] /Functions [<< /FunctionType 2 /Domain [0 1] /C0 [1] /C1 [.7] "
             "/N 1 >> << /FunctionType 2 /Domain [0 1] /C0 [.2] /C1 [0] /N 1 >>] >>")
    shadings = [file.add(f"<< /ShadingType 2 /ColorSpace /DeviceCMYK /Coords [10 0 290 0] {ramp} >>"),
                file.add(f"<< /ShadingType 3 /ColorSpace /DeviceCMYK /Coords [80 50 5 80 50 40] {ramp} >>"),
                file.add(f"<< /ShadingType 2 /ColorSpace {spot(b'Warm Red')} /Coords [140 0 290 0] {steps} >>")]
    named = " ".join(f"/A{k} {one}" for k, one in enumerate(shadings))
    file.page("0 0 1 0 k 0 0 300 200 re f q 10 110 280 80 re W n /A0 sh Q /A1 sh q 140 10 150 80 re W n /A2 sh Q", (300, 200),
              f"/Shading << {named} >>")
    return file.bytes()


@makes("rich-black.pdf", 0, "white type of three points in four inks")
def rich_black():
    """White hairlines, small white type and figures in black of four inks, beside cyan."""
    file = Pdf()
    sizes = " ".join(f"BT /F {size} Tf 20 {20 + 18 * k} Td (White type of {size} points in four inks) Tj ET" for k, size in enumerate((3, 4, 5, 6, 8, 10)))
    lines = " ".join(f"{width} w 200 {20 + 12 * k} m 290 {20 + 12 * k} l S" for k, width in enumerate((.05, .1, .25, .5, 1, 2)))
    file.page(f".7 .6 .6 1 k 10 10 285 120 re f 0 0 0 0 k 0 0 0 0 K {sizes} {lines} 1 0 0 0 k 10 130 285 20 re f 0 0 0 1 k 100 135 90 10 re f",
              (305, 160), TYPE)
    return file.bytes()


@makes("registration.pdf", 0, "marks in all inks, a colorant that is none, mixtures, process inks as spots")
def registration():
    """Marks in all inks, a colorant that is none, a mixture of a process ink and a spot, and process inks by the way of spots."""
    file = Pdf()
    tint = file.stream("/FunctionType 4 /Domain [0 1 0 1] /Range [0 1 0 1 0 1 0 1]", "{dup 0.6 mul exch 0.9 mul 0}")
    mixture = f"/Mix [/DeviceN [/Cyan /Orange] /DeviceCMYK {tint}]"
    named = " ".join(f"/{short} {spot(name, look)}" for short, name, look in (
        ("All", b"All", "1 1 1 1"), ("None", b"None", "0 0 0 1"), ("K", b"Black", "0 0 0 1"), ("C", b"cyan", "1 0 0 0"), ("M", b"Magenta", "0 1 0 0")))
    marks = " ".join(f"{x} 10 m {x} 40 l {x - 15} 25 m {x + 15} 25 l S" for x in (30, 270))
    file.page(f"/All CS 1 SCN .25 w {marks} /None cs 1 scn 60 10 60 30 re f /Mix cs 1 .3 scn 40 60 80 60 re f .2 1 scn 120 60 80 60 re f "
              "/K cs 1 scn 200 60 60 60 re f /C cs 1 scn 40 130 80 30 re f /M cs .8 scn 120 130 80 30 re f", (300, 180),
              f"/ColorSpace << {named} {mixture} >>")
    return file.bytes()


ODD_SPOTS = ["Étikett".encode(), b"Cut/Crease", "漢字".encode(), b"line\nbreak", b"", b" ", b"..", b"Gr\xfcn", b"\x1b[31mred", b"$(touch ran)",
             b"x" * 120, b"<b>bold</b>"]


@makes("names.pdf", 0, "spots with names of all sorts")
def names():
    file = Pdf()
    content = "1 0 0 0 k 0 0 300 30 re f " + " ".join(f"/S{k} cs 1 scn {10 + k * 22} 15 22 40 re f" for k in range(len(ODD_SPOTS)))
    file.page(content, (300, 70), spaces(ODD_SPOTS))
    return file.bytes()


# Photographs

@makes("photos.pdf", 0, "photographs in every way that they are placed")
def photos():
    """Photographs in CMYK, in RGB and in gray, with a soft edge, turned, in a round frame, in strips, as a pattern, with type on them."""
    file = Pdf()
    soft = picture(file, 60, 45, "/DeviceGray", 1)
    drawn = {"C": picture(file, 160, 120, "/DeviceCMYK", 4), "R": picture(file, 160, 120, "/DeviceRGB", 3), "G": picture(file, 80, 60, "/DeviceGray", 1),
             "S": picture(file, 160, 120, "/DeviceCMYK", 4, f"/SMask {soft}"), "T": picture(file, 160, 10, "/DeviceCMYK", 4)}
    mask = file.image("/Width 32 /Height 24 /ImageMask true /BitsPerComponent 1", bytes(range(96)))
    tile = file.stream(f"/Type /Pattern /PatternType 1 /PaintType 1 /TilingType 1 /BBox [0 0 40 30] /XStep 40 /YStep 30 /Resources << /XObject << "
                       f"/C {drawn['C']} >> >>", "q 40 0 0 30 0 0 cm /C Do Q")
    named = "/XObject << " + " ".join(f"/{name} {one}" for name, one in drawn.items()) + f" /K {mask} >> /Pattern << /P {tile} >>"
    strips = " ".join(f"q 80 0 0 5 310 {200 + 5 * k} cm /T Do Q" for k in range(12))
    content = ("0 .1 .5 0 k 0 0 400 300 re f q 120 0 0 90 20 190 cm /C Do Q q 120 0 0 90 160 190 cm /R Do Q "
               "0 0 0 0 k BT /F 20 Tf 30 220 Td (On a photo) Tj ET q 110 30 -22 80 60 80 cm /S Do Q "
               f"q {disc(230, 120, 45)} W n 120 0 0 90 170 75 cm /C Do Q {strips} /Pattern cs /P scn 300 90 80 90 re f "
               "1 0 0 0 k q 80 0 0 60 300 15 cm /K Do Q 0 1 0 0 k 20 10 120 20 re f 1 0 0 0 k 140 10 120 20 re f")
    file.page(content, (400, 300), TYPE + named)
    return file.bytes()


# Pages as they lie

@makes("turned.pdf", 0, "turned pages, boxes that begin below nothing, a point of two")
def turned():
    """A page turned each way, its boxes beginning below nothing, a photograph on it and a pair of colours; and one whose point is two."""
    file = Pdf()
    drawn = picture(file, 120, 90, "/DeviceCMYK", 4)
    content = ("q 80 0 0 60 10 60 cm /Im Do Q 1 0 0 0 k 110 60 40 60 re f 0 1 0 0 k 150 60 40 60 re f 0 0 0 1 k BT /F 30 Tf 20 15 Td (This is up) Tj ET "
               "0 0 1 0 k -20 -10 15 190 re f")
    for turn, unit in ((0, 1), (90, 1), (180, 1), (270, 1), (0, 2)):
        file.page(content, resources=TYPE + f"/XObject << /Im {drawn} >>",
                  more=f"/MediaBox [-20 -10 220 180] /CropBox [-10 0 210 140] /TrimBox [0 10 200 130] /Rotate {turn} /UserUnit {unit}")
    return file.bytes()


@makes("boxes.pdf", 0, "boxes that are larger than the page, the wrong way round, empty, elsewhere")
def boxes():
    file = Pdf()
    pair = "1 0 0 0 k 10 10 40 28 re f 0 1 0 0 k 50 10 40 28 re f"
    for more in ("/MediaBox [0 0 120 48] /TrimBox [-50 -50 500 500]", "/MediaBox [120 48 0 0]", "/MediaBox [0 0 120 48] /CropBox [0 0 0 0]",
                 "/MediaBox [-100 -50 20 -2]", "/MediaBox [0 0 119.53 47.9]", "/MediaBox [0 0 120 48] /TrimBox [500 500 600 600]"):
        file.page(pair, more=more)
    return file.bytes()


def wrong_box(box):
    def make():
        file = Pdf()
        file.page("1 0 0 0 k 10 10 40 28 re f 0 1 0 0 k 50 10 40 28 re f", more=box)
        return file.bytes()
    return make


@makes("layers.pdf", 0, "a layer that is off, annotations, a form")
def layers():
    """A layer that is off, an annotation that prints and one that does not, a form's field."""
    file = Pdf()
    hidden = file.add("<< /Type /OCG /Name (Cutter) >>")
    looks = [file.stream("/Type /XObject /Subtype /Form /BBox [0 0 60 30]", f"{ink} k 0 0 60 30 re f") for ink in ("0 .8 .8 0", "0 0 0 1", ".5 0 1 0")]
    notes = [file.add(f"<< /Type /Annot /Subtype {kind} /Rect [{x} 20 {x + 60} 50] /F {flags} {more} /AP << /N {look} >> >>")
             for kind, x, flags, more, look in (("/Square", 20, 4, "", looks[0]), ("/Square", 100, 0, "", looks[1]),
                                                ("/Widget", 180, 4, "/FT /Tx /T (Name)", looks[2]))]
    file.page("1 0 0 0 k 10 10 240 60 re f /OC /Off BDC 0 1 0 0 k 10 80 240 30 re f EMC 0 0 1 0 k 10 120 240 30 re f", (260, 160),
              f"/Properties << /Off {hidden} >>", f"/Annots [{' '.join(notes)}]")
    return file.bytes(f"/OCProperties << /OCGs [{hidden}] /D << /OFF [{hidden}] /Order [{hidden}] >> >> /AcroForm << /Fields [{notes[2]}] >>")


@makes("fonts.pdf", 0, "fonts that lack, of which one is not named")
def fonts():
    """A page for each: a font that is not there, one of Japan that is not there, one that is drawn, one that the page does not name, and one
    whose file is no font."""
    file = Pdf()
    line = "0 0 1 0 k 0 0 200 60 re f 1 0 0 0 k BT /F 20 Tf 10 20 Td {} Tj ET"
    arial = "/Font << /F << /Type /Font /Subtype /TrueType /BaseFont /Arial-BoldMT /Encoding /WinAnsiEncoding >> >>"
    square = file.stream("", "800 0 0 0 700 700 d1 0 0 700 700 re f")
    drawn = (f"/Font << /F << /Type /Font /Subtype /Type3 /FontBBox [0 0 800 800] /FontMatrix [.001 0 0 .001 0 0] /CharProcs << /box {square} >> "
             "/Encoding << /Type /Encoding /Differences [65 /box] >> /FirstChar 65 /LastChar 65 /Widths [800] /Resources << >> >> >>")
    nonsense = file.stream("/Length1 300", b"no font at all " * 20)
    broken = ("/Font << /F << /Type /Font /Subtype /TrueType /BaseFont /ABCDEF+Broken /Encoding /WinAnsiEncoding /FontDescriptor << /Type /FontDescriptor "
              f"/FontName /ABCDEF+Broken /Flags 32 /FontBBox [0 0 1000 1000] /ItalicAngle 0 /Ascent 800 /Descent -200 /CapHeight 700 /StemV 80 /FontFile2 {nonsense} >> >> >>")
    for text, resources in (("(Arial is not here)", arial), ("<0D0418C81A31>", JAPAN), ("(AAA)", drawn), ("(No such font)", ""), ("(Broken font)", broken)):
        file.page(line.format(text), (200, 60), resources)
    return file.bytes()


# Broken files

@makes("new.ai", 0, "an Illustrator file that is a PDF")
@makes("pdf-named.eps", 0, "a PDF that is called EPS")
def plain():
    file = Pdf()
    drawn = picture(file, 60, 45, "/DeviceCMYK", 4)
    file.page(busy(200, 120) + " q 80 0 0 60 100 40 cm /Im Do Q", (200, 120), TYPE + f"/XObject << /Im {drawn} >>")
    return file.bytes()


@makes("changed-bytes.pdf", 1, "60 bytes changed")
def changed_bytes():
    data, at = bytearray(plain()), 500
    for k in range(60):
        at = (at * 7919 + 104729) % (len(data) - 600) + 300
        data[at] = (data[at] + 1 + k) % 256
    return bytes(data)


@makes("without-places.pdf", 0, "the table of places cut off")
def without_places():
    data = plain()
    return data[:data.rindex(b"xref\n0 ")]


@makes("ring.pdf", 1, "a tree of pages that has itself as a page")
def pages_in_a_ring():
    file = Pdf()
    file.page("0 0 0 1 k 10 10 20 20 re f")
    file.kids.append("2 0 R")
    return file.bytes()


@makes("form-in-itself.pdf", 1, "a drawing that draws itself")
def form_in_itself():
    file = Pdf()
    number = len(file.objects) + 1
    file.stream(f"/Type /XObject /Subtype /Form /BBox [0 0 120 48] /Resources << /XObject << /Me {number} 0 R >> >>", "0 1 0 0 k 10 10 20 20 re f /Me Do")
    file.page("1 0 0 0 k 0 0 60 48 re f /Me Do", resources=f"/XObject << /Me {number} 0 R >>")
    return file.bytes()


@makes("no-content.pdf", 1, "a page whose content is not there")
def content_that_lacks():
    return plain().replace(b"/Contents 4 0 R", b"/Contents 9 0 R")


@makes("wrong-filter.pdf", 0, "a photograph packed by nobody knows what")
def wrong_filter():
    file = Pdf()
    drawn = file.image("/Width 60 /Height 45 /BitsPerComponent 8 /ColorSpace /DeviceCMYK /Filter /NoSuchDecode", photo(60, 45, 4))
    file.page("1 0 0 0 k 0 0 60 48 re f q 60 0 0 40 60 4 cm /Im Do Q", resources=f"/XObject << /Im {drawn} >>")
    return file.bytes()


@makes("short-image.pdf", 0, "a photograph of which half is there")
def short_image():
    file = Pdf()
    drawn = file.image("/Width 60 /Height 45 /BitsPerComponent 8 /ColorSpace /DeviceCMYK /Filter /FlateDecode", zlib.compress(photo(60, 20, 4)))
    file.page("1 0 0 0 k 0 0 60 48 re f q 60 0 0 40 60 4 cm /Im Do Q", resources=f"/XObject << /Im {drawn} >>")
    return file.bytes()


@makes("no-pages.pdf", 5, "no pages")
def no_pages():
    return Pdf().bytes()


# PostScript

def drawing(left=0, lower=0):
    return (f"1 0 0 0 setcmykcolor {left + 5} {lower + 5} 20 30 rectfill [/Separation (Warm Red) /DeviceCMYK {{dup 0 exch 0.9 mul 3 -1 roll 0.8 mul 0}}] "
            f"setcolorspace 1 setcolor {left + 25} {lower + 5} 20 30 rectfill ").encode()


@makes("old.ai", 0, "an Illustrator file of the old sort")
def eps(left=0, lower=0, end=b"\n", box=None):
    head = b"%!PS-Adobe-3.0 EPSF-3.0" + end + (box or f"%%BoundingBox: {left} {lower} {left + 60} {lower + 40}".encode()) + end
    return head + b"%%EndComments" + end + drawing(left, lower) + b"showpage" + end


@makes("preview.eps", 0, "an EPS with a picture of itself")
def eps_with_preview():
    """An EPS as programs of DOS save it: a head that says where PostScript and the picture of it stand."""
    text = eps()
    return b"\xc5\xd0\xd3\xc6" + b"".join(part.to_bytes(4, "little") for part in (30, len(text), 0, 0, 30 + len(text), 8)) + b"\xff\xff" + text + b"II*\0\0\0\0\0"


@makes("at-end.eps", 0, "an EPS that tells its box at its end")
def eps_box_at_end():
    return eps(box=b"%%BoundingBox: (atend)") + b"%%Trailer\n%%BoundingBox: 0 0 60 40\n%%EOF\n"


@makes("three.ps", 0, "PostScript of three pages")
def three_pages():
    return b"%!PS\n<< /PageSize [90 60] >> setpagedevice\n" + (drawing() + b"showpage\n") * 3


@makes("driver.ps", 0, "PostScript with a printer's words around it")
def from_a_driver():
    """PostScript as a printer's driver sends it, words for the printer around it."""
    return b"\x1b%-12345X@PJL JOB\r\n@PJL ENTER LANGUAGE = POSTSCRIPT \r\n" + three_pages() + b"\x04\x1b%-12345X@PJL EOJ\r\n\x1b%-12345X"


# Tables as spreadsheets and other systems save them

TABLE, ZONES = "Warm Red\t0.9\nGold Foil\t-\tOpaqueIgnore\n", "<< /TrapWidth 0.3 >> settrapparams\n"


def label():
    file = Pdf()
    file.page("0 0 1 0 k 0 0 120 48 re f /S0 cs 1 scn 10 10 40 28 re f /S1 cs 1 scn 60 10 40 28 re f", resources=spaces([b"Warm Red", b"Gold Foil"]))
    return file.bytes()


A4, B2, POSTER = (595, 842), (1417, 2004), (14400, 14400)
FILES.update({
    "a4-full.pdf": (large(*A4), 0, "A4 that is full in four inks"),
    "b2-full.pdf": (large(*B2), 0, "a sheet of B2 that is full in four inks"),
    "poster.pdf": (large(*POSTER, 400, 10), 1, "fifty metres a side"),
    "spots-12.pdf": (with_spots(12), 0, "sixteen plates"),
    "spots-20.pdf": (with_spots(20), 1, "more plates than a job may have"),
    "no-box.pdf": (wrong_box("/MediaBox null"), 0, "a page without a box"),
    "short-box.pdf": (wrong_box("/MediaBox [0 0 120]"), 1, "a box of three numbers"),
    "empty-box.pdf": (wrong_box("/MediaBox [0 0 0 0]"), 1, "an empty box"),
    "point.pdf": (wrong_box("/MediaBox [0 0 1 1]"), 0, "a page of a point"),
    "cut.pdf": (lambda: plain()[:len(plain()) * 6 // 10], 1, "cut in the middle"),
    "empty.pdf": (lambda: b"", 5, "no bytes"),
    "error-page.pdf": (lambda: b"<!DOCTYPE html><html><body>404 Not Found</body></html>\n", 5, "what a server said in place of the file"),
    "offset.eps": (lambda: eps(300, 500), 0, "an EPS far from the corner"),
    "carriage-return.eps": (lambda: eps(end=b"\r"), 0, "an EPS with the line ends of old systems"),
    "no-box.eps": (lambda: eps(box=b"%%Title: none"), 0, "an EPS that tells no box"),
})
# Files that stand beside a PDF: of each stem the end of the name, the bytes, what press/all ends with, and what is bad.
BESIDE = {
    "marked": (".inks", b"\xef\xbb\xbf" + TABLE.encode(), 0, "a table with a byte order mark"),
    "lines": (".inks", TABLE.replace("\n", "\r\n").encode(), 0, "a table with line ends of Windows"),
    "wide": (".inks", TABLE.encode("utf-16"), 4, "a table in UTF-16"),
    "latin": (".inks", "Grün\t0.5\n".encode("latin-1"), 4, "a table in Latin-1"),
    "commas": (".inks", TABLE.replace("\t", ";").encode(), 2, "a table with semicolons"),
    "zones-lines": (".zones", ZONES.replace("\n", "\r\n").encode(), 0, "zones with line ends of Windows"),
    "zones-wide": (".zones", ZONES.encode("utf-16"), 4, "zones in UTF-16"),
}


def encrypted(folder):
    """PDFs with a password, by Ghostscript: of each the name, the status and what is bad."""
    with open(os.path.join(folder, "plain.tmp"), "wb") as out:
        out.write(plain())
    for name, user, status in (("password.pdf", "secret", 5), ("owner-password.pdf", "", 0)):
        subprocess.run(["gs", "-q", "-dBATCH", "-dNOPAUSE", "-sDEVICE=pdfwrite", "-dCompatibilityLevel=1.4", "-sOwnerPassword=owner",
                        f"-sUserPassword={user}", f"-sOutputFile={os.path.join(folder, name)}", os.path.join(folder, "plain.tmp")], check=True)
        yield name, status, f"a PDF with a password {'of the reader' if user else 'of the owner alone'}"
    os.remove(os.path.join(folder, "plain.tmp"))


def write_files(folder):
    """Writes all files into a folder. Yields of each its name, the status of press/all, and what is bad about it."""
    for name, (make, status, what) in FILES.items():
        with open(os.path.join(folder, name), "wb") as out:
            out.write(make())
        yield name, status, what
    for stem, (end, data, status, what) in BESIDE.items():
        for path, text in ((stem + ".pdf", label()), (stem + end, data)):
            with open(os.path.join(folder, path), "wb") as out:
                out.write(text)
        yield stem + ".pdf", status, what
    yield from encrypted(folder)


def main():
    os.makedirs(sys.argv[1], exist_ok=True)
    for name, status, what in write_files(sys.argv[1]):
        print(name, status, what, sep="\t")


if __name__ == "__main__":
    main()
