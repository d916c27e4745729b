#!/usr/bin/env python3
# SPDX-License-Identifier: Apache-2.0
"""Worked values, found apart from every program: the slow program has to give them.

Each value was worked out by hand from the rule or the public format, and none is the output of a program.
"""
import sys

from slow import run
from slow.entries import S
from slow.outside import Held
from slow.pages import zone_reach
from slow.refusals import JobFault, PlateFault
from slow.plates import plate_of, spelled
from slow.tokens import tokens_of
from table import USAGES

INKS = [("Cyan", "0.61"), ("Magenta", "0.76"), ("Yellow", "0.16"), ("Black", "1.70")]
wrong = []


def check(what, found, wanted):
    if found != wanted:
        wrong.append(what)
        print("%s\n  wanted %r\n  found  %r" % (what, wanted, found))


def job(params, more="", resolution=72, end="showpage"):
    """The usual job on one line, with these parameters and further colorants."""
    inks = " ".join("/%s << /NeutralDensity %s >>" % ink for ink in INKS)
    return ("<< /HWResolution [%d %d] /TrappingDetails << /Type 1001 /ColorantDetails << %s%s >> >> >> setpagedevice "
            "<< %s >> settrapparams %s" % (resolution, resolution, inks, more, params, end)).encode()


def plate(width, height, raster, maxval=255):
    return b"P5\n%d %d\n%d\n" % (width, height, maxval) + bytes.fromhex(raster)


CYAN = plate(6, 1, "00 00 00 FF FF FF")
MAGENTA = plate(6, 1, "FF FF FF 00 00 00")
TWO = {"Cyan": CYAN, "Magenta": MAGENTA}


def wide(data):
    """The same plate of 6 by 1 samples with a maxval of 65,535."""
    return b"P5\n6 1\n65535\n" + bytes(byte for sample in data[11:] for byte in (sample, sample))


def page(text, plates, options=(), **more):
    """Runs `trap page`. The status, what is told, the rasters of the outputs in hexadecimal, and the report's lines."""
    files = dict(plates, job=text)
    outside = Held(files, **more)
    words = ["page", *options, "job", "report", *("%s:%s:%s.out" % (name, name, name) for name in plates)]
    status = run("trap", words, outside)
    outputs = [raster(outside.files.get(name + ".out")) for name in plates]
    report = outside.files.get("report", b"").decode().splitlines()
    return status, outside.told, outputs, report, outside


def raster(data):
    if data is None:
        return None
    found = plate_of(data)
    return data[-len(found.samples) * (1 if found.maxval < 256 else 2):].hex(" ").upper()


def gives(what, text, plates, outputs, lines=(), options=()):
    """A page that is done, with these rasters and these lines among those of its report."""
    status, told, found, report, _ = page(text, plates, options)
    check(what, (status, told, found, [line for line in lines if line not in report]), (0, "", outputs, []))
    return report


def refuses(what, text, plates, status, line):
    """A page that is refused: nothing is written."""
    found = page(text, plates)
    check(what, (found[0], found[1], sorted(found[4].files)), (status, line + "\n", sorted([*plates, "job"])))


def unchanged(plates):
    return [raster(data) for data in plates.values()]


def two_inks():
    report = gives("half the width on either side of a slid edge", job("/TrapWidth 2"), TWO,
                   ["00 00 00 00 FF FF", "FF FF 00 00 00 00"])
    check("the report of two inks", report, ["trap report", "page 6 1 255 plates 2", "zone 0 samples 6 changed 2",
                                             "edges 1", "plate Cyan changed 1", "plate Magenta changed 1", "end"])
    gives("the darker side alone", job("/TrapWidth 2 /SlidingTrapLimit 1"), TWO,
          ["00 00 00 00 00 FF", "FF FF FF 00 00 00"])
    gives("no denser than before", job("/TrapWidth 2 /SlidingTrapLimit 1 /TrapColorScaling 0"), TWO,
          ["00 00 00 72 72 FF", "FF FF FF 72 72 00"])
    gives("a width below a sample", job("/TrapWidth 0.25"), TWO, unchanged(TWO), ["edges 1"])
    gives("one sample", job("/TrapWidth 2"), {"Cyan": plate(1, 1, "00")}, ["00"])
    gives("the last entry of a key", job("/TrapWidth 0 /TrapWidth 2"), TWO, ["00 00 00 00 FF FF", "FF FF 00 00 00 00"])


def equally_near():
    for sides, what in (((3, 1), "the left edge of two"), ((1, 3), "the upper edge of two")):
        rows = (("Cyan", "00 FF FF"), ("Black", "FF 00 FF"), ("Yellow", "FF FF 00"))
        three = {name: plate(*sides, row) for name, row in rows}
        gives(what, job("/TrapWidth 1"), three, ["00 00 FF", "FF 00 FF", "FF FF 00"])


def steps():
    at_limit = {"Cyan": plate(2, 1, "4B 64", 100), "Magenta": plate(2, 1, "64 4B", 100)}
    below = dict(at_limit, Cyan=plate(2, 1, "4C 64", 100))
    limit = "/TrapWidth 2 /ColorantZoneDetails << /Cyan << /StepLimit %s >> >>"
    gives("a step at the limit", job("/TrapWidth 2"), at_limit, ["4B 4B", "4B 4B"])
    gives("a step below the limit", job("/TrapWidth 2"), below, unchanged(below), ["edges 0"])
    gives("a colorant's greater limit", job(limit % ".3"), at_limit, unchanged(at_limit), ["edges 0"])
    gives("a colorant's lesser limit", job(limit % ".2"), below, ["4C 4C", "4B 4B"], ["edges 1"])
    flat = {"Cyan": plate(4, 4, "80 " * 16), "Magenta": plate(4, 4, "40 " * 16)}
    gives("no step", job("/StepLimit 0 /TrapWidth 2"), flat, unchanged(flat), ["edges 0"])


def kinds_of_ink():
    foil = dict(TWO, Foil=plate(6, 1, "FF FF FF 00 FF FF"))
    ink = " /Foil << /NeutralDensity 1 /ColorantType /%s >>"
    gives("an ink that shuts", job("/TrapWidth 2", ink % "OpaqueIgnore"), foil, unchanged(foil), ["edges 0"])
    gives("an opaque ink does not spread", job("/TrapWidth 2 /SlidingTrapLimit 0", ink % "Opaque"), foil,
          ["00 00 00 00 FF FF", "FF FF 00 00 00 00", raster(foil["Foil"])], ["edges 1"])


DISABLED = b"<< /Enabled false >> settrapparams showpage"


def zones():
    gives("disabled", DISABLED, TWO, unchanged(TWO))
    made = page(DISABLED, dict(TWO, Cyan=b"P5\n# made by hand\n6 1\n255\n" + CYAN[11:]))
    check("the canonical header", made[4].files["Cyan.out"], CYAN)
    for text in (".5 .5 moveto 2.5 .5 lineto 2.5 1.5 lineto .5 1.5 lineto",
                 ".5 .5 moveto 0 0 rmoveto 2 0 rlineto 0 1 rlineto -2 0 rlineto"):
        lines = ["zone 0 samples 6 changed 0", "zone 1 samples 2 changed 0", "edges 0"]
        start = ("<< /HWResolution [72 72] /TrappingDetails << /Type 1001 /ColorantDetails << /Cyan << "
                 "/NeutralDensity .61 >> >> >> >> setpagedevice %s settrapzone showpage" % text)
        gives("sides through centres", start.encode(), {"Cyan": plate(4, 2, "00 " * 8)}, ["00" + " 00" * 7], lines)


def tall():
    twelve = {"Cyan": plate(1, 12, "00 " * 6 + "FF " * 6), "Magenta": plate(1, 12, "FF " * 6 + "00 " * 6)}
    for workers in "1", "7":
        for band in "1", "4096":
            gives("twelve rows", job("/TrapWidth 5 /SlidingTrapLimit 1"), twelve,
                  ["00 " * 11 + "FF", raster(twelve["Magenta"])], ["edges 1"], ["--workers", workers, "--band", band])


def shop():
    rows = [("Cyan", "FF FF FF 00 00 00 FF FF FF FF FF FF"), ("Magenta", "FF " * 9 + "00 00 00"),
            ("Yellow", "FF " * 6 + "00 00 00 FF FF FF"), ("Black", "00 00 00 " + "FF " * 9)]
    plates = {name: plate(12, 2, row * 2 if row.endswith(" ") else (row + " ") * 2) for name, row in rows}
    text = b"%!PS\n" + job("/TrapWidth 0.25 /BlackWidth 2", resolution=600, end=(
        "0 0 moveto 612 0 lineto 612 792 lineto 0 792 lineto closepath settrapzone << /Enabled false >> settrapparams "
        "1.08 0 moveto 612 0 lineto 612 792 lineto 1.08 792 lineto closepath settrapzone showpage"))
    text = text.replace(b"[600 600]", b"[600 600] /Trapping true")
    cyan, yellow = "00 " * 6 + "FF " * 6, "FF " * 5 + "00 " * 4 + "FF " * 3
    gives("a shop's page", text, plates,
          [(cyan * 2).strip(), raster(plates["Magenta"]), (yellow * 2).strip(), raster(plates["Black"])],
          ["zone 0 samples 0 changed 0", "zone 1 samples 18 changed 8", "zone 2 samples 6 changed 0", "edges 4",
           "plate Cyan changed 6", "plate Magenta changed 0", "plate Yellow changed 2", "plate Black changed 0"])


def two_bytes():
    both = {name: wide(data) for name, data in TWO.items()}
    gives("two bytes", job("/TrapWidth 2"), both,
          ["00 00 " * 4 + "FF FF FF FF", "FF FF FF FF " + ("00 00 " * 4).strip()])
    gives("two bytes, scaled", job("/TrapWidth 2 /SlidingTrapLimit 1 /TrapColorScaling 0"), both,
          ["00 00 " * 3 + "71 FC 71 FC FF FF", "FF FF " * 3 + "71 FC 71 FC 00 00"])


def plate_refusals():
    text = job("/TrapWidth 2")
    for size in range(17):
        refuses("a plate of %d bytes" % size, text, dict(TWO, Cyan=CYAN[:size]), 4, "plate 0: Truncated at %d" % size)
    refuses("a byte too many", text, dict(TWO, Cyan=CYAN + b"\0"), 4, "plate 0: TrailingBytes at 17")
    for data, line in ((b"P5 1 1 100\n\x65", "SampleAboveMaxval at 11"), (b"P5 1 1 256\n\0", "Truncated at 12"),
                       (b"P5 1 1 65536\n", "MaxvalRange at 7"), (b"P5 1 1 256\n\1\1", "SampleAboveMaxval at 11")):
        refuses("one plate", text, {"Cyan": data}, 4, "plate 0: " + line)
    refuses("another size", text, dict(TWO, Magenta=plate(5, 1, "FF FF FF 00 00")), 4, "page: SizeDiffers plate 1")
    refuses("another maxval", text, dict(TWO, Magenta=plate(6, 1, "00 " * 6, 100)), 4, "page: MaxvalDiffers plate 1")
    check("a reach of 200", page(job("/TrapWidth 100"), TWO)[0], 0)
    check("a reach of 256", page(job("/TrapWidth 64 /BlackWidth 2"), TWO)[0], 0)
    refuses("a reach of 257", job("/TrapWidth 64.25 /BlackWidth 2"), TWO, 4, "page: ReachTooWide zone 0")
    refuses("a reach of 400", job("/TrapWidth 100 /BlackWidth 2"), TWO, 4, "page: ReachTooWide zone 0")
    refuses("other names", text, {"Orange": CYAN, "Magenta": MAGENTA}, 3, "job: NoDetails for plate 0")
    check("no such plate", run("trap", ["page", "job", "r", "Cyan:Cyan:o"], told := Held({"job": text})), 5)
    check("no such plate", told.told, "read fault: plate 0\n")


JOB_LINES = [
    (b"<< /TrappingDetails << /Type 1000 >> >> setpagedevice showpage", "WrongType at 29"),
    (b"<< /TrapWidth 1e5 >> settrapparams showpage", "BadToken at 14"),
    (b"<< /TrapWidth 0 >> settrapparams showpage", "OutOfRange TrapWidth at 14"),
    (b"<< /TrapWidth 1", "Unclosed at 0"),
    (b"10 10 lineto showpage", "NoCurrentPoint at 6"),
    (b"5 showpage", "WrongOperands at 2"),
    (b"showpage", "NoPageDevice at 0"),
    (b"", "NoShowpage at 0"),
    (b"<< /Enabled false >> settrapparams", "NoShowpage at 34"),
    (b"<< /Enabled false >> settrapparams showpage 1", "AfterShowpage at 44"),
    (b"<< /ColorantZoneDetails 5 >> settrapparams showpage", "NotDictionary at 24"),
    (b"<< /ColorantZoneDetails << /Cyan << /StepLimit 2 >> >> >> settrapparams showpage", "OutOfRange StepLimit at 47"),
    (b" " * 1048577, "JobTooLong at 1048576"),
    (b" " * 1048576, "NoShowpage at 1048576"),
    (b"[" * 16 + b"]" * 16 + b" showpage", "WrongOperands at 33"),
    (b"[" * 17, "TooDeep at 16"),
    (b"1000000 -1000000 moveto 0 .0001 rlineto 0 -.0002 rlineto", "CoordinateRange at 49"),
    (b"1000000.0001 0 moveto", "CoordinateRange at 15"),
    (b"0 0 moveto" + b" 1 1 lineto" * 4096, "TooManyVertices at 45060"),
    (b"settrapzone " * 251, "TooManyZones at 3000"),
]


def job_refusals():
    for text, line in JOB_LINES:
        refuses("a job of " + line, text, TWO, 3, "job: " + line)


def at_limits():
    """Paths of 4,096 vertices, zones of 16,384 together, 250 zones: one more is refused, at its operator."""
    start = b"<< /HWResolution [72 72] >> setpagedevice << /Enabled false >> settrapparams "
    closed = start + b"0 0 moveto" + b" 1 1 lineto" * 4093
    zones_ = start + (b"0 0 moveto" + b" 1 1 lineto" * 4095 + b" settrapzone ") * 4
    many = start + b"settrapzone " * 250
    for text, more, kind in ((closed, b" closepath 1 1 lineto", None),
                             (closed, b" 1 1 lineto closepath 1 1 lineto", "Vertices"),
                             (zones_, b"newpath", None), (zones_, b"0 0 moveto settrapzone", "Vertices"),
                             (many, b"0 0 moveto", None), (many, b"settrapzone", "Zones")):
        operator = len(text) + more.rfind(b" ") + 1
        line = "" if kind is None else "job: TooMany%s at %d\n" % (kind, operator)
        found = page(text + more + b" showpage", TWO)
        check("at the limit: %r" % more, found[:2], (0 if kind is None else 3, line))


def words():
    for given in ([], ["page"], "page --workers 0 J R C:a:b".split(), "page J R C:a:b C:c:d".split(),
                  "page J R C:a:R".split(), "sample 1 2 3".split(), "sample 4294967296 2 2 1".split(),
                  "sample 0 16385 1 1".split(), "sample 0 1 1 65".split()):
        outside = Held({})
        check("words %r" % given, (run("trap", given, outside), outside.told), (2, "usage: " + USAGES["trap"] + "\n"))


def samples():
    for given, changed, edges, cyan in (("0 16 8 2", 48, 8, 48), ("4 8 8 1", 0, 0, 0)):
        number, width, height, _ = map(int, given.split())
        lines = ["trap report", "page %d %d 255 plates 4" % (width, height),
                 "zone 0 samples %d changed %d" % (width * height, changed), "edges %d" % edges,
                 "plate Cyan changed %d" % cyan, "plate Magenta changed 0", "plate Yellow changed 0",
                 "plate Black changed 0", "end"]
        outside = Held({})
        status = run("trap", ["sample", *given.split()], outside)
        check("sample " + given, (status, outside.told.splitlines()), (0, lines))
    check("sample, untold", run("trap", "sample 0 16 8 2".split(), Held({}, mute=True)), 6)
    outside = Held({})
    check("sample, too large", (run("trap", "sample 0 16384 16384 2".split(), outside), outside.told),
          (4, "page: TooManySamples\n"))


def room():
    """Two plates of 17 bytes and a report of 118, into so much room."""
    for size in range(153):
        which = "plate 0" if size < 17 else "plate 1" if size < 34 else "report"
        found = Held(dict(TWO, job=job("/TrapWidth 2")), room=size)
        status = run("trap", ["page", "job", "r", "Cyan:Cyan:a", "Magenta:Magenta:b"], found)
        lengths = [len(found.files.get(name, b"")) for name in "abr"]
        wanted = (0, "") if size == 152 else (6, "write fault: %s\n" % which)
        check("room %d" % size, (status, found.told, sum(lengths)), (*wanted, size))


def numbers():
    for spelling, value in ((b".25", 2500), (b"72", 720000), (b"-0.00019", -1), (b"1.", 10000),
                            (b"1000000.99999", 10000009999)):
        check("number %r" % spelling, [token.value for token in tokens_of(spelling)], [value])
    for spelling, kind in ((b"1000001", "NumberTooLarge"), (b"16#FF", "BadToken"), (b"1e5", "BadToken"),
                           (b"-x", "BadToken"), (b".", "BadToken")):
        check("number %r" % spelling, fault_of(tokens_of, spelling), (kind, 0))
    kinds = [(token.kind, token.value) for token in tokens_of(DISABLED)]
    check("tokens", kinds, [("OpenDict", None), ("Literal", b"Enabled"), ("Word", b"false"), ("CloseDict", None),
                            ("Word", b"settrapparams"), ("Word", b"showpage")])


def fault_of(reader, data):
    try:
        reader(data)
    except (JobFault, PlateFault) as fault:
        return fault.kind, fault.at
    return None


HEADER_FAULTS = [
    (b"P2 6 1 255\n", ("BadMagic", 1)), (b"P56 1 255\n", ("BadHeader", 2)), (b"P5 -6 1 255\n", ("BadHeader", 3)),
    (b"P5 0 1 255\n", ("SideRange", 3)), (b"P5 16385 1 255\n", ("SideRange", 3)),
    (b"P5 16384 16384 255\n", ("TooManySamples", 9)), (b"P5 16384 9766 255\n", ("TooManySamples", 9)),
    (b"P5 9766 16384 255\n", ("TooManySamples", 8)), (b"P5 16384 9765 255\n", ("Truncated", 18)),
    (b"P5 6 1 0\n", ("MaxvalRange", 7)), (b"P5 6 1 255#x", ("BadHeader", 10)), (b"", ("Truncated", 0)),
    (b"P5 6 1 255", ("Truncated", 10)), (b"P5" + b" " * 70000, ("BadHeader", 65536)),
    (CYAN + b"\0" * 9, ("TrailingBytes", 17)),
]


def headers():
    check("Cyan's file", CYAN.hex(" ").upper(), "50 35 0A 36 20 31 0A 32 35 35 0A 00 00 00 FF FF FF")
    for header in (b"P5 6 1 255\n", b"P5\n#x\n006\t1\f255 ", b"P5#x\r6#y\n1 255\n"):
        check("header %r" % header, spelled(plate_of(header + CYAN[11:])), CYAN)
    for data, fault in HEADER_FAULTS:
        check("plate %r" % data[:20], fault_of(plate_of, data), fault)


# TrapWidth, the factor, the resolution, whether the edge is slid, and the distances of side-neighbours that are within.
WIDTHS = [("2", "1", 72, False, [1, 3]), ("2", "1", 72, True, [1]), ("0.25", "1", 72, False, []),
          ("0.25", "1", 600, False, [1, 3]), ("0.25", "1", 600, True, [1]), ("0.25", "2", 600, False, [1, 3, 5, 7]),
          ("5", "1", 72, False, [1, 3, 5, 7, 9]), ("0.75", "1", 600, False, [1, 3, 5, 7, 9, 11])]


def widths():
    """A row of Black and a row of Cyan: the darker side takes as many traps as the width has side-neighbours within."""
    row = {"Black": plate(20, 1, "00 " * 10 + "FF " * 10), "Cyan": plate(20, 1, "FF " * 10 + "00 " * 10)}
    for width, factor, resolution, slid, distances in WIDTHS:
        params = "/TrapWidth %s /BlackWidth %s /SlidingTrapLimit %d" % (width, factor, 0 if slid else 1)
        found = page(job(params, resolution=resolution), row)[3]
        check("width " + params, "plate Cyan changed %d" % len(distances) in found, True)
    for width, resolution, reach in ((2, 72, 4), (0.75, 600, 12), (5, 72, 10), (0.25, 72, 0)):
        class zone:
            params = {"TrapWidth": int(width * S), "BlackWidth": S}
        check("reach of %s" % width, zone_reach(zone, resolution), reach)


def sheets():
    """The plates of a sheet take their names in order: where one can't, those before it stand."""
    for outs, line, standing in (("a b", "", "ab"), ("a b/", "write fault: plate 1\n", "a"), ("a/ b", "write fault: plate 0\n", ""),
                                 ("a/ b/", "write fault: plate 0\n", ""), ("a full", "write fault: plate 1\n", "")):
        outside = Held({"job": job("/TrapWidth 2"), **TWO}, full=["full"])
        words_ = ["1", "job", "report", *("%s:%s:%s" % (name, name, out) for name, out in zip(("Cyan", "Magenta"), outs.split()))]
        status = run("trapsheet", words_, outside)
        check("sheet to " + outs, (status, outside.told), (6 if line else 0, line))
        check("what stands of it", "".join(name for name in "ab" if name in outside.files), standing)
        check("its report", "report" in outside.files, not line)


def sets():
    first = b"trap set\npage 6 1 255 plates 2\nrun 0 2 2 255 255\nend\n"
    one = {"job": job("/TrapWidth 2"), "scaled": job("/TrapWidth 2 /SlidingTrapLimit 1 /TrapColorScaling 0"), **TWO}
    made = Held(one)
    for name, wanted in (("job", first), ("scaled", first.replace(b"run 0 2 2 255 255", b"run 0 3 2 141 141"))):
        status = run("trapset", ["traps", name, "set", "Cyan:Cyan", "Magenta:Magenta"], made)
        check("set of " + name, (status, made.told, made.files["set"]), (0, "", wanted))
    for data, words_, status, line in (
            (first, "Cyan:a Magenta:b", 0, ""),
            (first.replace(b"0 2 2", b"0 5 2"), "Cyan:a Magenta:b", 8, "set: BadLine 3\n"),
            (first, "Cyan:a", 8, "set: Differs\n"), (first[:-4], "Cyan:a Magenta:b", 8, "set: BadLine 4\n"),
            (first + b"\n", "Cyan:a Magenta:b", 8, "set: BadLine 5\n"), (b"", "Cyan:a", 8, "set: BadLine 1\n")):
        outside = Held(dict(one, set=data))
        check("apply %r" % data[-30:], (run("trapset", ["apply", "set", *words_.split()], outside), outside.told),
              (status, line))
        check("outputs of apply", [raster(outside.files.get(name)) for name in "ab"],
              ["00 00 00 00 FF FF", "FF FF 00 00 00 00"] if status == 0 else [None, None])
    outside = Held({})
    check("no words", (run("trapset", [], outside), outside.told), (2, "usage: " + USAGES["trapset"] + "\n"))


def many_pages():
    words_ = ["4", "64", "job", "r", "Cyan:Cyan:a", "Magenta:Magenta:b"]
    twice = {name: data * 2 for name, data in TWO.items()}
    text = job("/TrapWidth 2") + b" << /SlidingTrapLimit 1 >> settrapparams showpage"
    first, second = ["00 00 00 00 FF FF", "FF FF 00 00 00 00"], ["00 00 00 00 00 FF", "FF FF FF 00 00 00"]
    odd = b"<< /Enabled false >> settrapparams showpage 5 showpage"
    for files, status, line, pages in (
            (dict(twice, job=text), 0, "", [first, second]),
            (dict(twice, job=text, Cyan=CYAN), 4, "page 1: plate 0: Ends\n", [first]),
            (dict(twice, job=odd), 3, "page 1: job: WrongOperands at 46\n", [unchanged(TWO)]),
            (dict(twice, job=DISABLED), 4, "run: plate 0: Extra\n", [unchanged(TWO)])):
        outside = Held(files)
        check("pages, " + line, (run("traprun", words_, outside), outside.told), (status, line))
        for number, wanted in enumerate(pages):
            check("page %d" % number, [raster(outside.files["%s.%d" % (name, number)]) for name in "ab"], wanted)
        check("pages", sum(name.startswith("r.") for name in outside.files), len(pages))
    start, image = b"<< /Enabled false >> settrapparams ", b"P5 1 1 1 \1"
    for count, status, line in ((256, 0, ""), (257, 3, "run: TooManyPages at %d\n" % (len(start) + 256 * 9))):
        outside = Held({"job": start + b"showpage " * count, "plate": image * count})
        found = run("traprun", ["1", "1", "job", "r", "C:plate:o"], outside)
        check("%d pages" % count, (found, outside.told), (status, line))
    outside = Held({})
    check("an input that is an output", (run("traprun", ["1", "1", "j", "r", "C:a.0:a"], outside), outside.told),
          (2, "usage: " + USAGES["traprun"] + "\n"))


def press():
    files = dict(TWO, job=job("/TrapWidth 2"))
    for radius, before, after in ((1, 2, 0), (0, 0, 0), (2, 4, 2)):
        outside = Held(files)
        status = run("presscheck", [str(radius), "job", "Cyan:Cyan", "Magenta:Magenta"], outside)
        check("radius %d" % radius, (status, outside.told),
              (0, "press check\nradius %d\nbefore %d\nafter %d\nend\n" % (radius, before, after)))
    outside = Held(files)
    check("radius 17", (run("presscheck", ["17", "job", "Cyan:Cyan"], outside), outside.told),
          (2, "usage: presscheck RADIUS JOB NAME:IN ...\n"))


def pool():
    lines = (b"one r0 Cyan:Cyan:a0 Magenta:Magenta:b0\none r1 Orange:Cyan:a1 Magenta:Magenta:b1\n"
             b"two r2 Cyan:Cyan:a2 Magenta:Magenta:b2\n")
    files = dict(TWO, one=job("/TrapWidth 2"), two=job("/TrapWidth 2 /SlidingTrapLimit 1"), list=lines,
                 twice=lines.splitlines(True)[0] + b"one r1 Cyan:Cyan:a0\n")
    for workers in "1", "5":
        outside = Held(files)
        check("a list", (run("trappool", [workers, "list"], outside), outside.told),
              (9, "job 0: done\njob 1: job: NoDetails for plate 0\njob 2: done\n"))
        check("its outputs", [raster(outside.files.get(name)) for name in ("a0", "b0", "a1", "a2", "b2")],
              ["00 00 00 00 FF FF", "FF FF 00 00 00 00", None, "00 00 00 00 00 FF", "FF FF FF 00 00 00"])
    for data, line in (
            (files["twice"], 1), (b"", 0), (b"\n", 0), (lines[:-1], 2), (lines + b"\n", 3), (lines + b"x", 3),
            (lines + b"x" * (1048576 - len(lines)), 3), (lines.replace(b" r1", b"  r1"), 1),
            (b"one r C:Cyan:a\n" * 257, 1), (b"".join(b"one r%d C:Cyan:a%d\n" % (n, n) for n in range(257)), 256),
            (b"x" * 1048577, 0)):
        outside = Held(dict(files, list=data))
        status = run("trappool", ["2", "list"], outside)
        check("a bad line %d" % line, (status, outside.told), (3, "list: BadLine %d\n" % line))
    longest = b" r C:a:b\n"
    outside = Held({"list": b"j" * (1048576 - len(longest)) + longest})
    check("the longest list", (run("trappool", ["2", "list"], outside), outside.told), (9, "job 0: read fault: job\n"))


def keep(options, plates, names=("Cyan", "Black"), more="", resolution=72, width=None, end="showpage"):
    """Runs `trapkeep` on tints, in one row or in rows of `width`: the status and line, the new tints, the report."""
    width = width or len(plates[0])
    files = {name: plate(width, len(tints) // width, bytes(255 - tint for tint in tints).hex())
             for name, tints in zip(names, plates)}
    outside = Held(dict(files, job=job("", more, resolution, end)))
    words = [*options, "job", "report", *("%s:%s:%s.out" % (name, name, name) for name in names)]
    status = run("trapkeep", words, outside)
    new = [outside.files.get(name + ".out") for name in names]
    report = outside.files.get("report", b"").decode().splitlines()
    return (status, outside.told), [data and [255 - byte for byte in data[-len(plates[0]):]] for data in new], report


def rich_black():
    """Widths in points at 72 dpi are pixels. Black begins at the fourth pixel, and cyan lies under it."""
    black, under = [0, 0, 0, 255, 255, 255, 255, 255], [0, 0, 0, 255, 255, 255, 255, 255]
    for width, back in (("0", 0), ("0.4999", 0), ("0.5", 1), ("1", 1), ("1.4999", 1), ("1.49999", 1), ("1.5", 2),
                        ("2.", 2), ("4.4", 4), ("4.5", 5), ("100", 5)):
        told, new, report = keep(["--rich-black", width], [under, black])
        check("drawn back by " + width, (told, new), ((0, ""), [[0] * (3 + back) + [255] * (5 - back), black]))
        check("the report", report, ["keepaway report", "page 8 1 255 plates 2", "covered 5",
                                     "plate Cyan rich-black %d underprint 0" % back,
                                     "plate Black rich-black 0 underprint 0", "end"])
    for tints, least in (([255] * 8, 255), ([100] * 8, 100), ([60] * 3 + [200] * 5, 60), ([60] * 3 + [40] * 5, 40)):
        wanted = tints[:3] + [min(least, tints[3])] + tints[4:]
        check("what goes on", keep(["--rich-black", "1"], [tints, black])[1], [wanted, black])
    for tint, is_black in ((217, True), (216, False)):
        gray = [0, 0, 0] + [tint] * 5
        wanted = [[0] * (3 + is_black) + under[3 + is_black:], gray]
        check("at the limit", keep(["--rich-black", "1"], [under, gray])[1], wanted)
    half = [0, 0, 0] + [128] * 5
    check("its own limit", keep(["--rich-black", "1", "--black-limit", "0.5"], [under, half])[1][0][3], 0)
    for gray, wanted in (([0, 128, 255, 255], [0, 0, 255, 255]), ([0, 128, 128, 255], [0, 255, 255, 255])):
        check("a rim", keep(["--rich-black", ".5"], [[0, 255, 255, 255], gray])[1][0], wanted)
    check("spared", keep(["--rich-black", "1", "--except", "Cyan"], [under, black])[1], [under, black])
    check("off", keep(["--rich-black", "1"], [under, black], end="<< /Enabled false >> settrapparams showpage")[1],
          [under, black])
    for width, count in (("0.9", 4), ("0.92", 8), ("1.49", 8), ("1.5", 12), ("1.8", 20), ("2.4", 24)):
        ring = [0 if place == 12 else 255 for place in range(25)]
        report = keep(["--rich-black", width], [ring, ring], width=5)[2]
        check("a hole in black, " + width, report[3:4], ["plate Cyan rich-black %d underprint 0" % count])


def underprint():
    """White under cyan, which counts as colour; the varnish does not."""
    names, more = ("Cyan", "White"), "/White << /NeutralDensity .06 /ColorantType /Transparent >> "

    def drawn(width, white, cyan):
        told, new, _ = keep(["--underprint", "White=" + width], [cyan, white], names, more)
        check("told", told, (0, ""))
        return new[1]
    shape = [0, 0] + [255] * 8
    check("beside film", drawn("1", shape, shape), [0, 0, 0] + [255] * 7)
    check("beside white", drawn("1", [255] * 10, [0] * 5 + [255] * 5), [255] * 10)
    check("white alone", drawn("2", shape, [0] * 10), shape)
    for tint, back in ((26, 1), (25, 0)):
        check("a tenth", drawn("1", shape, [0, 0] + [tint] * 8), [0, 0] + [0] * back + [255] * (8 - back))
    for count, width, left in ((2, "1", 2), (3, "1", 1), (3, "2", 1), (5, "2", 3), (5, "1", 3), (6, "2", 2),
                               (8, "2", 4), (8, "3", 4)):
        thin = [0] * 4 + [255] * count + [0] * 4
        wanted = [0] * (4 + (count - left) // 2) + [255] * left + [0] * (4 + (count - left) // 2)
        check("%d thin, %s" % (count, width), drawn(width, thin, thin), wanted)
    check("a hole", drawn("1", [255] * 9 + [0, 0], [255] * 4 + [0] + [255] * 4 + [0, 0]), [255] * 8 + [0, 0, 0])
    report = keep(["--underprint", "White=1"], [shape, shape], names, more)[2]
    check("the report", report[2:], ["covered 8", "plate Cyan rich-black 0 underprint 0",
                                     "plate White rich-black 0 underprint 1", "end"])


def keep_words():
    one, plates = ["--rich-black", "1"], [[0, 255], [0, 255]]
    white = ["--underprint", "Cyan=1"]
    for number in ("-1", "100.1", "100.0001", "1e1", ".", "", "1.2.3", "\u0663"):
        check("a width %r" % number, keep(["--rich-black", number], plates)[0][0], 2)
    for options in ([], ["--rich-black"], [*one, *one], [*one, "--black-limit", "1.1"], ["--black-limit", "1", *white],
                    [*one, *white], [*one, "--except", "Red"],
                    ["--underprint", "Cyan"], ["--underprint", "Red=1"], [*white, "--underprint", "Cyan=2"],
                    ["--except", "Cyan"], [*one, "--quiet"], ["--rich-black=1"]):
        check("words %r" % options, keep(options, plates)[0], (2, "usage: " + USAGES["trapkeep"] + "\n"))
    for options in ([*one, "--"], ["--black-limit", ".5", *one, "--except", "Cyan", "--except", "Black"],
                    ["--underprint", "Cyan=1", "--underprint", "Black=0"], ["--rich-black", "0" * 99 + ".5"],
                    [*one, "--except", "Cyan", "--except", "Cyan"], ["--rich-black", "100.00009"]):
        check("words %r" % options, keep(options, plates)[0], (0, ""))
    for width, line in (("0.9216", ""), ("0.9217", "keepaway: TooWide\n")):
        narrow = "<< /TrapWidth .01 >> settrapparams showpage"
        check("as wide as " + width, keep(["--rich-black", width], plates, resolution=10000, end=narrow)[0],
              (4 if line else 0, line))


TABLES = (two_inks, equally_near, steps, kinds_of_ink, zones, tall, shop, two_bytes, plate_refusals, job_refusals,
          at_limits, words, samples, room, numbers, headers, widths, sheets, sets, many_pages, press, pool, rich_black,
          underprint, keep_words)


def main():
    for table in TABLES:
        table()
    print("worked values: %d tables, %d different" % (len(TABLES), len(wrong)))
    return 1 if wrong else 0


if __name__ == "__main__":
    sys.exit(main())
