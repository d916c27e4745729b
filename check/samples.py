# SPDX-License-Identifier: Apache-2.0
"""Small jobs and plates for the tests: each request for memory refused, and faults of the system."""

INKS = [("Cyan", "0.61"), ("Magenta", "0.76"), ("Yellow", "0.16"), ("Black", "1.70")]
COLORANTS = " ".join("/%s << /NeutralDensity %s >>" % ink for ink in INKS)


def job(params, resolution=72, more="", end="showpage"):
    """A job for the four process inks, with these parameters."""
    return ("<< /HWResolution [%d %d] %s/TrappingDetails << /Type 1001 /ColorantDetails << %s >> >> >> setpagedevice << %s >> "
            "settrapparams %s" % (resolution, resolution, more, COLORANTS, params, end)).encode()


def plate(width, height, row):
    """A plate of that many rows which are all alike, sample by sample in hexadecimal."""
    return b"P5\n%d %d\n255\n" % (width, height) + bytes.fromhex(row) * height


PAIR = {"Cyan": plate(6, 1, "000000FFFFFF"), "Magenta": plate(6, 1, "FFFFFF000000"), "job": job("/TrapWidth 2")}
# Magenta is dark enough to be a black, and cyan lies under it alone.
RICH = {"Cyan": PAIR["Magenta"], "Magenta": PAIR["Magenta"], "job": job("/TrapWidth 2 /BlackDensityLimit 0.7")}
LINES = (".5 .5 moveto 2.5 .5 lineto 2.5 1.5 lineto .5 1.5 lineto settrapzone "
         ".5 .5 moveto 0 0 rmoveto 2 0 rlineto 0 1 rlineto -2 0 rlineto settrapzone showpage")
ZONES = {"Cyan": plate(4, 2, "00000000"), "job": job("/TrapWidth 2", end=LINES)}
BOX = "%s 0 moveto 612 0 lineto 612 792 lineto %s 792 lineto closepath settrapzone "
SHOP = {
    "Cyan": plate(12, 2, "FFFFFF000000FFFFFFFFFFFF"),
    "Magenta": plate(12, 2, "FFFFFFFFFFFFFFFFFF000000"),
    "Yellow": plate(12, 2, "FFFFFFFFFFFF000000FFFFFF"),
    "Black": plate(12, 2, "000000FFFFFFFFFFFFFFFFFF"),
    "job": b"%!PS\n" + job("/TrapWidth 0.25 /BlackWidth 2 /ColorantZoneDetails << /Cyan << /StepLimit .2 >> >>", 600, "/Trapping true ",
                           BOX % ("0", "0") + "<< /Enabled false >> settrapparams " + BOX % ("1.08", "1.08") + "showpage"),
}
# A sheet of three strips, and one that is no page's windows: its resolution has no step that a window could lie at.
STRIPS = {"Cyan": plate(2, 600, "00FF"), "Magenta": plate(2, 600, "FF00"), "job": job("/TrapWidth 1")}
UNCUT = {**PAIR, "job": job("/TrapWidth 0.02", 9973, end="0 0 moveto 1 0 lineto 1 1 lineto 0 1 lineto settrapzone showpage")}
SET = b"trap set\npage 6 1 255 plates 2\nrun 0 2 2 255 255\nend\n"
TWICE = {"job": PAIR["job"] + b" << /SlidingTrapLimit 1 >> settrapparams showpage",
         "Cyan": PAIR["Cyan"] * 2, "Magenta": PAIR["Magenta"] * 2}


def outs(files):
    """The words NAME:IN:OUT of the plates among the files."""
    return ["%s:%s:%s.out" % (name, name, name) for name, _ in INKS if name in files]
