# SPDX-License-Identifier: Apache-2.0
"""Random jobs: lists of tokens, most of them jobs that are right, with one or two faults in the others."""
from slow.entries import KINDS, PARAMETERS

from . import spelling
from .pictures import NAMES

SHOWPAGE = [b"showpage"]
OPEN, CLOSE = [b"<<"], [b">>"]
ODD_VALUES = [[b"null"], [b"(a (b) \\) c)"], [b"<48 65 6c>"], [b"[", b"1", b"[", b"]", b"/x", b"]"], [b"/x"], [b"5"],
              [b"<<", b"/a", b"<<", b">>", b">>"], [b"true"], [b"()"], [b"<>"], [b"(%)"], [b"/"]]
UNKNOWN_KEYS = [b"/Other", b"/HalftoneName", b"/trapwidth", b"/", b"/\x80\xff", b"/TrapWidth.", b"/ImageTrapPlacement"]


def job(rng, picture):
    """A job for a page, as bytes."""
    tokens = [token for statement in page_statements(rng, picture) for token in statement]
    if rng.random() < 0.05:
        tokens = with_token_fault(rng, tokens)
    text = spelling.job(rng, tokens)
    return with_byte_fault(rng, text) if rng.random() < 0.04 else text


def keep_job(rng, picture):
    """A job whose first ink is black in most zones, as bytes."""
    resolution, inks, zones = rng.choice([72, 72, 36, 144, 600]), [], []
    for number, name in enumerate(picture.names):
        density = "1.70" if number == 0 or rng.random() < 0.1 else rng.choice(["0.61", "0.16", "1.6", "1.5999"])
        kind = rng.choice(["Normal"] * 8 + [*KINDS]) if number or rng.random() < 0.1 else "Normal"
        inks.append("/%s << /NeutralDensity %s /ColorantType /%s >>" % (name, density, kind))
    for _ in range(rng.choice([0, 0, 1, 2])):
        zones.append(keep_zone(rng, 72 / resolution))
    device = "<< /HWResolution [%d %d] /TrappingDetails << /Type 1001 /ColorantDetails << %s >> >> >> setpagedevice"
    text = device % (resolution, resolution, " ".join(inks))
    return ("%s << /TrapWidth .1 >> settrapparams %s showpage" % (text, " ".join(zones))).encode()


def keep_zone(rng, pixel):
    """A box as a zone, in pixels of so many points."""
    x, y = rng.randint(-2, 4) * pixel, rng.randint(-2, 4) * pixel
    right, up = rng.randint(2, 40) * pixel, rng.randint(2, 40) * pixel
    params = (rng.choice(["true", "true", "false"]), rng.choice(["1.6", "1.7", "0.61", "2"]))
    path = "%.4f %.4f moveto %.4f 0 rlineto 0 %.4f rlineto %.4f 0 rlineto" % (x, y, right, up, -right)
    return "<< /Enabled %s /BlackDensityLimit %s >> settrapparams " % params + path + " settrapzone"


def jobs(rng, pictures):
    """A job of many pages."""
    tokens = []
    for number, picture in enumerate(pictures):
        short = number > 0 and rng.random() < 0.7
        for statement in page_statements(rng, picture, device=not short):
            tokens += statement
    if rng.random() < 0.08:
        tokens = with_token_fault(rng, tokens)
    text = spelling.job(rng, tokens)
    return with_byte_fault(rng, text) if rng.random() < 0.04 else text


def page_statements(rng, picture, device=True):
    """The statements of one page."""
    if rng.random() < 0.03:
        return [disabling(rng), SHOWPAGE]
    # The last ones do not divide 720,000: windows of a sheet with zones lie at multiples of 7, 7, 127 and 1,219 samples then, and
    # of 9,973, which is too much for a window, so that trapsheet takes such a page whole.
    resolution = rng.choice([72, 72, 72, 36, 144, 100, 300, 600, 1, 10000, 350, 700, 2540, 2438, 9973])
    statements = [device_statement(rng, picture.names, resolution)] if device else []
    for _ in range(rng.choice([0, 1, 1, 1, 2])):
        statements.append(params_statement(rng, picture, resolution))
    for _ in range(rng.choice([0, 0, 0, 1, 1, 2, 3, 5])):
        statements += zone_statements(rng, picture, resolution)
        if rng.random() < 0.5:
            statements.append(params_statement(rng, picture, resolution))
    if rng.random() < 0.05:
        statements.append(device_statement(rng, picture.names, resolution))
    if rng.random() < 0.13:
        statements.insert(rng.randint(0, len(statements)), faulty_statement(rng))
    if rng.random() < 0.03:
        rng.shuffle(statements)
    return statements + [SHOWPAGE]


def disabling(rng):
    if rng.random() < 0.5:
        return OPEN + [b"/Enabled", b"false"] + CLOSE + [b"settrapparams"]
    return OPEN + [b"/Trapping", b"false"] + CLOSE + [b"setpagedevice"]


def dictionary(rng, entries, any_key=True):
    """The tokens of a dictionary, with entries that are passed over and with earlier entries of its keys among them.

    Where every key means something, `any_key` is false.
    """
    entries = list(entries)
    rng.shuffle(entries)
    if any_key and rng.random() < 0.15:
        entries.append((rng.choice(UNKNOWN_KEYS), rng.choice(ODD_VALUES)))
    if entries and rng.random() < 0.15:
        # An earlier entry of a key is not judged.
        place = rng.randrange(len(entries))
        entries.insert(rng.randint(0, place), (entries[place][0], rng.choice(ODD_VALUES)))
    return OPEN + [token for key, value in entries for token in [key, *value]] + CLOSE


def device_statement(rng, names, resolution):
    entries = []
    if rng.random() < 0.97:
        number = [spelling.value(rng, resolution * 10000) for _ in range(2)]
        if rng.random() < 0.03:
            number = rng.choice([[b"600"], [b"72", b"73"], [b"72.5", b"72.5"], [b"0", b"0"], [b"10001", b"10001"],
                                 [b"72", b"/x"], [b"-72", b"-72"], [b"72"] * 3, []])
        value = [b"[", *number, b"]"] if rng.random() < 0.99 else rng.choice(ODD_VALUES)
        entries.append((b"/HWResolution", value))
    if rng.random() < 0.1:
        entries.append((b"/Trapping", [rng.choice([b"true", b"true", b"true", b"false"])]))
    if rng.random() < 0.01:
        entries.append((b"/Trapping", rng.choice(ODD_VALUES)))
    if rng.random() < 0.97:
        entries.append((b"/TrappingDetails", details(rng, names)))
    return dictionary(rng, entries) + [b"setpagedevice"]


def details(rng, names):
    """TrappingDetails for the plates' colorants and some others."""
    if rng.random() < 0.01:
        return rng.choice(ODD_VALUES)
    others = [name for name in NAMES if name not in names]
    densities = DENSITIES if rng.random() < 0.7 else [rng.choice(DENSITIES)]
    more = rng.sample(others, min(len(others), rng.randint(0, 3)))
    inks = [(b"/" + name.encode(), ink(rng, densities)) for name in names + more if rng.random() < 0.995]
    entries = []
    if rng.random() < 0.99:
        kind = [b"1001"] if rng.random() < 0.98 else rng.choice([[b"1000"], [b"/x"], [b"1001.0001"], [b"null"]])
        entries.append((b"/Type", kind if kind != [b"1001"] else [spelling.value(rng, 10010000)]))
    if rng.random() < 0.99:
        value = dictionary(rng, inks, any_key=False) if rng.random() < 0.99 else rng.choice(ODD_VALUES)
        entries.append((b"/ColorantDetails", value))
    return dictionary(rng, entries)


DENSITIES = [6100, 7600, 1600, 17000, 10000, 16000, 10, 100000, None]


def ink(rng, densities):
    """One colorant's details."""
    entries = []
    if rng.random() < 0.997:
        density = rng.choice(densities) or rng.randint(10, 100000)
        value = [spelling.value(rng, density)]
        if rng.random() < 0.004:
            value = rng.choice([[b"0.0009"], [b"10.0001"], [b"-1"], [b"/x"], [b"0"], [b"null"]])
        entries.append((b"/NeutralDensity", value))
    if rng.random() < 0.4:
        kind = b"/" + rng.choice(["Normal"] * 7 + [*KINDS]).encode()
        if rng.random() < 0.005:
            kind = rng.choice([b"/Metal", b"null", b"1", b"/"])
        entries.append((b"/ColorantType", [kind]))
    if rng.random() < 0.004:
        return rng.choice(ODD_VALUES)
    return dictionary(rng, entries)


def parameter(rng, key, resolution, picture):
    """A value for a parameter; widths are such that they reach a few samples."""
    least, greatest, default = PARAMETERS[key]
    if key == "TrapWidth":
        halves = rng.choice([0.5, 1, 1, 2, 3, 4, 4, 6, 10, 12.5, rng.uniform(0, 20), rng.uniform(0, 20),
                             rng.choice([256, 257, rng.uniform(0, 300)])])
        return min(max(int(halves * 360000 / resolution), least), greatest)
    if key == "BlackWidth":
        return rng.choice([10000, 20000, 5000, 15000, rng.randint(least, 30000)])
    if key == "BlackDensityLimit":
        return rng.choice([least, default, 17000, 6100, 1600, rng.randint(least, 20000)])
    if key == "SlidingTrapLimit":
        return rng.choice([least, greatest, default, 6100, 7600, 1600, 1000, rng.randint(least, greatest)])
    if key in ("StepLimit", "BlackColorLimit"):
        level = rng.randint(0, picture.maxval) * 10000 // picture.maxval
        return rng.choice([least, default, 2500, 5000, level, rng.randint(least, greatest)])
    return rng.choice([least, greatest, default, rng.randint(least, greatest)])


def params_statement(rng, picture, resolution):
    entries = []
    for key, ranges in PARAMETERS.items():
        if rng.random() < (0.93 if key == "TrapWidth" else 0.3):
            entries.append((b"/" + key.encode(), param_value(rng, key, ranges, resolution, picture)))
    if rng.random() < 0.25:
        value = limits(rng, picture) if rng.random() < 0.98 else rng.choice(ODD_VALUES)
        entries.append((b"/ColorantZoneDetails", value))
    return dictionary(rng, entries) + [b"settrapparams"]


def param_value(rng, key, ranges, resolution, picture):
    if rng.random() < 0.006:
        return rng.choice(ODD_VALUES)
    if ranges is None:
        return [rng.choice([b"true"] * 5 + [b"false"])]
    if rng.random() < 0.006:
        return [spelling.value(rng, rng.choice([ranges.least - 1, ranges.greatest + 1, -10000]))]
    return [spelling.value(rng, parameter(rng, key, resolution, picture))]


def limits(rng, picture):
    """ColorantZoneDetails."""
    entries = []
    for name in rng.sample(picture.names, rng.randint(0, min(3, len(picture.names)))) + rng.sample(NAMES, 1):
        one = []
        if rng.random() < 0.9:
            level = rng.randint(0, picture.maxval) * 10000 // picture.maxval
            value = [spelling.value(rng, rng.choice([0, 10000, 2500, level]))]
            if rng.random() < 0.02:
                value = rng.choice([[b"1.0001"], [b"-.0001"], [b"/x"], [b"true"]])
            one.append((b"/StepLimit", value))
        body = dictionary(rng, one) if rng.random() < 0.99 else rng.choice(ODD_VALUES)
        entries.append((b"/" + name.encode(), body))
    if rng.random() < 0.05:
        long_name = b"/" + b"m" * rng.randint(63, 70)
        entries.append((long_name, OPEN + [b"/StepLimit", rng.choice([b"0", b"1", b"2"])] + CLOSE))
    return dictionary(rng, entries, any_key=False)


def zone_statements(rng, picture, resolution):
    """The statements of a path, often about the page, and its `settrapzone`."""
    statements = []
    for _ in range(rng.choice([0, 1, 1, 1, 1, 2])):
        statements += subpath(rng, picture, resolution)
    if rng.random() < 0.04:
        statements.insert(0, [b"newpath"])
    if rng.random() < 0.01:
        statements.append([b"newpath"])
    return statements + [[b"settrapzone"]]


def coordinate(rng, side, resolution):
    """A place along a side of the page in ten-thousandths of a point, often at a sample's centre or border."""
    half = 36 * 10000 / resolution
    if rng.random() < 0.8:
        return int(half * rng.randint(-1, 2 * side + 1))
    return int(half * rng.uniform(-2, 2 * side + 2))


def subpath(rng, picture, resolution):
    """A rectangle, or some points in a row; `closepath` may stand anywhere."""
    def point():
        return coordinate(rng, picture.width, resolution), coordinate(rng, picture.height, resolution)
    if rng.random() < 0.6:
        (a, b), (c, d) = point(), point()
        if rng.random() < 0.6:
            (a, b), (c, d) = (-10000, -10000), (12000000, 12000000)
        points = [(a, b), (c, b), (c, d), (a, d)]
    else:
        points = [point() for _ in range(rng.randint(1, 7))]
    statements, at = [], (0, 0)
    for number, (x, y) in enumerate(points):
        line, relative = b"moveto" if number == 0 else b"lineto", number > 0 and rng.random() < 0.3
        given = (x - at[0], y - at[1]) if relative else (x, y)
        statements.append([*(spelling.value(rng, one) for one in given), (b"r" if relative else b"") + line])
        at = x, y
        if number > 0 and rng.random() < 0.05:
            statements.append([b"closepath"])
            at = points[0]
    if rng.random() < 0.5:
        statements.append([b"closepath"])
    return statements


def faulty_statement(rng):
    """A statement with a fault of its own, or one that is odd and right; what is left of the job is right."""
    kind = rng.random()
    if kind < 0.3:
        return settings(rng, [misfit(rng)]) + [b"settrapparams"]
    if kind < 0.4:
        return settings(rng, [misfit(rng) for _ in range(3)]) + [b"settrapparams"]
    if kind < 0.6:
        return settings(rng, [device_misfit(rng)]) + [b"setpagedevice"]
    if kind < 0.65:
        return settings(rng, [device_misfit(rng) for _ in range(3)]) + [b"setpagedevice"]
    return rng.choice(ODD_STATEMENTS)


def settings(rng, entries):
    """A dictionary of these entries, that may hold right ones too."""
    entries = list(entries)
    if rng.random() < 0.3:
        entries.insert(rng.randint(0, len(entries)), (b"/TrapWidth", [b"1"]))
    return OPEN + [token for key, value in entries for token in [key, *value]] + CLOSE


def misfit(rng):
    """An entry that `settrapparams` refuses."""
    key = rng.choice([*PARAMETERS, "ColorantZoneDetails"])
    if key == "ColorantZoneDetails":
        value = rng.choice([[b"5"], [b"[", b"]"], [b"<<", b"/Cyan", b"5", b">>"], [b"<<", b"/", b"null", b">>"],
                            *([b"<<", b"/Cyan", b"<<", b"/StepLimit", step, b">>", b">>"]
                              for step in (b"2", b"-.0001", b"1.0001", b"/x", b"true"))])
    elif PARAMETERS[key] is None or rng.random() < 0.5:
        value = rng.choice([[b"/x"], [b"(1)"], [b"null"], [b"[", b"1", b"]"], [b"<<", b">>"],
                            [b"1"] if PARAMETERS[key] is None else [b"true"]])
    else:
        ranges = PARAMETERS[key]
        value = [spelling.value(rng, rng.choice([ranges.least - 1, ranges.greatest + 1, -10000, 10 ** 10]))]
    return b"/" + key.encode(), value


def device_misfit(rng):
    """An entry that `setpagedevice` refuses."""
    key = rng.choice([b"/HWResolution", b"/Trapping", b"/TrappingDetails", b"/TrappingDetails", b"/TrappingDetails"])
    if key == b"/HWResolution":
        return key, rng.choice([[b"72"], [b"[", b"]"], *([b"[", *pair.split(), b"]"] for pair in (
            b"72", b"72 73", b"72.5 72.5", b"0 0", b"10001 10001", b"-72 -72", b"72 /x", b"72 72 72", b"true true",
            b"72.0001 72", b".0001 .0001"))])
    if key == b"/Trapping":
        return key, rng.choice([[b"1"], [b"null"], [b"/true"], [b"(true)"]])
    kinds, details = [b"/Type", b"1001"], [b"/ColorantDetails"]
    body = rng.choice([[b"5"], [b"<<", b"/Cyan", b"5", b">>"], [b"<<", b"/Cyan", b"<<", b">>", b">>"],
                       *([b"<<", b"/Cyan", b"<<", *ink.split(), b">>", b">>"] for ink in (
                           b"/NeutralDensity 0", b"/NeutralDensity .0009", b"/NeutralDensity 10.0001",
                           b"/NeutralDensity /x",
                           b"/ColorantType /Normal", b"/ColorantType /normal", b"/ColorantType /x /NeutralDensity 0",
                           b"/NeutralDensity 1 /ColorantType 1", b"/NeutralDensity 1 /ColorantType /"))])
    return key, rng.choice([
        [b"5"], OPEN + CLOSE, OPEN + details + body + CLOSE, OPEN + kinds + details + body + CLOSE,
        OPEN + details + body + kinds + CLOSE, OPEN + [b"/Type", b"1000"] + details + body + CLOSE,
        OPEN + details + body + [b"/Type", b"/x"] + CLOSE, OPEN + [b"/Type", b"1001.5"] + CLOSE])


ODD_STATEMENTS = [statement.split() for statement in (
    b"gsave", b"5 newpath", b"1 moveto", b"1 2 3 moveto", b"settrapparams", b"true settrapparams", b"/x /y moveto",
    b"newpath 1 1 lineto", b"newpath 1 1 rmoveto", b"newpath 0 0 rlineto", b"1000000.0001 0 moveto",
    b"0 -1000000.0001 moveto", b"1000000 -1000000 moveto newpath", b"1000000 0 moveto .0001 0 rlineto",
    b"newpath 1000000.1 0 lineto", b"showpage", b"showpage 1", b"]", b">>", b"[ showpage ]", b"[ 1 >>", b"<< /a >>",
    b"<< 1 2 >>", b"<< [ ] 1 >>", b"<< true 1 >>", b"<< ( 1 >>", b"<< /a ]", b"<<", b"[", b"1000001", b"-1000001.5",
    b"1e5", b"16#FF", b"-x", b".", b"+", b"{", b"<~>", b"<4g>", b"//a", b"[ " * 17 + b"] " * 17,
    b"[ " * 16 + b"] " * 16, b"[ " * 15 + b"<< /a [ ] >>", b"<< /a " * 17, b"null", b"closepath", b"newpath",
    b"newpath closepath closepath", b"SHOWPAGE", b"true", b"\x80", b"(a\\", b"0 0 0", b"<< >> settrapparams",
    b"<< >> setpagedevice", b"<< >> showpage", b"<< >> << >> settrapparams", b"[ ] setpagedevice", b"settrapzone",
    b"closepath settrapzone")]
ODD_STATEMENTS += [[b"("], [b"\x0b"], [b"a\x0bb"], [b"/\x0b"], [b"-"], [b"1..2"], [b"+.5."], [b"--1"]]


def with_token_fault(rng, tokens):
    """Tokens with one taken out, doubled, exchanged or put in, or cut short."""
    tokens, place = list(tokens), rng.randrange(len(tokens))
    kind = rng.randrange(5)
    if kind == 0:
        del tokens[place]
    elif kind == 1:
        tokens.insert(place, tokens[place])
    elif kind == 2:
        tokens = tokens[:place]
    elif kind == 3:
        tokens[place] = rng.choice(tokens)
    else:
        odd = [b"<<", b">>", b"[", b"]", b"/x", b"1", b"true", b"null", b"(x)", b"showpage", b"x"]
        tokens.insert(place, rng.choice(odd))
    return tokens or SHOWPAGE


def with_byte_fault(rng, text):
    """Bytes with some changed."""
    data = bytearray(text)
    for _ in range(rng.choice([1, 1, 2, 5])):
        place = rng.randint(0, len(data))
        odd = rng.choice(b"()<>[]{}/%~\\ .+-01e\n\r\0\x0b\x80\xff")
        kind = rng.randrange(4)
        if kind == 0:
            del data[place:place + rng.randint(1, 3)]
        elif kind == 1:
            data.insert(place, odd)
        elif kind == 2 and place < len(data):
            data[place] = odd
        elif rng.random() < 0.3:
            del data[place:]
    return bytes(data)


def long_job(rng):
    """A job at one of the limits, that some of them keep and others break by one."""
    off = b"<< /Enabled false >> settrapparams "
    device = b"<< /HWResolution [72 72] >> setpagedevice "
    size, more = 1048576, rng.choice([0, 1, 500])
    kind = rng.randrange(6)
    if kind == 0:
        return off + b" " * (size + more - len(off) - 8) + b"showpage"
    if kind == 1:
        return device + off + b"settrapzone " * rng.choice([250, 251]) + b"showpage"
    if kind == 2:
        lines = rng.choice([4095, 4096])
        return device + off + b"0 0 moveto" + b" 1 1 lineto" * lines + b" settrapzone showpage"
    if kind == 3:
        path = b"0 0 moveto" + b" 1 0 rlineto" * 4095 + b" settrapzone "
        return device + off + path * 4 + rng.choice([b"", b"0 0 moveto settrapzone "]) + b"showpage"
    if kind == 4:
        closes = b"0 0 moveto" + b" 1 1 lineto" * rng.choice([4093, 4094]) + b" closepath 1 1 lineto settrapzone "
        return device + off + closes + b"showpage"
    return off + b"%" + b"x" * rng.choice([70000, size]) + b"\nshowpage"
