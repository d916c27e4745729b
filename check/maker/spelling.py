# SPDX-License-Identifier: Apache-2.0
"""Odd but valid spellings of jobs and of plates."""

DELIMITERS = b"()<>[]{}/%"
GAPS = [b" ", b"\n", b"\t", b"\r", b"\f", b"\0", b"\r\n", b"  ", b"% a comment\n", b"%<< ( /\r", b" %\f", b"%%\n "]


def value(rng, number):
    """A number in ten-thousandths, spelled in one of its ways. Digits after the fourth are cut when it is read."""
    sign = "-" if number < 0 else rng.choice(["", "", "", "+"])
    whole, fraction = divmod(abs(number), 10000)
    digits = "%04d" % fraction
    if rng.random() < 0.7:
        digits = digits.rstrip("0")
    elif rng.random() < 0.3:
        digits += rng.choice(["9", "0000", "00001", "99999"])
    if not digits:
        text = str(whole) + rng.choice(["", "", ".", ".0"])
    else:
        text = ("" if whole == 0 and rng.random() < 0.3 else str(whole)) + "." + digits
    if rng.random() < 0.05:
        text = rng.choice(["0", "00", "0000000000"]) + text
    return (sign + text).encode()


def job(rng, tokens):
    """The bytes of a job's tokens, with gaps where they are needed and where they are not."""
    odd = rng.random() < 0.3
    text = rng.choice([b"", b"", b"%!PS\n", b" ", b"%\r"]) if odd else b""
    for number, token in enumerate(tokens):
        if number > 0:
            text += gap(rng, odd, tokens[number - 1], token)
        text += token
    return text + (rng.choice(GAPS + [b"", b"% the end"]) if odd else b"")


def gap(rng, odd, before, after):
    """What stands between two tokens."""
    needed = before[-1:] not in b")><[]" and after[:1] not in DELIMITERS or before == b"/"
    if odd and rng.random() < 0.4:
        return b"".join(rng.choice(GAPS) for _ in range(rng.randint(1, 3)))
    if odd and not needed and rng.random() < 0.7:
        return b""
    return b" "


def plate(rng, width, height, maxval, samples):
    """The bytes of a plate, its header often spelled otherwise than the program writes it."""
    size = 1 if maxval < 256 else 2
    raster = b"".join(sample.to_bytes(size, "big") for sample in samples)
    if rng.random() < 0.6:
        return b"P5\n%d %d\n%d\n" % (width, height, maxval) + raster
    text = b"P5"
    for number in (width, height, maxval):
        text += b"".join(rng.choice(HEADER_GAPS) for _ in range(rng.randint(1, 3)))
        text += rng.choice([b"", b"", b"0", b"000000000000"]) + b"%d" % number
    return text + rng.choice([b" ", b"\n", b"\t", b"\r", b"\v", b"\f"]) + raster


HEADER_GAPS = [b" ", b"\n", b"\t", b"\r", b"\v", b"\f", b"#\n", b"# P5 1 1\r", b"#" + bytes(range(14, 256)) + b"\n"]
