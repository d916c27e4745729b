# SPDX-License-Identifier: Apache-2.0
"""CMYK colours with a profile of their own: a copy of a PDF in which they are plain CMYK, so that they keep their
numbers."""
from collections.abc import Iterator
from typing import Any

import pikepdf

from .errors import PressError, Status

UNREAD = (pikepdf.PdfError, RuntimeError)
MOST_DEPTH = 100


def is_cmyk_of_its_own(value: Any) -> bool:
    """Whether a value is a colour space of CMYK with a profile."""
    if not isinstance(value, pikepdf.Array) or len(value) != 2 or value[0] != pikepdf.Name.ICCBased:
        return False
    profile = value[1]
    return isinstance(profile, pikepdf.Stream) and int(profile.get("/N", 0)) == 4


def entries_of(value: Any) -> Iterator[tuple[Any, Any]]:
    """The entries of a dictionary, a stream or an array, with their keys."""
    if isinstance(value, pikepdf.Array):
        yield from enumerate(list(value))
    elif isinstance(value, (pikepdf.Dictionary, pikepdf.Stream)):
        yield from list(value.items())


def make_plain(value: Any, depth: int = 0) -> int:
    """Makes such colour spaces within an object plain CMYK. Answers how many there were."""
    count = 0
    for key, inside in entries_of(value):
        if is_cmyk_of_its_own(inside):
            value[key] = pikepdf.Name.DeviceCMYK
            count += 1
        elif isinstance(inside, pikepdf.Object) and not inside.is_indirect and depth < MOST_DEPTH:
            count += make_plain(inside, depth + 1)
    return count


def write_plain(path: str, out: str, place: str) -> int:
    """Writes a copy of a PDF in which CMYK colours have no profile. Answers how many colour spaces had one."""
    try:
        with pikepdf.open(path) as pdf:
            count = sum(make_plain(one) for one in pdf.objects)
            pdf.save(out)
            return count
    except UNREAD as fault:
        raise PressError(Status.PDF, f"its profiles cannot be left aside (--keep-cmyk): {fault}", place) from fault
