# SPDX-License-Identifier: Apache-2.0
"""Whether a page's resources have transparency: only then does Ghostscript blend in the colours of the page's group. It
looks at resources, whether the contents use them or not."""
from collections.abc import Iterator
from typing import Any

import pikepdf
from pikepdf import Dictionary

from .source import inherited

OPAQUE_MODES = ("/Normal", "/Compatible")


def has_transparency(page: pikepdf.Page) -> bool:
    """Whether a page can blend what it paints."""
    return any(blends(one) for one in objects_of(page))


def objects_of(page: pikepdf.Page) -> Iterator[Any]:
    """The graphics states, forms, images and patterns of a page's resources, of those below them, and the appearances
    of its annotations."""
    annotations = inherited(page.obj, "/Annots")
    looks = [one.get("/AP") for one in annotations if isinstance(one, Dictionary)] \
        if isinstance(annotations, pikepdf.Array) else []
    waiting, seen = [inherited(page.obj, "/Resources"), *looks], set()
    while waiting:
        one = waiting.pop()
        below = one.stream_dict if isinstance(one, pikepdf.Stream) else one
        if not isinstance(below, Dictionary) or one.is_indirect and one.objgen in seen:
            continue
        seen.add(one.objgen if one.is_indirect else None)
        yield below
        # A mask's group and a parent are not looked into: the mask itself is transparency.
        for key in ("/Resources", "/ExtGState", "/XObject", "/Pattern", "/Font", "/N"):
            value = below.get(key)
            if isinstance(value, (Dictionary, pikepdf.Stream)):
                waiting.append(value)
                if key != "/Resources" and isinstance(value, Dictionary):
                    waiting += [part for _, part in value.items()]


def blends(one: Any) -> bool:
    """Whether a graphics state, form or image blends."""
    group = one.get("/Group")
    if isinstance(group, Dictionary) and str(group.get("/S")) == "/Transparency":
        return True
    if str(one.get("/Subtype")) == "/Image" and ("/SMask" in one or number_of(one, "/SMaskInData", 0) != 0):
        return True
    mode, mask = one.get("/BM"), one.get("/SMask")
    modes = list(mode) if isinstance(mode, pikepdf.Array) else [mode] if mode is not None else []
    return any(str(name) not in OPAQUE_MODES for name in modes) or isinstance(mask, (Dictionary, pikepdf.Stream)) or \
        number_of(one, "/ca", 1) != 1 or number_of(one, "/CA", 1) != 1


def number_of(one: Any, key: str, otherwise: float) -> float:
    """A number of a dictionary; another one if it has none."""
    try:
        return float(one.get(key, otherwise))
    except (TypeError, ValueError):
        return otherwise
