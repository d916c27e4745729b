# SPDX-License-Identifier: Apache-2.0
"""The contents of a PDF page: what they leave open at their end, and a page whose contents are separate, in a form of
their own."""
import copy
import zlib
from collections.abc import Sequence
from dataclasses import dataclass
from typing import Any

import pikepdf
from pikepdf import Array, Dictionary, Name, Object

from .errors import PressError, Status
from .pdf_grid import box_of, plain_number
from .source import inherited

LEVEL = 6
# The entry by which streams and objects that press/pdf adds are found again.
MARK = "/YAVE_Traps"
# The entry that keeps a page's group while the page has traps.
GROUP = "/YAVE_Group"
MOST_NAMES = 10_000


@dataclass(frozen=True)
class LeftOpen:
    """What a page's contents leave open: saved states, marked content, a text object; and whether they restore more
    than they save."""

    states: int
    marked: int
    text: bool
    underflow: bool

    def closing_words(self) -> bytes:
        """What closes all of it."""
        return b"ET " * self.text + b"EMC " * self.marked + b"Q " * self.states


def left_open(page: pikepdf.Page) -> LeftOpen:
    """What the page's contents leave open."""
    states = marked = 0
    text = underflow = False
    for _, operator in pikepdf.parse_content_stream(page, "q Q BT ET BMC BDC EMC"):
        word = str(operator)
        if word in ("q", "Q"):
            underflow |= word == "Q" and states == 0
            states = max(0, states + (1 if word == "q" else -1))
        elif word in ("BT", "ET"):
            text = word == "BT"
        else:
            marked = max(0, marked - 1 if word == "EMC" else marked + 1)
    return LeftOpen(states, marked, text, underflow)


def content_streams(page: pikepdf.Page) -> list[Any]:
    """The streams of the page's contents. Empty ones are left out: Ghostscript 10.00 draws nothing that comes after."""
    contents = page.obj.get("/Contents")
    streams = list(contents) if isinstance(contents, pikepdf.Array) else [contents]
    return [stream for stream in streams if isinstance(stream, pikepdf.Stream) and stream.read_raw_bytes()]


def blends_in_ink(page: pikepdf.Page) -> bool:
    """Whether the page's transparency group, if it has one, leaves process inks as they are."""
    group = page.obj.get("/Group")
    space = group.get("/CS") if isinstance(group, pikepdf.Dictionary) else None
    return space is None or space == Name.DeviceCMYK


def is_tagged(page: pikepdf.Page) -> bool:
    """Whether a structure tree names parts of the page's contents."""
    return "/StructParents" in page.obj


def own_resources(page: pikepdf.Page) -> Any:
    """The page's resources as a dictionary that no other page shares. What its dictionaries hold stays shared."""
    found = inherited(page.obj, "/Resources")
    resources = copy.copy(found) if isinstance(found, pikepdf.Dictionary) else Dictionary()
    for kind in ("/XObject", "/Properties"):
        part = resources.get(kind)
        resources[kind] = copy.copy(part) if isinstance(part, pikepdf.Dictionary) else Dictionary()
    page.obj.Resources = resources
    return resources


def add_resource(resources: Any, kind: str, stem: str, value: Any) -> bytes:
    """Puts a value among the resources of a kind, under a name that is free. Returns the name."""
    names = (f"/{stem}{at or ''}" for at in range(MOST_NAMES))
    name = next(name for name in names if name not in resources[kind])
    resources[kind][name] = value
    return name.encode()


def deflated(pdf: pikepdf.Pdf, data: bytes, **entries: Any) -> Any:
    """A stream of these data, compressed."""
    return pdf.make_stream(zlib.compress(data, LEVEL), Filter=Name.FlateDecode, **entries)


def marked_stream(pdf: pikepdf.Pdf, data: bytes, part: str) -> Any:
    """A stream of contents that is found again by its mark."""
    stream = pdf.make_stream(data)
    stream[MARK] = Name("/" + part)
    return stream


def numbers(values: Sequence[float]) -> Any:
    """An array of numbers without exponents."""
    return Array([Object.parse(plain_number(value).encode()) for value in values])


def mend_surplus(pdf: pikepdf.Pdf, page: pikepdf.Page) -> None:
    """Writes the contents anew for a state that is saved before them. Ghostscript takes a Q that restores nothing for
    one that restores the page's first state, and so it is written; other renderers pass over it, or give up."""
    kept: list[Any] = []
    states = 0
    for instruction in pikepdf.parse_content_stream(page):
        word = str(instruction.operator)
        kept.append(instruction)
        if word == "Q" and states == 0:
            kept.append(pikepdf.ContentStreamInstruction([], pikepdf.Operator("q")))
        else:
            states += (word == "q") - (word == "Q")
    page.obj.Contents = pdf.make_stream(pikepdf.unparse_content_stream(kept))


def set_apart(pdf: pikepdf.Pdf, page: pikepdf.Page, closing: bytes) -> None:
    """Moves the page's contents into a form that has the page's group, so that what is painted after it is painted into
    no group.

    A group of RGB, of gray or of a profile turns all process inks within it into its own colours, those of traps too.
    The contents are the same bytes in another stream, with `closing` after them. A structure tree would have to name
    that stream, so a tagged page is refused.
    """
    if is_tagged(page):
        raise PressError(Status.PDF, "the page is tagged and blends in other colours than DeviceCMYK: traps would take "
                         "on those colours")
    data = b"q\n" + b"\n".join(stream.read_bytes() for stream in content_streams(page)) + b"\n" + closing + b"Q\n"
    media = box_of(page, "media")
    resources = inherited(page.obj, "/Resources")
    form = deflated(pdf, data, Type=Name.XObject, Subtype=Name.Form, FormType=1, Group=page.obj.Group,
                    BBox=numbers([media.left, media.lower, media.right, media.upper]),
                    Resources=resources if isinstance(resources, pikepdf.Dictionary) else Dictionary())
    form[MARK] = Name.Apart
    del page.obj["/Group"]
    page.obj.Resources = Dictionary(XObject=Dictionary(Page=form))
    page.obj.Contents = marked_stream(pdf, b"/Page Do\n", "Apart")


def leave_out_group(page: pikepdf.Page) -> None:
    """Leaves out the group of a page in which nothing blends. Ghostscript passes over such a group, and MuPDF would
    turn traps into its colours."""
    page.obj[GROUP] = page.obj.Group
    del page.obj["/Group"]


def put_back_group(page: pikepdf.Page) -> None:
    """Undoes `leave_out_group`."""
    if GROUP in page.obj:
        page.obj.Group = page.obj[GROUP]
        del page.obj[GROUP]


def put_back(pdf: pikepdf.Pdf, page: pikepdf.Page, form: Any) -> None:
    """Undoes `set_apart`."""
    page.obj.Contents = pdf.make_stream(form.read_bytes())
    page.obj.Resources = form.Resources
    page.obj.Group = form.Group
