# SPDX-License-Identifier: Apache-2.0
"""Traps on a PDF page: as a layer after its contents, or as a trap network; and how they are taken off again."""
from collections.abc import Sequence
from dataclasses import dataclass
from typing import Any

import pikepdf
from pikepdf import Array, Dictionary, Name, String

from .inks import Ink
from .pdf_blending import has_transparency
from .pdf_contents import (MARK, add_resource, blends_in_ink, content_streams, deflated, leave_out_group, left_open,
                           marked_stream, mend_surplus, numbers, own_resources, put_back, put_back_group, set_apart)
from .pdf_inks import PROCESS, device_n, name_of
from .pdf_tiles import TileImage

LAYER = "Traps"
CREATOR = "press/pdf"
# How far within its place an image is painted, in pixels. Renderers differ about an edge that lies on the border of
# two pixels.
INSET = 0.01
PRINTED_AND_READ_ONLY = 4 | 64


@dataclass(frozen=True)
class Paint:
    """How traps are painted: on plates of which width and height, by which matrix, and whether words of transparency
    may be written."""

    size: tuple[int, int]
    matrix: Sequence[float]
    transparency: bool


def image_object(pdf: pikepdf.Pdf, image: TileImage, space: Any) -> Any:
    """A tile as an image XObject."""
    colours = space
    if image.palette is not None:
        entries = len(image.palette) // len(space[1])
        colours = Array([Name.Indexed, space, entries - 1, String(image.palette)])
    return pdf.make_stream(image.data, Type=Name.XObject, Subtype=Name.Image, Width=image.tile.width,
                           Height=image.tile.height, BitsPerComponent=image.bits, Interpolate=False,
                           Filter=Name.FlateDecode, ColorSpace=colours, Mask=Array(list(image.key)))


def image_words(name: str, image: TileImage, paint: Paint) -> str:
    """What paints a tile's image on its place."""
    tile = image.tile
    return (f"q {tile.width - 2 * INSET:.2f} 0 0 {tile.height - 2 * INSET:.2f} {tile.x + INSET:.2f} "
            f"{paint.size[1] - tile.y - tile.height + INSET:.2f} cm /{name} Do Q")


def plain_state(transparency: bool) -> Any:
    """A graphics state that neither overprints nor blends."""
    state = Dictionary(Type=Name.ExtGState, OP=False, op=False, OPM=0)
    if transparency:
        for key, value in (("/CA", 1), ("/ca", 1), ("/BM", Name.Normal), ("/SMask", Name("/None")), ("/AIS", False)):
            state[key] = value
    return state


def traps_form(pdf: pikepdf.Pdf, images: Sequence[TileImage], inks: Sequence[Ink], paint: Paint) -> Any:
    """The traps of a page as a form, whose space is the plates' grid."""
    size = paint.size
    space, words, objects = device_n(pdf, inks), ["/Plain gs"], Dictionary()
    for at, image in enumerate(images, 1):
        objects[f"/T{at}"] = image_object(pdf, image, space)
        words.append(image_words(f"T{at}", image, paint))
    resources = Dictionary(ExtGState=Dictionary(Plain=plain_state(paint.transparency)), XObject=objects)
    form = deflated(pdf, "\n".join(words).encode(), Type=Name.XObject, Subtype=Name.Form, FormType=1,
                    BBox=[-1, -1, size[0] + 1, size[1] + 1], Resources=resources)
    form.Matrix = numbers(paint.matrix)
    form[MARK] = Name.Traps
    return pdf.make_indirect(form)


# The layer

def is_our_layer(group: Any) -> bool:
    """Whether an optional content group is the one that press/pdf makes."""
    if not isinstance(group, pikepdf.Dictionary):
        return False
    creator = group.get("/Usage", Dictionary()).get("/CreatorInfo", Dictionary()).get("/Creator", "")
    return str(creator) == CREATOR and str(group.get("/Name", "")) == LAYER


def layer_of(pdf: pikepdf.Pdf) -> Any:
    """The optional content group of the traps, which is switched on. It is made if the file has none."""
    properties = pdf.Root.get("/OCProperties")
    if properties is None:
        properties = Dictionary(OCGs=Array(), D=Dictionary(Name=String("Default"), Order=Array()))
        pdf.Root.OCProperties = properties
        properties = pdf.Root.OCProperties
    for one in properties.get("/OCGs", Array()):
        if is_our_layer(one):
            return one
    usage = Dictionary(CreatorInfo=Dictionary(Creator=String(CREATOR), Subtype=Name.Technical),
                       Print=Dictionary(PrintState=Name.ON, Subtype=Name.Trapping))
    group = pdf.make_indirect(Dictionary(Type=Name.OCG, Name=String(LAYER), Intent=Name.View, Usage=usage))
    properties.OCGs = Array([*properties.get("/OCGs", []), group])
    if "/D" not in properties:
        properties.D = Dictionary(Name=String("Default"))
    properties.D.Order = Array([*properties.D.get("/Order", []), group])
    if properties.D.get("/BaseState") == Name.OFF:
        properties.D.ON = Array([*properties.D.get("/ON", []), group])
    return group


def wrap(pdf: pikepdf.Pdf, page: pikepdf.Page) -> Any:
    """Closes what the page's contents leave open, so that what comes after them begins with the state that a page
    begins with. Their streams stay as they are, between two others, of which the last one is returned; but contents
    that restore more than they save are mended, and a group of other colours is set apart, or left out if nothing of
    the page blends."""
    left = left_open(page)
    closing = left.closing_words()
    if left.underflow:
        mend_surplus(pdf, page)
    if not blends_in_ink(page) and has_transparency(page):
        set_apart(pdf, page, closing)
        closing = b""
    elif not blends_in_ink(page):
        leave_out_group(page)
    before = marked_stream(pdf, b"q\n", "Before")
    after = pdf.make_indirect(marked_stream(pdf, b"\n" + closing + b"Q\n", "After"))
    page.obj.Contents = Array([before, *content_streams(page), after])
    return after


def put_on_page(pdf: pikepdf.Pdf, page: pikepdf.Page, form: Any, layer: Any) -> None:
    """Paints the form after everything that the page's contents paint.

    The layer, if there is one, is named by marked content: Ghostscript 10.00 passes over a form's own entry for it.
    """
    last = wrap(pdf, page)
    resources = own_resources(page)
    words = add_resource(resources, "/XObject", "Traps", form) + b" Do"
    if layer is not None:
        words = b"/OC " + add_resource(resources, "/Properties", "TrapLayer", layer) + b" BDC " + words + b" EMC"
    last.write(last.read_bytes() + b"q " + words + b" Q\n")


# The trap network

def objects_below(value: Any, found: dict[tuple[int, int], Any]) -> None:
    """Collects the indirect objects that a page's look depends on."""
    waiting = [value]
    while waiting:
        one = waiting.pop()
        if not isinstance(one, pikepdf.Object):
            continue
        if one.is_indirect:
            if one.objgen in found:
                continue
            found[one.objgen] = one
        below = one.stream_dict if isinstance(one, pikepdf.Stream) else one
        if isinstance(below, pikepdf.Array):
            waiting += list(below)
        elif isinstance(below, pikepdf.Dictionary):
            waiting += [part for key, part in below.items() if key not in ("/Parent", "/Length")]


def bounds(matrix: Sequence[float], size: tuple[int, int]) -> list[float]:
    """The rectangle that the form's box covers on the page."""
    corners = [(x, y) for x in (-1, size[0] + 1) for y in (-1, size[1] + 1)]
    across = [matrix[0] * x + matrix[2] * y + matrix[4] for x, y in corners]
    upward = [matrix[1] * x + matrix[3] * y + matrix[5] for x, y in corners]
    return [min(across), min(upward), max(across), max(upward)]


def add_trap_network(pdf: pikepdf.Pdf, page: pikepdf.Page, form: Any, inks: Sequence[Ink], paint: Paint) -> None:
    """Gives the page a trap network, its last annotation, which is printed and cannot be edited."""
    wrap(pdf, page)
    form.PCM = Name.DeviceCMYK
    if spots := [name_of(ink.colorant) for ink in inks if ink.colorant not in PROCESS]:
        form.SeparationColorNames = Array(spots)
    annotations = list(page.obj.get("/Annots", []))
    found: dict[tuple[int, int], Any] = {}
    for key in ("/Contents", "/Resources"):
        objects_below(page.obj.get(key), found)
    states = [one.get("/AS") if isinstance(one, pikepdf.Dictionary) else None for one in annotations]
    rectangle = numbers(bounds(paint.matrix, paint.size))
    network = Dictionary(Type=Name.Annot, Subtype=Name.TrapNet, Rect=rectangle, F=PRINTED_AND_READ_ONLY,
                         AP=Dictionary(N=Dictionary(Traps=form)), AS=Name.Traps, Version=Array(list(found.values())),
                         AnnotStates=Array(states))
    network[MARK] = Name.Network
    page.obj.Annots = Array([*annotations, pdf.make_indirect(network)])


# Taking off

def mark_of(value: Any) -> str:
    """Which part of the traps an object is, or nothing."""
    return str(value.get(MARK, "")) if isinstance(value, (pikepdf.Dictionary, pikepdf.Stream)) else ""


def has_traps(page: pikepdf.Page) -> bool:
    """Whether press/pdf put traps on the page."""
    annotations = page.obj.get("/Annots")
    listed = list(annotations) if isinstance(annotations, pikepdf.Array) else []
    return any(mark_of(one) for one in [*content_streams(page), *listed])


def drop_resources(resources: Any) -> None:
    """Removes the names of the traps and of their layer from a page's resources."""
    for kind in ("/XObject", "/Properties"):
        part = resources.get(kind)
        if not isinstance(part, pikepdf.Dictionary):
            continue
        for name in [name for name, value in part.items() if mark_of(value) == "/Traps" or is_our_layer(value)]:
            del part[name]
        if not part.keys():
            del resources[kind]


def clear_page(pdf: pikepdf.Pdf, page: pikepdf.Page) -> bool:
    """Takes the traps off a page. Returns whether it had any."""
    if not has_traps(page):
        return False
    streams = content_streams(page)
    forms = page.obj.get("/Resources", Dictionary()).get("/XObject", Dictionary())
    apart = next((value for _, value in forms.items() if mark_of(value) == "/Apart"), None)
    if apart is not None:
        put_back(pdf, page, apart)
    elif any(mark_of(stream) for stream in streams):
        page.obj.Contents = Array([stream for stream in streams if not mark_of(stream)])
        drop_resources(page.obj.get("/Resources", Dictionary()))
    put_back_group(page)
    if "/Annots" in page.obj:
        kept = [one for one in page.obj.Annots if not mark_of(one)]
        page.obj.Annots = Array(kept)
        if not kept:
            del page.obj["/Annots"]
    return True


def without(array: Any) -> Any:
    """An array of optional content without our layer."""
    return Array([without(one) if isinstance(one, pikepdf.Array) else one for one in array if not is_our_layer(one)])


def drop_layer(pdf: pikepdf.Pdf) -> None:
    """Removes the layer of the traps; with the last layer the whole entry goes."""
    properties = pdf.Root.get("/OCProperties")
    if not isinstance(properties, pikepdf.Dictionary):
        return
    properties.OCGs = without(properties.get("/OCGs", Array()))
    if len(properties.OCGs) == 0:
        del pdf.Root["/OCProperties"]
        return
    for config in [properties.get("/D"), *properties.get("/Configs", [])]:
        for key in ("/Order", "/ON", "/OFF", "/Locked"):
            if isinstance(config, pikepdf.Dictionary) and isinstance(config.get(key), pikepdf.Array):
                config[key] = without(config[key])
