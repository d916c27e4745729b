# SPDX-License-Identifier: Apache-2.0
"""The inks of a page as PDF colour spaces: one DeviceN space of all of them, as the page's own Separation spaces
look."""
from collections.abc import Sequence
from typing import Any

import pikepdf
from pikepdf import Array, Dictionary, Name, Object

from .errors import PressError, Status
from .inks import Ink

PROCESS = (b"Cyan", b"Magenta", b"Yellow", b"Black")
DEEPEST_OBJECT = 12
PLAIN = frozenset(range(33, 127)) - frozenset(b"#()<>[]{}/%")


def name_of(colorant: bytes) -> Any:
    """An ink's name as a PDF name."""
    spelled = "".join(chr(byte) if byte in PLAIN else f"#{byte:02x}" for byte in colorant)
    return Object.parse(b"/" + spelled.encode())


def separation_spaces(pdf: pikepdf.Pdf, spots: Sequence[Ink]) -> dict[bytes, Any]:
    """For each spot its Separation space as the file has it, so that both look the same."""
    names = {name_of(ink.colorant).unparse(): ink.colorant for ink in spots}
    found: dict[bytes, Any] = {}
    for one in pdf.objects if names else ():
        if len(found) == len(names):
            break
        seek_spaces(one, names, found, 0)
    return found


def seek_spaces(one: Any, names: dict[bytes, bytes], found: dict[bytes, Any], depth: int) -> None:
    """Looks through an object for Separation spaces."""
    if isinstance(one, pikepdf.Stream):
        one = one.stream_dict
    if depth > DEEPEST_OBJECT or not isinstance(one, (pikepdf.Array, pikepdf.Dictionary)):
        return
    if isinstance(one, pikepdf.Array):
        parts = list(one)
        if len(parts) == 4 and parts[0] == Name.Separation and isinstance(parts[1], Object):
            colorant = names.get(parts[1].unparse())
            if colorant is not None:
                found.setdefault(colorant, one)
            return
    else:
        parts = values_of(one)
    for part in parts:
        if isinstance(part, Object) and not part.is_indirect:
            seek_spaces(part, names, found, depth + 1)


def values_of(dictionary: Any) -> list[Any]:
    """The values of a dictionary, but for what leads back to the page tree. A name that is no UTF-8 cannot be asked
    for."""
    try:
        return [value for key, value in dictionary.items() if key != "/Parent"]
    except UnicodeDecodeError:
        return []


def tint_words(inks: Sequence[Ink]) -> str:
    """A calculator function from all inks to CMYK: each spot takes its part of what the inks before it leave light.
    Without spots the result is the input, to the last bit."""
    words, count = [], len(inks)
    colorants = [ink.colorant for ink in inks]
    for part, process in enumerate(PROCESS):
        words.append(f"{count - 1 - colorants.index(process) + part} index")
        for at, ink in enumerate(inks):
            if ink.colorant not in PROCESS and ink.look[part]:
                # Above the inks lie the parts that are done, this part, and what it leaves light.
                words.append(f"dup 1 exch sub {count - 1 - at + part + 2} index {ink.look[part] / 100:g} mul mul add")
    words += [f"{count + 4} 4 roll"] + ["pop"] * count
    return "{ " + "\n".join(words) + " }"


def look_function(look: Sequence[float]) -> Any:
    """The tint transform of a spot that looks like these per cent of the process inks."""
    full = [float(f"{part / 100:.4f}") for part in look]
    return Dictionary(FunctionType=2, Domain=[0, 1], C0=[0, 0, 0, 0], C1=full, N=1)


def colorant_spaces(pdf: pikepdf.Pdf, spots: Sequence[Ink]) -> Any:
    """The Separation space of each spot by its name. A name that is no UTF-8 is left out."""
    known, colorants = separation_spaces(pdf, spots), Dictionary()
    for ink in spots:
        name = name_of(ink.colorant)
        space = known.get(ink.colorant)
        try:
            key = str(name)
        except UnicodeDecodeError:
            continue
        if space is None:
            space = Array([Name.Separation, name, Name.DeviceCMYK, look_function(ink.look)])
        colorants[key] = space
    return colorants


def device_n(pdf: pikepdf.Pdf, inks: Sequence[Ink]) -> Any:
    """The space of all inks of the page, in the order of its plates."""
    colorants = [ink.colorant for ink in inks]
    if lacking := [process.decode() for process in PROCESS if process not in colorants]:
        raise PressError(Status.PLATES, f"no plate of {lacking[0]}: a trapped PDF needs a plate of each process ink")
    spots = [ink for ink in inks if ink.colorant not in PROCESS]
    process = Dictionary(ColorSpace=Name.DeviceCMYK, Components=Array([name_of(ink) for ink in PROCESS]))
    attributes = Dictionary(Subtype=Name.DeviceN, Process=process)
    if spots:
        attributes.Colorants = colorant_spaces(pdf, spots)
    count = len(inks)
    transform = pdf.make_stream(tint_words(inks).encode(), FunctionType=4, Domain=[0, 1] * count, Range=[0, 1] * 4)
    names = Array([name_of(one) for one in colorants])
    return pdf.make_indirect(Array([Name.DeviceN, names, Name.DeviceCMYK, transform, attributes]))
