# SPDX-License-Identifier: Apache-2.0
"""Form fields of a page that the PDF gives no appearance: Ghostscript makes up one."""
import pikepdf

from .source import UNREAD, Source

# What Ghostscript prints of the appearance that it makes of such a field; it is no fault of the PDF.
OF_FIELDS = "text operator outside text block"


def fields_without_appearance(source: Source, number: int) -> list[str]:
    """The names of the fields of a page, counted from 1, that have no appearance; in order."""
    try:
        with pikepdf.open(source.pdf) as pdf:
            found = pdf.pages[number - 1].obj.get("/Annots", [])
            return [name_of(one) for one in found if is_bare(one)]
    except (*UNREAD, AttributeError, IndexError, TypeError, ValueError):
        return []


def is_bare(one: pikepdf.Object) -> bool:
    """Whether an annotation is a field without an appearance."""
    if not isinstance(one, pikepdf.Dictionary) or one.get("/Subtype") != pikepdf.Name.Widget:
        return False
    given = one.get("/AP")
    return not isinstance(given, pikepdf.Dictionary) or "/N" not in given


def name_of(field: pikepdf.Object) -> str:
    """The name of a field, which a part of it may have from the whole."""
    for one in (field, field.get("/Parent")):
        if isinstance(one, pikepdf.Dictionary) and "/T" in one:
            return f'"{one.T}"'
    return "without a name"
