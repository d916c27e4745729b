# SPDX-License-Identifier: Apache-2.0
"""What a PDF says of itself before traps are put on it: encrypted, signed, trapped already, annotations that print;
and what it says of trapping afterwards."""
from collections.abc import Iterable, Iterator
from typing import Any

import pikepdf
from pikepdf import Array, Dictionary, Name

from .errors import PressError, Status
from .pdf_contents import MARK
from .pdf_layer import LAYER, clear_page, drop_layer, has_traps, is_our_layer, mark_of

HIDDEN, PRINTED = 2, 4
SIGNATURES_EXIST = 1
DEEPEST_FIELD = 32


# Trapped already

def trapped_word(pdf: pikepdf.Pdf) -> str:
    """What Info says of trapping: True, False, Unknown, or nothing."""
    info = pdf.trailer.get("/Info")
    value = info.get("/Trapped") if isinstance(info, pikepdf.Dictionary) else None
    return "" if value is None else str(value).lstrip("/").capitalize()


def metadata_word(pdf: pikepdf.Pdf) -> str:
    """What the XMP metadata say of trapping, or nothing; nor can broken metadata say anything."""
    if "/Metadata" not in pdf.Root:
        return ""
    try:
        with pdf.open_metadata(set_pikepdf_as_editor=False, update_docinfo=False) as metadata:
            return str(metadata.get("pdf:Trapped", "")).capitalize()
    except Exception:  # pylint: disable=broad-exception-caught
        # pikepdf hands on whatever its XML parser raises.
        return ""


def annotations_of(page: pikepdf.Page) -> list[Any]:
    """The annotations of a page that are dictionaries."""
    found = page.obj.get("/Annots")
    return [one for one in found if isinstance(one, pikepdf.Dictionary)] if isinstance(found, pikepdf.Array) else []


def signs_of_trapping(pdf: pikepdf.Pdf) -> Iterator[str]:
    """Why a file counts as trapped already."""
    if trapped_word(pdf) == "True" or metadata_word(pdf) == "True":
        yield "it says that it is trapped"
    for number, page in enumerate(pdf.pages, 1):
        if has_traps(page):
            yield f"page {number} has traps of press/pdf"
        elif any(one.get("/Subtype") == Name.TrapNet for one in annotations_of(page)):
            yield f"page {number} has a trap network"
    layers = pdf.Root.get("/OCProperties", Dictionary()).get("/OCGs", Array())
    if any(isinstance(one, pikepdf.Dictionary) and str(one.get("/Name", "")) == LAYER and not is_our_layer(one)
           for one in layers):
        yield "it has a layer Traps of another program"


# Signatures and encryption

def is_signed(pdf: pikepdf.Pdf) -> bool:
    """Whether the file has a digital signature."""
    form = pdf.Root.get("/AcroForm")
    if isinstance(form, pikepdf.Dictionary):
        if int(form.get("/SigFlags", 0)) & SIGNATURES_EXIST:
            return True
        if any(one.get("/FT") == Name.Sig and "/V" in one for one in fields_below(form.get("/Fields"), 0)):
            return True
    return "/Perms" in pdf.Root


def fields_below(fields: Any, depth: int) -> Iterator[Any]:
    """The fields of a form and those below them."""
    if not isinstance(fields, pikepdf.Array) or depth > DEEPEST_FIELD:
        return
    for one in fields:
        if isinstance(one, pikepdf.Dictionary):
            yield one
            yield from fields_below(one.get("/Kids"), depth + 1)


def open_pdf(path: str, decrypt: bool, shown: str) -> pikepdf.Pdf:
    """The file, which messages call `shown`. One that is encrypted is opened by an empty password, if its owner
    agrees."""
    try:
        pdf = pikepdf.open(path)
    except pikepdf.PasswordError:
        raise PressError(Status.PDF, "encrypted, and it needs a password", shown) from None
    except pikepdf.PdfError as fault:
        raise PressError(Status.PDF, f"cannot be read: {fault_line(fault, path)}", shown) from None
    except OSError as fault:
        raise PressError(Status.INPUT, fault.strerror or str(fault), shown) from None
    if pdf.is_encrypted and not decrypt:
        pdf.close()
        raise PressError(Status.PDF, "encrypted, and a trapped PDF is not (--decrypt, with the owner's consent)", shown)
    return pdf


def fault_line(fault: Exception, path: str) -> str:
    """What qpdf says is wrong, without the file's name, in one line."""
    return " ".join(str(fault).replace(path, "").split()).lstrip(": ")


# Annotations

def is_printed(annotation: Any) -> bool:
    """Whether an annotation is printed and has a look of its own."""
    flags = int(annotation.get("/F", 0))
    looks = annotation.get("/AP")
    has_look = isinstance(looks, pikepdf.Dictionary) and "/N" in looks
    return bool(flags & PRINTED) and not flags & HIDDEN and has_look and annotation.get("/Subtype") != Name.Popup


def printed_annotations(page: pikepdf.Page) -> list[Any]:
    """The annotations of a page that are printed over its contents, but for traps of ours."""
    return [one for one in annotations_of(page) if is_printed(one) and not mark_of(one)]


def flatten(pdf: pikepdf.Pdf, pages: Iterable[pikepdf.Page]) -> int:
    """Makes the printed annotations of these pages part of their contents, and leaves all others. Returns how many
    there were."""
    chosen = {page.obj.objgen: printed_annotations(page) for page in pages}
    count = sum(len(found) for found in chosen.values())
    if not count:
        return 0
    kept = {}
    for page in pdf.pages:
        listed = page.obj.get("/Annots")
        printed = chosen.get(page.obj.objgen, [])
        kept[page.obj.objgen] = [one for one in listed if not any(same(one, other) for other in printed)] \
            if isinstance(listed, pikepdf.Array) else []
        page.obj.Annots = Array(printed)
    form = pdf.Root.get("/AcroForm")
    if isinstance(form, pikepdf.Dictionary) and "/NeedAppearances" in form:
        # Ghostscript draws the looks that are there, and these are flattened.
        del form["/NeedAppearances"]
    pdf.flatten_annotations("print")
    for page in pdf.pages:
        page.obj.Annots = Array(kept[page.obj.objgen])
        if not kept[page.obj.objgen]:
            del page.obj["/Annots"]
    if isinstance(form, pikepdf.Dictionary):
        keep_form(pdf, form, [one for found in chosen.values() for one in found])
    return count


def same(one: Any, other: Any) -> bool:
    """Whether two values are one object of the file."""
    return bool(one.is_indirect and other.is_indirect and one.objgen == other.objgen) or \
        not one.is_indirect and not other.is_indirect and one == other


def keep_form(pdf: pikepdf.Pdf, form: Any, gone: list[Any]) -> None:
    """Gives the file its form back, which flattening removes, without the fields that were flattened."""
    if left := [field for field in form.get("/Fields", Array()) if not any(same(field, one) for one in gone)]:
        form.Fields = Array(left)
        pdf.Root.AcroForm = form
    elif "/AcroForm" in pdf.Root:
        del pdf.Root["/AcroForm"]


# What the file says afterwards

def mark_trapped(pdf: pikepdf.Pdf, whole: bool, pages: list[int]) -> None:
    """Writes whether all pages are trapped into Info and into the XMP metadata, and what was there before into an
    entry of ours."""
    record = Dictionary(Pages=Array(pages))
    for key, word in (("/Info", trapped_word(pdf)), ("/Metadata", metadata_word(pdf))):
        if word:
            record[key] = Name("/" + word)
    pdf.Root[MARK] = pdf.make_indirect(record)
    state = "True" if whole else "Unknown"
    pdf.docinfo["/Trapped"] = Name("/" + state)
    write_metadata(pdf, state)


def write_metadata(pdf: pikepdf.Pdf, state: str) -> None:
    """Writes `pdf:Trapped` into the XMP metadata, if the file has any that can be read."""
    if "/Metadata" not in pdf.Root:
        return
    before = pdf.Root.Metadata
    try:
        with pdf.open_metadata(set_pikepdf_as_editor=False, update_docinfo=False) as metadata:
            if state:
                metadata["pdf:Trapped"] = state
            elif "pdf:Trapped" in metadata:
                del metadata["pdf:Trapped"]
    except Exception:  # pylint: disable=broad-exception-caught
        # Broken metadata stay as they are.
        pdf.Root.Metadata = before


def remove_traps(pdf: pikepdf.Pdf) -> list[int]:
    """Takes off all traps that press/pdf put on, their layer, and what the file says of them. Returns the pages that
    had some."""
    cleared = [number for number, page in enumerate(pdf.pages, 1) if clear_page(pdf, page)]
    record = pdf.Root.get(MARK)
    if isinstance(record, pikepdf.Dictionary):
        put_word_back(pdf, record)
        del pdf.Root[MARK]
    drop_layer(pdf)
    return cleared


def put_word_back(pdf: pikepdf.Pdf, record: Any) -> None:
    """What the file said of trapping before press/pdf."""
    if "/Info" in record:
        pdf.docinfo["/Trapped"] = record.Info
    elif "/Trapped" in pdf.docinfo:
        del pdf.docinfo["/Trapped"]
    write_metadata(pdf, str(record.get("/Metadata", "")).lstrip("/"))
