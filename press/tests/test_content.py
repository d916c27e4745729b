# SPDX-License-Identifier: Apache-2.0
"""Preflight of content: one function for each subject, on plates and traces that are made here and on small PDFs."""
from pathlib import Path

import numpy as np
import pikepdf
import pytest
from pikepdf import Array, Dictionary, Name, Stream

from press import content
from press.crew import Budget, Crew
from press.inks import InkBook, Separation
from press.plates import Plates
from press.rects import Rect
from press.settings import Settings
from press.source import PageInfo
from traces import trace_of

pytestmark = [pytest.mark.quick, pytest.mark.plain]
INFO = PageInfo({"media": (0.0, 0.0, 144.0, 72.0)}, 0, 1.0, ())
NAMES = ("Cyan", "Magenta", "Yellow", "Black", "PANTONE_877_C", "Lack")
COLORANTS = ("Cyan", "Magenta", "Yellow", "Black", "PANTONE 877 C", "Lack")


def page(*patches: tuple[int, int, int, int, tuple[int, ...]], maxval: int = 255) -> tuple[Plates, tuple]:
    """Plates of 144 by 72 pixels at 72 dpi with patches: left, upper, width, height and per cent of each ink."""
    arrays = [np.full((72, 144), maxval, "u1" if maxval == 255 else ">u2") for _ in NAMES]
    for left, upper, width, height, tints in patches:
        for array, tint in zip(arrays, tints):
            array[upper:upper + height, left:left + width] = maxval - round(maxval * tint / 100)
    book = InkBook(Settings(), None)
    inks = tuple(book.ink(Separation(one.encode(), b"", None, name), bool((array < maxval).any()))
                 for one, name, array in zip(COLORANTS, NAMES, arrays))
    return Plates(NAMES, tuple(arrays), maxval, 72), inks


def texts(findings) -> dict[str, str]:
    """Findings by their kind."""
    return {one.kind: one.text for one in findings}


# Ink

@pytest.mark.parametrize("maxval", (255, 65_535))
def test_total_ink_and_where(maxval: int) -> None:
    """Varnish is no part of the sum; the place is that of the highest."""
    dark = 100, 50, 10, 10, (100, 100, 100, 60, 0, 100)
    plates, inks = page((10, 10, 20, 20, (100, 100, 40, 0)), dark, maxval=maxval)
    found = content.coverage_of(plates, inks)
    assert found.total == pytest.approx(3.6, abs=0.005)
    assert found.plates[0] == pytest.approx((400 + 100) / (144 * 72), rel=0.01)
    assert texts(content.ink_findings(plates, inks, 1, 3.0)) == {
        "total-ink": "360% of ink at 35, 8 mm, and the limit is 300% (--total-ink)"}
    (one,) = content.ink_findings(plates, inks, 1, 3.0)
    assert one.as_data()["place"] == [35.5, 7.6]
    assert not list(content.ink_findings(plates, inks, 1, 3.6))
    # Marks and patches outside the trim box are on more plates than a sheet can hold.
    assert content.coverage_of(plates, inks, Rect(5, 5, 90, 70)).total == pytest.approx(2.4, abs=0.005)


def test_ink_is_measured_in_parts(monkeypatch: pytest.MonkeyPatch) -> None:
    """Parts of a page by several processes give what the whole gives: of equal sums the first place."""
    plates, inks = page((10, 10, 20, 20, (100, 100, 40, 0)), (100, 50, 10, 10, (100, 100, 40, 0)))
    monkeypatch.setattr(content, "COVERAGE_PARTS", 1)
    whole = content.coverage_of(plates, inks)
    monkeypatch.setattr(content, "COVERAGE_PARTS", 8)
    monkeypatch.setattr(content, "COVERAGE_ROWS", 8)
    budget = Budget(2)
    assert content.coverage_of(plates, inks, crew=Crew(budget)) == whole and budget.take(3) == 2
    budget.close()


def test_inks_that_meet_without_a_trap_are_named() -> None:
    """An opaque ink that is lighter than its neighbour: the way silver was before it had the density of a cover."""
    plates, inks = page((10, 10, 40, 40, (100, 0, 0, 0)), (50, 10, 40, 40, (0, 0, 0, 0, 100)))
    assert not list(content.untrapped_edges(plates, inks, 1, 0.25))
    light = tuple(InkBook(Settings(density=("PANTONE 877 C=0.3",)), None).ink(
        Separation(ink.colorant, b"", None, ink.name), ink.has_ink) for ink in inks)
    (found,) = content.untrapped_edges(plates, light, 1, 0.25)
    assert found.level == "warning" and "PANTONE 877 C and Cyan meet along 40 edges" in found.text
    assert "opaque and the lighter one" in found.text


def test_two_opaque_inks_are_named_once() -> None:
    plates, inks = page((10, 10, 40, 40, (100, 0, 0, 0)), (50, 10, 40, 40, (0, 0, 0, 0, 100)))
    both = tuple(InkBook(Settings(kind=("Cyan=Opaque",)), None).ink(
        Separation(ink.colorant, b"", None, ink.name), ink.has_ink) for ink in inks)
    (found,) = content.untrapped_edges(plates, both, 1, 0.25)
    assert "both are opaque" in found.text


# What is painted

def type_of(space: str, colour: str, size: str = "9") -> list[tuple[str, dict[str, str]]]:
    """A glyph at 10, 20 points, on a page of 144 by 72."""
    return [("fill_text", {"colorspace": space, "color": colour, "transform": "1 0 0 -1 0 72"}),
            ("span", {"trm": f"{size} 0 0 {size}"}), ("g", {"x": "10", "y": "20", "adv": ".6"}), ("/fill_text", {})]


def test_colours_that_are_no_inks() -> None:
    trace = trace_of(*type_of("DeviceRGB", "1 0 0"), *type_of("DeviceCMYK", "1 0 0 0"),
                     *type_of("Separation(DeviceCMYK,Gold)", "1"), *type_of("DeviceGray", "0"))
    found = texts(content.colour_findings(trace, INFO, Settings(), 1))
    assert found == {"colour-space": "colour in DeviceRGB at 4, 8 mm is separated by Ghostscript's own profile (--icc "
                                     "or --output-intent)"}


@pytest.mark.parametrize("space, colour, is_rich", [
    ("DeviceRGB", "0 0 0", True), ("DeviceRGB", "0.5 0 0", False), ("DeviceCMYK", ".6 .5 .4 1", True),
    ("DeviceCMYK", "0 0 0 1", False), ("DeviceCMYK", ".3 0 0 1", False), ("DeviceGray", "0", False)])
def test_black_type_of_several_inks(space: str, colour: str, is_rich: bool) -> None:
    found = texts(content.colour_findings(trace_of(*type_of(space, colour)), INFO, Settings(), 1))
    assert ("rich-type" in found) == is_rich
    assert not is_rich or "black type of 9.0 pt" in found["rich-type"]


def test_hairlines_and_coarse_images() -> None:
    line = [("moveto", {"x": "0", "y": "0"}), ("lineto", {"x": "90", "y": "9"}), ("/stroke_path", {})]
    trace = trace_of(("stroke_path", {"linewidth": ".4", "transform": ".5 0 0 .5 0 0"}), *line,
                     ("stroke_path", {"linewidth": "1"}), *line,
                     ("fill_image", {"width": "100", "height": "100", "transform": "72 0 0 72 0 0"}))
    found = texts(content.line_findings(trace, INFO, Settings(), 1))
    assert "a line of 0.20 pt" in found["hairline"] and "100 pixels per inch" in found["image-resolution"]
    fine = trace_of(("stroke_path", {"linewidth": "1"}), *line,
                    ("fill_image", {"width": "300", "height": "300", "transform": "72 0 0 72 0 0"}))
    assert not list(content.line_findings(fine, INFO, Settings(), 1))


@pytest.mark.parametrize("size, colour, dpi, is_found", [
    ("4", "1 .6 0 .2", 600, True), ("4", "1 .6 0 .2", 1200, False), ("9", "1 .6 0 .2", 600, False),
    ("4", "0 0 0 1", 600, False), ("4", "0 0 0 0", 600, False)])
def test_coloured_type_that_is_too_small_for_traps(size: str, colour: str, dpi: int, is_found: bool) -> None:
    found = texts(content.type_findings(trace_of(*type_of("DeviceCMYK", colour, size)), INFO, Settings(dpi=dpi), 1))
    assert ("thin-strokes" in found) == is_found
    assert not is_found or "strokes of about 2.7 pixels at 600 dpi" in found["thin-strokes"]


@pytest.mark.parametrize("size, tints, is_found", [("5", (60, 50, 40, 100), True), ("5", (0, 0, 0, 100), False),
                                                   ("9", (60, 50, 40, 100), False)])
def test_small_type_reversed_out_of_several_inks(size: str, tints: tuple[int, ...], is_found: bool) -> None:
    plates, inks = page((0, 0, 144, 72, tints))
    trace = trace_of(*type_of("DeviceCMYK", "0 0 0 0", size))
    found = texts(content.reversed_findings(trace, plates, inks, INFO, Settings(), 1))
    assert ("small-reverse" in found) == is_found
    assert not is_found or "5.0 pt is reversed out of Cyan + Magenta + Yellow + Black" in found["small-reverse"]


@pytest.mark.parametrize("white, colour, size, is_found", [
    ((10, 46, 3, 5), (10, 46, 3, 5), "5", True), ((6, 40, 20, 16), (10, 46, 3, 5), "5", False),
    ((10, 46, 3, 5), (10, 46, 3, 5), "9", False), ((0, 0, 0, 0), (10, 46, 3, 5), "5", False),
    ((0, 0, 144, 72), (0, 0, 144, 72), "5", False)])
def test_small_type_over_a_white_of_its_shape(white: tuple[int, ...], colour: tuple[int, ...], size: str, is_found: bool) -> None:
    """White below a glyph and nowhere beside it is named, with its place; a panel, larger type and a plate without white are not."""
    plates, inks = page((*colour, (0, 100)))
    left, upper, width, height = white
    plates.arrays[5][upper:upper + height, left:left + width] = 0
    book = InkBook(Settings(role=("Lack=white",)), None)
    inks = tuple(book.ink(Separation(ink.colorant, b"", None, ink.name), bool((array < 255).any()))
                 for ink, array in zip(inks, plates.arrays))
    found = list(content.white_type_findings(trace_of(*type_of("DeviceCMYK", "0 1 0 0", size)), plates, inks, INFO, Settings(), 1))
    assert [one.kind for one in found] == ["type-on-white"] * is_found
    for one in found:
        assert one.level == "warning" and "type of 5.0 pt at 4, 8 mm is over Lack of the same shape" in one.text


# What the file says

def saved(path: Path, change, **options) -> str:
    """A PDF of one page that a function changes."""
    pdf = pikepdf.new()
    pdf.add_blank_page(page_size=(144, 72))
    change(pdf)
    pdf.save(path, **options)
    return str(path)


def test_a_file_that_was_trapped(tmp_path: Path) -> None:
    def mark_trapped(pdf: pikepdf.Pdf) -> None:
        pdf.docinfo["/Trapped"] = Name("/True")

    def add_net(pdf: pikepdf.Pdf) -> None:
        pdf.pages[0].obj.Annots = Array([Dictionary(Type=Name.Annot, Subtype=Name.TrapNet, Rect=[0, 0, 9, 9])])
    for change, text in ((mark_trapped, "(/Trapped)"), (add_net, "the page has a trap network")):
        found = texts(content.file_findings(saved(tmp_path / "a.pdf", change), Settings()))
        assert text in found["already-trapped"]
    assert not list(content.file_findings(saved(tmp_path / "b.pdf", lambda pdf: None), Settings()))


def test_printing_that_is_forbidden(tmp_path: Path) -> None:
    for allowed in (True, False):
        rights = pikepdf.Permissions(print_highres=allowed, print_lowres=allowed)
        locked = pikepdf.Encryption(owner="secret", user="", allow=rights)
        found = texts(content.file_findings(saved(tmp_path / "a.pdf", lambda pdf: None, encryption=locked), Settings()))
        assert ("encrypted" in found) != allowed


def test_layers_and_which_are_off(tmp_path: Path) -> None:
    def add_layers(pdf: pikepdf.Pdf) -> None:
        groups = [pdf.make_indirect(Dictionary(Type=Name.OCG, Name=name)) for name in ("Print", "Guides")]
        pdf.Root.OCProperties = Dictionary(OCGs=Array(groups), D=Dictionary(OFF=Array([groups[1]])))
    found = texts(content.file_findings(saved(tmp_path / "a.pdf", add_layers), Settings()))
    assert found["layers"] == "2 layers (Print, Guides); off, and so not printed or trapped: Guides"


def test_output_intents(tmp_path: Path) -> None:
    """They are named, and their profile can be taken."""
    def add_intent(pdf: pikepdf.Pdf) -> None:
        profile = Stream(pdf, b"profile")
        pdf.Root.OutputIntents = Array([Dictionary(Type=Name.OutputIntent, OutputConditionIdentifier="FOGRA51",
                                                   DestOutputProfile=pdf.make_indirect(profile))])
    path = saved(tmp_path / "a.pdf", add_intent)
    assert "FOGRA51; it is not used" in texts(content.file_findings(path, Settings()))["output-intent"]
    assert "it is used" in texts(content.file_findings(path, Settings(output_intent=True)))["output-intent"]
    both = Settings(output_intent=True, icc="press.icc")
    assert "FOGRA51; it gives way to --icc press.icc" in texts(content.file_findings(path, both))["output-intent"]
    assert content.intent_profile(path, str(tmp_path / "out.icc"))
    assert (tmp_path / "out.icc").read_bytes() == b"profile"
    assert not content.intent_profile(saved(tmp_path / "b.pdf", lambda pdf: None), str(tmp_path / "none.icc"))


def test_fonts_that_are_not_embedded(tmp_path: Path) -> None:
    """Those of forms too."""
    def add_fonts(pdf: pikepdf.Pdf) -> None:
        plain = Dictionary(Type=Name.Font, Subtype=Name.Type1, BaseFont=Name.Helvetica)
        inside = Dictionary(Type=Name.Font, Subtype=Name.TrueType, BaseFont=Name("/ABCDEF+Own"),
                            FontDescriptor=Dictionary(FontFile2=pdf.make_stream(b"")))
        form = pdf.make_stream(b"", Type=Name.XObject, Subtype=Name.Form, BBox=[0, 0, 9, 9], Resources=Dictionary(
            Font=Dictionary(F=Dictionary(Type=Name.Font, Subtype=Name.Type1, BaseFont=Name.Courier))))
        pdf.pages[0].obj.Resources = Dictionary(Font=Dictionary(A=plain, B=inside), XObject=Dictionary(X=form))
    path = saved(tmp_path / "a.pdf", add_fonts)
    found = texts(content.font_findings(path, 1))
    assert found["font-embedded"] == "fonts that the file does not embed: Courier, Helvetica"
    assert not list(content.font_findings(path, 1, ("Courier", "Helvetica")))


def test_files_that_are_no_pdf_have_no_findings(tmp_path: Path) -> None:
    """Whether a file can be read is for Ghostscript to say."""
    (tmp_path / "a.pdf").write_bytes(b"no pdf")
    assert not list(content.file_findings(str(tmp_path / "a.pdf"), Settings()))
    assert not list(content.font_findings(str(tmp_path / "a.pdf"), 1))


def test_places_lie_on_the_page() -> None:
    found = content.placed("hairline", 1, content.on_page(Rect(0, 0, 10, 10), INFO, Settings()), f"a line {content.AT}")
    assert found.as_data() == {"kind": "hairline", "level": "note", "page": 1, "text": "a line at 2, 24 mm", "place": [1.8, 23.6]}
