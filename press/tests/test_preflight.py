# SPDX-License-Identifier: Apache-2.0
"""What is found before anything is rendered, and what refuses a file."""
import json
import re

import pikepdf
import pytest
from pikepdf import Dictionary, Name
from room import LABEL, Room


def check(room: Room, *arguments: str) -> str:
    """What press/preflight prints."""
    return room.goes("preflight", *arguments).out


def has(told: str, line: str) -> None:
    """Asserts that some line matches."""
    assert re.search(line, told), f"no {line} in: {told}"


def test_trap_width_in_pixels(room: Room) -> None:
    """A trap of less than a pixel is warned of, and of less than half a pixel; one of a whole pixel is not."""
    room.sample("pair.pdf")
    has(check(room, "--dpi", "200", "pair.pdf"), r"pair\.pdf: warning: trap-width: TrapWidth 0\.25 pt is 0\.69 samples at 200 .*not trapped")
    has(check(room, "--dpi", "100", "pair.pdf"), "trap-width: .*: nothing is trapped")
    assert "trap-width" not in check(room, "--dpi", "290", "pair.pdf")


def test_pages_that_are_too_large_are_not_rendered(room: Room, built: None) -> None:
    """A page is refused by its box and resolution, before a Ghostscript that never ends is waited for."""
    room.sample("huge.pdf")
    path = room.slow_ghostscript()
    (room.beside / "slow-now").touch()
    room.refused(7, r"press-plates: huge\.pdf: page 1: 280000 by 280000 samples, and a side has at most 262144 \(at most 1310 .*",
                 "plates", "--time", "60", "--dpi", "1400", "huge.pdf", "new", env=path)
    room.refused_after(1, r"page 1: failed: press-preflight: huge\.pdf: page 1: 280000 by .* \(at most 1310 .*",
                       "all", "--time", "60", "--dpi", "1400", "--quiet", "huge.pdf", "huge", env=path)


def test_time_limit(room: Room) -> None:
    """A page that Ghostscript does not finish in time is refused."""
    room.sample("twenty.pdf")
    path = room.slow_ghostscript()
    (room.beside / "slow-now").touch()
    room.refused(5, r"press-plates: twenty\.pdf: page 1: Ghostscript is at it for more than 5 s .*",
                 "plates", "--time", "5", "twenty.pdf", "new", env=path)


@pytest.mark.parametrize("dpi, faults", [("1000", 0), ("1400", 1)])
def test_size_is_found_once(room: Room, dpi: str, faults: int) -> None:
    """A page that is too large has one finding of its size."""
    room.sample("huge.pdf")
    done = room.run("preflight", "--dpi", dpi, "huge.pdf")
    assert done.out.count(": fault: size: ") == faults and done.status == 7 * faults, done


def test_unknown_keys_of_zones(room: Room) -> None:
    """Keys that the engine passes over are warned of, with the one that may be meant; --strict refuses the file."""
    room.sample("pair.pdf")
    room.write("keys.zones", "<< /TrapWidht 0.3 /HalftoneName null >> settrapparams\n")
    told = check(room, "pair.pdf", "--zones", "keys.zones")
    has(told, r"pair\.pdf: warning: unknown-key: keys\.zones: line 1: unknown key /TrapWidht .*is /TrapWidth meant")
    has(told, r"unknown-key: keys\.zones: line 1: /HalftoneName is an entry of PostScript")
    room.refused_after(10, r"pair\.pdf: warning: unknown-key.*", "preflight", "--strict", "pair.pdf", "--zones", "keys.zones")


@pytest.mark.parametrize("command", ["all", "farm"])
def test_fault_in_the_zones(room: Room, built: None, command: str) -> None:
    """A fault in the zones of all pages is one line at the file's own line, before any page."""
    room.sample("twenty.pdf")
    room.write("fault.zones", "\n<< /TrapWidth 0.3mm >> settrapparams\n")
    room.refused(9, rf'press-{command}: fault\.zones: line 2: the program refuses it: "job: BadToken"',
                 command, "twenty.pdf", "new", "--zones", "fault.zones")


def test_byte_order_marks(room: Room, built: None) -> None:
    """A byte order mark in front of zones or a table is warned of and left aside."""
    room.sample("pair.pdf", "two.pdf")
    room.write("mark.zones", b"\xef\xbb\xbf<< /TrapWidth 0.3 >> settrapparams\n")
    has(check(room, "pair.pdf", "--zones", "mark.zones"), r"warning: byte-order-mark: mark\.zones: line 1")
    room.goes("all", "--quiet", "--no-proof", "pair.pdf", "mark", "--zones", "mark.zones")
    room.write("strange.inks", b"\xef\xbb\xbfWarm Red\t0.9\nwarm red\t0.8\nGold Foil\t-\tOpaqueIgnore\n")
    told = check(room, "two.pdf", "--inks", "strange.inks")
    has(told, r"warning: byte-order-mark: strange\.inks")
    has(told, r"warning: inks-line: strange\.inks: line 2: another line is taken for warm red, which is spelled as the ink")
    assert not re.search("ink-density|line 1: no", told), told


def test_fonts(room: Room) -> None:
    """A font that the PDF lacks is found once for all its pages; so is one of Japan, which Ghostscript names in two ways."""
    room.write("font.pdf", LABEL.read_bytes().replace(b"Helvetica-Bold", b"FancyFont-Bold"))
    told = check(room, "font.pdf")
    has(told, r"font\.pdf: pages 1-2: warning: font: the PDF lacks the font FancyFont-Bold; [^ ]* stands in its place")
    assert told.count("FancyFont") == 1, told
    room.sample("japan.pdf")
    has(check(room, "japan.pdf"), r"japan\.pdf: page 1: warning: font: the PDF lacks the font (HeiseiKakuGo-W5|F); .* stands in its place")


def test_boxes(room: Room) -> None:
    """Boxes that a page lacks, that are cut off, and pages that give no size."""
    room.sample("pair.pdf", "cropped.pdf", "sizeless.pdf")
    has(check(room, "--box", "trim", "pair.pdf"), r"pair\.pdf: page 1: warning: box: the page has no TrimBox")
    has(check(room, "cropped.pdf"),
        r"cropped\.pdf: page 1: warning: box: what lies outside the CropBox is not drawn, and the BleedBox does: --box bleed draws that")
    room.refused_after(5, r"sizeless\.pdf: page 1: warning: box: the page tells no size that can be read.*", "preflight", "sizeless.pdf")
    assert ": box: " not in check(room, "--box", "bleed", "cropped.pdf")


def test_json(room: Room) -> None:
    """--json prints the findings and what each page takes."""
    room.sample("damaged.pdf")
    told = json.loads(check(room, "--json", "damaged.pdf"))
    assert [one["kind"] for one in told["findings"]] == ["repaired"]
    assert told["takes"][0]["width"] == 1000
    room.sample("technical.pdf")
    knocked = [one for one in json.loads(check(room, "--json", "technical.pdf"))["findings"] if one["kind"] == "knock-out"]
    assert knocked and all(one["level"] == "warning" and one["page"] == 1 for one in knocked)
    assert all(0 < side < 50 for one in knocked for side in one["place"]) and len({tuple(one["place"]) for one in knocked}) == len(knocked)


def test_form_field_without_an_appearance(room: Room, built: None) -> None:
    """Ghostscript draws it, which is a note and no fault, and --strict makes the page; a true fault beside it is a warning still."""
    room.sample("pair.pdf")
    with pikepdf.open(room / "pair.pdf") as file:
        font = Dictionary(Type=Name.Font, Subtype=Name.Type1, BaseFont=Name.Helvetica)
        field = file.make_indirect(Dictionary(Type=Name.Annot, Subtype=Name.Widget, FT=Name.Tx, T="name", V="Ada", DA="/Helv 9 Tf 0 g",
                                              Rect=[95, 10, 118, 30], F=4))
        file.Root.AcroForm = Dictionary(Fields=[field], DA="/Helv 9 Tf 0 g", DR=Dictionary(Font=Dictionary(Helv=font)))
        file.pages[0].Annots = file.make_indirect(pikepdf.Array([field]))
        file.save(room / "form.pdf")
        file.pages[0].Contents = file.make_stream(file.pages[0].Contents.read_bytes() + b" Q")
        file.save(room / "both.pdf")
    told = check(room, "--strict", "form.pdf")
    has(told, r'form\.pdf: page 1: note: form-field: the PDF gives no appearance for the form field "name": Ghostscript draws it')
    assert "repaired" not in told
    room.refused_after(10, r"both\.pdf: page 1: note: form-field: .*", "preflight", "--strict", "both.pdf")
    room.goes("all", "--quiet", "--no-proof", "--strict", "form.pdf", "out")


def test_repaired_files(room: Room, built: None) -> None:
    """A file that Ghostscript repairs is refused by --strict alone."""
    room.sample("damaged.pdf")
    room.refused_after(10, r"damaged\.pdf: page 1: warning: repaired: .*", "preflight", "--strict", "damaged.pdf")
    room.refused_after(1, r"page 1: failed: press-preflight: damaged\.pdf: .*\(--strict\)", "all", "--quiet", "--strict", "damaged.pdf", "strict")
    room.goes("all", "--quiet", "--no-proof", "damaged.pdf", "damaged")
