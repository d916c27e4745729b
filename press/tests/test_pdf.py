# SPDX-License-Identifier: Apache-2.0
"""Trapped PDFs: each page renders to its trapped plates, or the file is refused."""
import json
import subprocess
from collections.abc import Callable
from pathlib import Path
from typing import Any

import numpy as np
import pikepdf
import pytest
from pdf_cases import (ART, CASES, CROPPED, SEE_THROUGH, draw, files_in, folders_of, group, hidden_layer, joined,
                       killed_at_rename, layers_off, one_page, opaque_group, run_command, run_with_room, saved,
                       three_pages, with_annotations)
from pikepdf import Array, Dictionary, Name, String
from room import Room

from press.errors import PressError, Status
from press.pdf import LAYER, NETWORK, PLAIN, PdfResult, PdfSettings, write_trapped_pdf, write_without_traps
from press.plates import read_pgm, write_pgm
from press.trapped_page import read_trapped_page

OUTPUT = "trapped.pdf"
PROFILE = Path("/usr/share/color/icc/ghostscript/ps_cmyk.icc")
FONT = "page 1: the file does not embed Helvetica: a RIP that takes another face for it gets traps that do not fit"


def trapped(source: Path, folders: list[Path], **settings: Any) -> PdfResult:
    """The trapped PDF of a file, beside it."""
    pages = [read_trapped_page(str(folder)) for folder in folders]
    return write_trapped_pdf(str(source), str(source.parent / OUTPUT), pages, PdfSettings(**settings), source.name)


def refusal(source: Path, folders: list[Path], **settings: Any) -> PressError:
    """Why a file is refused."""
    with pytest.raises(PressError) as found:
        trapped(source, folders, **settings)
    return found.value


def contents_of(page: Any) -> list[bytes]:
    """The streams of a page's contents, but for empty ones."""
    contents = page.obj.get("/Contents")
    streams = list(contents) if isinstance(contents, Array) else [contents]
    return [data for data in (stream.read_bytes() for stream in streams if stream is not None) if data]


def texts_of(path: Path) -> list[str]:
    """The text that a reader can select on each page."""
    done = subprocess.run(["pdftotext", "-layout", str(path), "-"], check=True, capture_output=True)
    return done.stdout.decode().split("\f")


def plates_of(folder: Path, name: str = "") -> dict[str, Any]:
    """The plates in a folder, before trapping or after."""
    return {path.stem: read_pgm(str(path)) for path in sorted((folder / name).glob("*.pgm"))}


@pytest.fixture(name="plain")
def plain_page(tmp_path: Path) -> tuple[Path, list[Path]]:
    """A file of one page, and its page folder."""
    path = saved(one_page(ART), tmp_path / "in.pdf")
    return path, folders_of(path)


# Exactness

def test_hostile_pages_render_to_their_trapped_plates(tmp_path: Path) -> None:
    """36 pages that a trapped PDF may fail at."""
    path = saved(joined(CASES.values()), tmp_path / "in.pdf")
    folders = folders_of(path)
    result = trapped(path, folders)
    assert result.verified and len(result.pages) == len(CASES)
    assert all(page.changed > 100 for page, name in zip(result.pages, CASES) if name != "blank")
    with pikepdf.open(tmp_path / OUTPUT) as pdf:
        assert not pdf.check()


def test_hostile_pages_keep_their_text_and_their_contents(tmp_path: Path) -> None:
    """Every stream of contents stands in the trapped file byte for byte, but for pages that have to be mended."""
    path = saved(joined(CASES.values()), tmp_path / "in.pdf")
    trapped(path, folders_of(path), verify=False)
    apart, mended = {"group-gray", "group-rgb", "group-profile"}, {"too-many-Q", "Q-undoes-nothing"}
    for name, one, other in zip(CASES, texts_of(path), texts_of(tmp_path / OUTPUT)):
        # Poppler gives up on the pages that have to be mended.
        assert other == one or name in mended and "Trapped 123" in other, name
    with pikepdf.open(path) as before, pikepdf.open(tmp_path / OUTPUT) as after:
        for name, one, other in zip(CASES, before.pages, after.pages):
            if name in apart:
                assert b"".join(contents_of(one)).strip() in other.resources.XObject.Page.read_bytes()
            elif name != "blank" and name not in mended:
                assert contents_of(other)[1:-1] == contents_of(one)


@pytest.mark.parametrize("form", [NETWORK, PLAIN])
def test_hostile_pages_in_other_forms(tmp_path: Path, form: str) -> None:
    """The same pages with a trap network, and as PDF/X-1a would have them."""
    path = saved(joined(CASES.values()), tmp_path / "in.pdf")
    assert trapped(path, folders_of(path), form=form).verified


def test_cropped_pages(tmp_path: Path) -> None:
    """Plates of the crop box. The box is found by the plates' size."""
    path = saved(joined(CROPPED.values()), tmp_path / "in.pdf")
    result = trapped(path, folders_of(path, 100, "crop"))
    assert result.verified and [page.box for page in result.pages] == ["crop"] * len(CROPPED)


@pytest.mark.parametrize("margin", [0, 3])
@pytest.mark.parametrize("anchor", ["top", "bottom"])
def test_margins_and_anchors(tmp_path: Path, margin: int, anchor: str) -> None:
    """At the plates' resolution neither changes a byte. The last page is half a pixel higher than its plates."""
    names = ("odd-270", "odd-375", "unit-odd-90", "offset-odd-270")
    path = saved(joined(CASES[name] for name in names), tmp_path / "in.pdf")
    result = trapped(path, folders_of(path, 150), margin=margin, anchor=anchor)
    assert result.verified
    assert all((page.painted == page.changed) == (margin == 0) for page in result.pages)


@pytest.mark.parametrize("case", [three_pages, hidden_layer, layers_off])
def test_files_with_shared_resources_and_layers(tmp_path: Path, case: Callable[[], pikepdf.Pdf]) -> None:
    """What stands in the page tree or in the catalogue."""
    path = saved(case(), tmp_path / "in.pdf")
    assert trapped(path, folders_of(path)).verified


def test_names_of_inks(tmp_path: Path) -> None:
    """Names with blanks, brackets, capitals alone, and bytes that are no UTF-8."""
    pdf = one_page(b"")
    names = [b"PANTONE 185 C", b"100% #f", b"Warm Red", b"WARM RED", "Gr\u00fcn".encode(), b"Gr\xfcn", b"a/b(c)"]
    spelled = ["".join(f"#{byte:02x}" for byte in name) for name in names]
    spaces = " ".join(f"/S{at} [/Separation /{name} /DeviceCMYK << /FunctionType 2 /Domain [0 1] /C0 [0 0 0 0] "
                      f"/C1 [0 .{at + 1} .5 0] /N 1 >>]" for at, name in enumerate(spelled))
    page = pdf.pages[0].obj
    page.Resources.ColorSpace = pikepdf.Object.parse(f"<< {spaces} >>".encode())
    drawn = "".join(f"/S{at} cs 1 scn {10 + 20 * at} {10 + 9 * at} 30 40 re f\n" for at in range(len(names)))
    page.Contents = pdf.make_stream(drawn.encode())
    path = saved(pdf, tmp_path / "in.pdf")
    folders = folders_of(path)
    assert len(list(folders[0].glob("*.pgm"))) == 4 + len(names)
    assert trapped(path, folders).verified


def test_a_tile_of_many_tints(tmp_path: Path) -> None:
    """Where a tile has more tints than a palette, each pixel has its tints of all inks."""
    noise = np.random.default_rng(1).integers(0, 256, 64 * 64 * 4, np.uint8).tobytes()
    image = b"q 200 0 0 130 0 0 cm BI /W 64 /H 64 /BPC 8 /CS /CMYK ID " + noise + b" EI Q"
    path = saved(one_page(image), tmp_path / "in.pdf")
    folders = folders_of(path)
    assert trapped(path, folders).verified
    with pikepdf.open(tmp_path / OUTPUT) as pdf:
        images = pdf.pages[0].resources.XObject.Traps.Resources.XObject
        assert images.T1.ColorSpace[0] == Name.DeviceN and len(images.T1.Mask) == 8


@pytest.mark.skipif(not PROFILE.exists(), reason="Ghostscript's profiles are not there")
def test_profiles_of_the_press(tmp_path: Path) -> None:
    """Colours that are no inks go through the profile that is given, or through the file's output intent."""
    pdf = one_page(ART + b".9 .2 .3 rg 120 30 60 60 re f")
    stream = pdf.make_stream(PROFILE.read_bytes(), N=4)
    pdf.Root.OutputIntents = Array([Dictionary(Type=Name.OutputIntent, S=Name.GTS_PDFX, DestOutputProfile=stream)])
    path = saved(pdf, tmp_path / "in.pdf")
    folders = folders_of(path, icc=PROFILE)
    assert trapped(path, folders, icc=str(PROFILE)).verified
    assert trapped(path, folders, output_intent=True).verified
    assert "has tint" in str(refusal(path, folders))


# Refusals

def test_a_byte_that_differs_is_refused_with_its_place(plain: tuple[Path, list[Path]]) -> None:
    """The plates of another page, by one pixel that trapping did not change."""
    path, folders = plain
    for part in ("", "trapped"):
        plate = read_pgm(str(folders[0] / part / "Cyan.pgm")).copy()
        plate[7, 5] = 200
        write_pgm(str(folders[0] / part / "Cyan.pgm"), plate, 255)
    found = refusal(path, folders)
    assert found.status is Status.PDF
    assert str(found) == ("in.pdf: page 1: Cyan: pixel 5,7 has tint 0 of 255, and the trapped plate 55; 1 pixels of "
                          "this plate differ")
    assert not trapped(path, folders, verify=False).verified


def test_a_plate_that_should_be_blank(plain: tuple[Path, list[Path]]) -> None:
    """A page that has an ink more than its folder."""
    path, folders = plain
    table = folders[0] / "colorants.txt"
    table.write_text("".join(line for line in table.read_text().splitlines(True) if "Warm Gray" not in line))
    assert "Warm Gray: pixel" in str(refusal(path, folders))


def test_plates_of_another_size(tmp_path: Path) -> None:
    """Plates that no box of the page has the size of."""
    path = saved(one_page(ART), tmp_path / "in.pdf")
    folders = folders_of(path)
    other = saved(one_page(ART, (0, 0, 300, 132)), tmp_path / "other.pdf")
    found = refusal(other, folders)
    assert found.status is Status.PLATES and "204 by 132 pixels" in str(found) and "other.pdf: page 1: " in str(found)


def test_pages_that_are_not_there_or_twice(plain: tuple[Path, list[Path]]) -> None:
    """Each page folder is of another page of the file."""
    path, folders = plain
    assert "page 1 is in" in str(refusal(path, folders * 2))
    table = folders[0] / "colorants.txt"
    table.write_text(table.read_text().replace("page\t1\n", "page\t2\n"))
    assert "there is no page 2" in str(refusal(path, folders))


def test_encrypted_files(plain: tuple[Path, list[Path]]) -> None:
    """Refused unless --decrypt; a file that needs a password, always."""
    path, folders = plain
    for name, user in (("locked.pdf", ""), ("secret.pdf", "secret")):
        with pikepdf.open(path) as pdf:
            pdf.save(path.parent / name, encryption=pikepdf.Encryption(owner="owner", user=user))
    locked = path.parent / "locked.pdf"
    assert "encrypted" in str(refusal(locked, folders))
    assert trapped(locked, folders, decrypt=True).verified
    with pikepdf.open(path.parent / OUTPUT) as pdf:
        assert not pdf.is_encrypted
    assert "needs a password" in str(refusal(path.parent / "secret.pdf", folders, decrypt=True))


def test_signed_files(plain: tuple[Path, list[Path]]) -> None:
    """A signature breaks: a warning, and a refusal if the owner is strict."""
    path, folders = plain
    with pikepdf.open(path, allow_overwriting_input=True) as pdf:
        field = pdf.make_indirect(Dictionary(FT=Name.Sig, T=String("Approval"), V=Dictionary(Type=Name.Sig)))
        pdf.Root.AcroForm = Dictionary(Fields=Array([field]), SigFlags=3)
        pdf.save()
    assert trapped(path, folders).warnings == ["its digital signature breaks", FONT]
    assert refusal(path, folders, strict=True).status is Status.WARNED


def test_a_tagged_page_that_blends_in_other_colours(tmp_path: Path) -> None:
    """Its tags would name a stream that is no more."""
    path = saved(one_page(ART + SEE_THROUGH, Group=group(Name.DeviceRGB), StructParents=0), tmp_path / "in.pdf")
    found = refusal(path, folders_of(path))
    assert found.status is Status.PDF and str(found).startswith("in.pdf: page 1: the page is tagged")
    path = saved(one_page(b"Q " + ART, StructParents=0), tmp_path / "in2.pdf")
    assert trapped(path, folders_of(path)).verified


@pytest.mark.parametrize("space", [Name.DeviceRGB, Name.DeviceGray])
def test_a_group_in_which_nothing_blends(tmp_path: Path, space: Any) -> None:
    """As Cairo writes one: its contents stay as they are, tagged or not, and render to their trapped plates. The group is
    there again when the traps are taken off."""
    with opaque_group(space) as pdf:
        pdf.pages[0].obj.StructParents = 0
        path = saved(pdf, tmp_path / "in.pdf")
    assert trapped(path, folders_of(path)).verified
    with pikepdf.open(tmp_path / OUTPUT) as pdf:
        assert "/Group" not in pdf.pages[0].obj and len(contents_of(pdf.pages[0])) == 3
    write_without_traps(str(tmp_path / OUTPUT), str(tmp_path / "clean.pdf"), "in.pdf")
    with pikepdf.open(tmp_path / "clean.pdf") as pdf:
        assert pdf.pages[0].obj.Group.CS == space


def test_files_that_are_no_pdf(plain: tuple[Path, list[Path]]) -> None:
    """A file that is damaged, or not there."""
    path, folders = plain
    broken = path.parent / "broken.pdf"
    broken.write_bytes(b"%PDF-1.4\nnothing\n")
    assert refusal(broken, folders).status is Status.PDF
    assert refusal(path.parent / "none.pdf", folders).status is Status.INPUT


# Trapped already

def test_our_own_layer_is_replaced(plain: tuple[Path, list[Path]]) -> None:
    """A trapped file is refused; by force its traps are replaced, and not painted twice."""
    path, folders = plain
    trapped(path, folders)
    once = (path.parent / OUTPUT).read_bytes()
    again = path.parent / "again.pdf"
    again.write_bytes(once)
    assert "trapped already: it says that it is trapped" in str(refusal(again, folders))
    assert trapped(again, folders, force=True).verified
    with pikepdf.open(path.parent / OUTPUT) as pdf:
        assert len(pdf.Root.OCProperties.OCGs) == 1 and len(pdf.Root.OCProperties.D.Order) == 1
        assert [name for name in pdf.pages[0].resources.XObject.keys()] == ["/Traps"]
        assert len(contents_of(pdf.pages[0])) == 3


@pytest.mark.parametrize("sign", ["info", "metadata", "network", "layer"])
def test_signs_of_trapping(plain: tuple[Path, list[Path]], sign: str) -> None:
    """What counts as trapped already."""
    path, folders = plain
    with pikepdf.open(path, allow_overwriting_input=True) as pdf:
        if sign == "info":
            pdf.docinfo["/Trapped"] = Name("/True")
        elif sign == "metadata":
            with pdf.open_metadata(set_pikepdf_as_editor=False, update_docinfo=False) as metadata:
                metadata["pdf:Trapped"] = "True"
        elif sign == "network":
            pdf.pages[0].obj.Annots = Array([Dictionary(Type=Name.Annot, Subtype=Name.TrapNet, Rect=[0, 0, 1, 1])])
        else:
            layer = pdf.make_indirect(Dictionary(Type=Name.OCG, Name=String("Traps")))
            pdf.Root.OCProperties = Dictionary(OCGs=Array([layer]), D=Dictionary(Order=Array([layer])))
        pdf.save()
    found = refusal(path, folders)
    assert found.status is Status.PDF and "trapped already" in str(found)
    assert trapped(path, folders, force=True).verified


def test_traps_are_taken_off_again(tmp_path: Path) -> None:
    """The contents, the words about trapping and the rendering are as before."""
    cases = [CASES[name] for name in ("plain", "group-rgb", "named-alike", "Q-undoes-nothing", "no-resources")]
    pdf = joined(cases)
    pdf.docinfo["/Trapped"] = Name("/False")
    path = saved(pdf, tmp_path / "in.pdf")
    folders = folders_of(path)
    for form in (LAYER, NETWORK, PLAIN):
        trapped(path, folders, form=form)
        clean = tmp_path / "clean.pdf"
        assert write_without_traps(str(tmp_path / OUTPUT), str(clean), "trapped.pdf") == [1, 2, 3, 4, 5]
        for folder, plates in zip(folders, draw(clean, tmp_path, 72, "media")):
            before = plates_of(folder)
            assert all(np.array_equal(before[name.decode().replace(" ", "_")], plate) for name, plate in plates.items())
        with pikepdf.open(path) as old, pikepdf.open(clean) as new:
            assert b"YAVE" not in clean.read_bytes() and "/OCProperties" not in new.Root
            assert new.docinfo["/Trapped"] == Name("/False")
            assert contents_of(new.pages[0]) == contents_of(old.pages[0])
            assert not new.check()
    with pytest.raises(PressError, match="no page has traps of press/pdf"):
        write_without_traps(str(path), str(tmp_path / "never.pdf"), "in.pdf")


# What the file says and keeps

def test_what_is_said_of_trapping(tmp_path: Path) -> None:
    """True in Info and in XMP if all pages are trapped, else Unknown."""
    pdf = joined([CASES["plain"], CASES["turned-90"]])
    with pdf.open_metadata(set_pikepdf_as_editor=False, update_docinfo=False) as metadata:
        metadata["dc:title"] = "A label"
    path = saved(pdf, tmp_path / "in.pdf")
    folders = folders_of(path)
    for given, word in ((folders, "True"), (folders[1:], "Unknown")):
        trapped(path, given)
        with pikepdf.open(tmp_path / OUTPUT) as made:
            assert made.docinfo["/Trapped"] == Name("/" + word)
            with made.open_metadata(set_pikepdf_as_editor=False, update_docinfo=False) as metadata:
                assert metadata["pdf:Trapped"] == word and metadata["dc:title"] == "A label"


def test_the_layer_can_be_switched_off(tmp_path: Path) -> None:
    """With the layer off, the page renders as before trapping."""
    path = saved(joined([CASES["plain"], CASES["group-rgb"], CASES["unit-odd-90"]]), tmp_path / "in.pdf")
    folders = folders_of(path)
    trapped(path, folders)
    with pikepdf.open(tmp_path / OUTPUT) as pdf:
        layers = pdf.Root.OCProperties
        assert [str(layer.Name) for layer in layers.OCGs] == ["Traps"]
        assert layers.OCGs[0].Usage.Print.Subtype == Name.Trapping
        layers.D.OFF = Array([layers.OCGs[0]])
        pdf.save(tmp_path / "off.pdf")
    for folder, plates in zip(folders, draw(tmp_path / "off.pdf", tmp_path, 72, "media")):
        before = plates_of(folder)
        assert all(np.array_equal(before[name.decode().replace(" ", "_")], plate) for name, plate in plates.items())


def test_pdf_x_1a(tmp_path: Path) -> None:
    """No layer and no words of transparency, and all pages."""
    path = saved(joined([CASES["plain"], CASES["turned-90"]]), tmp_path / "in.pdf")
    folders = folders_of(path)
    trapped(path, folders, form=PLAIN)
    with pikepdf.open(tmp_path / OUTPUT) as pdf:
        assert "/OCProperties" not in pdf.Root
        state = pdf.pages[0].resources.XObject.Traps.Resources.ExtGState.Plain
        assert sorted(state.keys()) == ["/OP", "/OPM", "/Type", "/op"]
    found = refusal(path, folders[:1], form=PLAIN)
    assert found.status is Status.USAGE and "1 of 2 pages" in str(found)


def test_annotations_links_and_bookmarks(tmp_path: Path) -> None:
    """What is printed becomes part of the page; what is not, and links and bookmarks, stay."""
    path = saved(with_annotations(), tmp_path / "in.pdf")
    folders = folders_of(path)
    assert trapped(path, folders).warnings == [FONT, "annotations that are printed become part of the page"]
    with pikepdf.open(tmp_path / OUTPUT) as pdf:
        assert [str(one.Subtype) for one in pdf.pages[0].obj.Annots] == ["/Text", "/Link"]
        with pdf.open_outline() as outline:
            assert [item.title for item in outline.root] == ["The first page"]
    assert refusal(path, folders, strict=True).status is Status.WARNED
    result = trapped(path, folders, form=NETWORK)
    assert result.verified and result.warnings == [FONT]
    with pikepdf.open(tmp_path / OUTPUT) as pdf:
        assert [str(one.Subtype) for one in pdf.pages[0].obj.Annots] == ["/Stamp", "/Text", "/Link", "/TrapNet"]


def test_forms_that_are_filled_in(tmp_path: Path) -> None:
    """A field on a trapped page becomes part of it; the fields of other pages stay fields."""
    pdf = joined([CASES["plain"], CASES["plain"]])
    for page in pdf.pages:
        look = pdf.make_stream(b"0 0 0 1 k 0 0 60 12 re f", Type=Name.XObject, Subtype=Name.Form, BBox=[0, 0, 60, 12])
        field = Dictionary(Type=Name.Annot, Subtype=Name.Widget, FT=Name.Tx, T=String(f"name{page.index}"), F=4,
                           Rect=[50, 60, 110, 72], AP=Dictionary(N=look), P=page.obj)
        page.obj.Annots = Array([pdf.make_indirect(field)])
    fields = Array([page.obj.Annots[0] for page in pdf.pages])
    pdf.Root.AcroForm = pdf.make_indirect(Dictionary(Fields=fields, NeedAppearances=True))
    path = saved(pdf, tmp_path / "in.pdf")
    assert trapped(path, folders_of(path)[:1]).verified
    with pikepdf.open(tmp_path / OUTPUT) as made:
        assert [str(field.T) for field in made.Root.AcroForm.Fields] == ["name1"]
        assert "/Annots" not in made.pages[0].obj and len(made.pages[1].obj.Annots) == 1


# The command

def test_the_command_and_its_report(tmp_path: Path) -> None:
    """Page folders, or the folder that holds them; a line for each page; a report beside the file."""
    path = saved(joined([CASES["plain"], CASES["turned-90"]]), tmp_path / "in.pdf")
    (tmp_path / "run").mkdir()
    for at, folder in enumerate(folders_of(path), 1):
        folder.rename(tmp_path / "run" / f"page-{at:03d}")
    done = run_command("pdf", path, tmp_path / "out.pdf", tmp_path / "run")
    assert done.returncode == 0 and done.stderr.count("\n") == 2 and FONT in done.stderr, done
    lines = done.stdout.splitlines()
    assert lines[0].startswith("page 1: ") and lines[1].startswith("page 2: ") and lines[2].startswith("verified: ")
    told = json.loads((tmp_path / "out.json").read_text())
    assert told["verified"] and told["form"] == "layer" and told["bytes"] == (tmp_path / "out.pdf").stat().st_size
    assert [page["page"] for page in told["pages"]] == [1, 2] and told["pages"][0]["inks"][0]["name"] == "Cyan"
    done = run_command("pdf", "--remove", tmp_path / "out.pdf", tmp_path / "off.pdf")
    assert done.returncode == 0 and done.stdout.endswith("the traps of 2 pages are off\n"), done


def option_cases(folder: Path) -> dict[str, tuple[pikepdf.Pdf, tuple[str, ...], Callable[[pikepdf.Pdf, Any], bool]]]:
    """For each option of the command a file, the words, and what holds of the trapped file and its report with them."""
    return {
        "--margin": (one_page(ART), ("--margin", "3"), lambda pdf, told: told["margin"] == 3 and
                     told["pages"][0]["painted"] > 2 * told["pages"][0]["traps"]),
        "--anchor": (one_page(ART), ("--anchor", "bottom"), lambda pdf, told: told["anchor"] == "bottom"),
        "--trapnet": (one_page(ART), ("--trapnet",), lambda pdf, told: told["form"] == "trapnet" and
                      pdf.pages[0].Annots[0].Subtype == Name.TrapNet and "/OCProperties" not in pdf.Root),
        "--pdfx1a": (one_page(ART), ("--pdfx1a",), lambda pdf, told: told["form"] == "pdfx1a" and
                     "/OCProperties" not in pdf.Root and pdf.pdf_version == "1.3"),
        "--no-verify": (one_page(ART), ("--no-verify",), lambda pdf, told: told["verified"] is False),
        "--box": (one_page(ART), ("--box", "media"), lambda pdf, told: told["pages"][0]["box"] == "media")}


@pytest.mark.parametrize("option", ["--margin", "--anchor", "--trapnet", "--pdfx1a", "--no-verify", "--box"])
def test_options_of_the_command(tmp_path: Path, option: str) -> None:
    """Each does what it says, and the report names it. Without --no-verify the file is verified."""
    pdf, words, holds = option_cases(tmp_path)[option]
    path = saved(pdf, tmp_path / "in.pdf")
    done = run_command("pdf", path, tmp_path / "out.pdf", *folders_of(path), *words)
    assert done.returncode == 0, done
    told = json.loads((tmp_path / "out.json").read_text())
    with pikepdf.open(tmp_path / "out.pdf") as made:
        assert holds(made, told) and not made.check()
    assert told["verified"] == (option != "--no-verify") and (told["verified"] or "not verified" in done.stdout)


def test_options_that_lift_refusals(plain: tuple[Path, list[Path]]) -> None:
    """--decrypt, --force and --strict by the command: what is refused without each of them, or with it."""
    path, folders = plain
    locked, out = path.parent / "locked.pdf", path.parent / "out.pdf"
    with pikepdf.open(path) as pdf:
        pdf.save(locked, encryption=pikepdf.Encryption(owner="owner", user=""))
    assert "encrypted" in run_command("pdf", locked, out, folders[0]).stderr and not out.exists()
    assert run_command("pdf", locked, out, folders[0], "--decrypt").returncode == 0
    with pikepdf.open(out) as pdf:
        assert not pdf.is_encrypted
    twice = path.parent / "twice.pdf"
    assert "trapped already" in run_command("pdf", out, twice, folders[0]).stderr and not twice.exists()
    assert run_command("pdf", out, twice, folders[0], "--force").returncode == 0
    done = run_command("pdf", path, path.parent / "strict.pdf", folders[0], "--strict")
    assert done.returncode == 10 and "does not embed" in done.stderr and not (path.parent / "strict.pdf").exists(), done


def test_how_much_a_file_grows(tmp_path: Path) -> None:
    """By about half a byte for each painted pixel, with edges as hard to pack as a test can make them."""
    path = saved(one_page(ART), tmp_path / "in.pdf")
    result = trapped(path, folders_of(path, 600), verify=False)
    growth = (tmp_path / OUTPUT).stat().st_size - path.stat().st_size
    assert 0.3 < growth / result.pages[0].painted < 0.7 and result.pages[0].painted > 30_000


def test_postscript(tmp_path: Path) -> None:
    """The PDF that Ghostscript makes of PostScript is trapped."""
    path = tmp_path / "in.ps"
    path.write_text("%!PS\n<< /PageSize [120 60] >> setpagedevice 1 0 0 0 setcmykcolor 10 10 50 40 rectfill\n"
                    "0 1 0 0 setcmykcolor 40 20 60 30 rectfill showpage\n")
    assert run_command("plates", path, tmp_path / "page", "--dpi", "72").returncode == 0
    (tmp_path / "page" / "trapped").mkdir()
    for plate in sorted((tmp_path / "page").glob("*.pgm")):
        new = read_pgm(str(plate)).copy()
        new[20:30, 38:42] = np.minimum(new[20:30, 38:42], 100)
        write_pgm(str(tmp_path / "page" / "trapped" / plate.name), new, 255)
    done = run_command("pdf", path, tmp_path / "out.pdf", tmp_path / "page")
    assert done.returncode == 0 and "40 pixels are traps" in done.stdout, done


@pytest.mark.usefixtures("built")
def test_the_whole_way(room: Room) -> None:
    """press/all --pdf makes a trapped PDF of all pages; if it is refused, the pages stand, and the status is 1."""
    room.sample("pair.pdf")
    room.goes("all", "pair.pdf", "out", "--pdf", "--quiet", "--no-proof", "--dpi", "150", "--width", "0.4mm")
    told = json.loads((room / "out" / "pair-trapped.json").read_text())
    assert told["verified"] and told["pages"][0]["traps"] > 0
    # Traps do not land on another file, whatever it looks like.
    room.write("other.pdf", (room / "pair.pdf").read_bytes() + b"% changed\n")
    room.refused(5, ".*was made of other bytes .* leaves out the proof .*", "pdf", "other.pdf", "new.pdf", "out", "--no-verify")
    room.refused(10, ".*was made of other bytes .*", "pdf", "other.pdf", "new.pdf", "out", "--strict")
    room.goes("pdf", "other.pdf", "new.pdf", "out", "--no-verify", "--force")
    room.goes("pdf", "pair.pdf", "again.pdf", "out")
    with pikepdf.open(room / "pair.pdf") as pdf:
        pdf.save(room / "locked.pdf", encryption=pikepdf.Encryption(owner="owner", user=""))
    done = room.run("all", "locked.pdf", "two", "--pdf", "--quiet", "--no-proof", "--dpi", "150", "--width", "0.4mm")
    assert done.status == 1 and "no trapped PDF: locked.pdf: encrypted" in done.err, done
    assert (room / "two" / "page-001" / "trapped" / "report").exists() and not (room / "two" / "locked-trapped.pdf").exists()
    room.refused(2, ".*--pdf and --tiff-only do not go together.*", "all", "pair.pdf", "three", "--pdf", "--tiff-only")
    room.sample("two.pdf")
    room.refused(2, ".*a trapped PDF keeps all inks of the PDF, and Gold Foil would be .*", "all", "two.pdf", "four", "--pdf", "--drop", "Gold Foil")
    assert not (room / "four").exists()


@pytest.mark.parametrize("words, why", [
    (["in.pdf", "out.pdf"], "DIR is missing"),
    (["--margin", "99", "in.pdf", "out.pdf", "x"], "--margin is a whole number from 0"),
    (["--anchor", "left", "in.pdf", "out.pdf", "x"], "--anchor is one of top, bottom"),
    (["--pdfx1a", "--trapnet", "in.pdf", "out.pdf", "x"], "--pdfx1a and --trapnet do not go together"),
    (["--remove", "in.pdf", "out.pdf", "x"], "a word too many")])
def test_wrong_words(tmp_path: Path, words: list[str], why: str) -> None:
    """A usage error in one line."""
    done = run_command("pdf", *words)
    assert done.returncode == 2 and why in done.stderr and done.stderr.count("\n") == 1, done


def test_a_full_disk_and_a_killed_command(plain: tuple[Path, list[Path]]) -> None:
    """The name has the old file or the whole new one; and the next run clears away what a killed one left."""
    path, folders = plain
    place = path.parent / "out"
    place.mkdir()
    (place / "out.pdf").write_bytes(b"old")
    done = run_with_room(1000, "pdf", path, place / "out.pdf", folders[0])
    assert done.returncode == 8 and "File too large (while the trapped PDF was written)" in done.stderr, done
    assert files_in(place) == {"out.pdf": b"old"}
    killed_at_rename(1, "pdf", path, place / "out.pdf", folders[0])
    assert (place / "out.pdf").read_bytes() == b"old" and len(list(place.iterdir())) == 2
    assert run_command("pdf", path, place / "out.pdf", folders[0]).returncode == 0
    assert sorted(files_in(place)) == ["out.json", "out.pdf"] and len(list(place.iterdir())) == 2
    with pikepdf.open(place / "out.pdf") as pdf:
        assert not pdf.check()


def test_a_refused_file_gets_no_name(plain: tuple[Path, list[Path]]) -> None:
    """Nothing new stands there, and the old file is as it was."""
    path, folders = plain
    (path.parent / "out.pdf").write_bytes(b"old")
    for part in ("", "trapped"):
        plate = read_pgm(str(folders[0] / part / "Black.pgm")).copy()
        plate[3, 4] = 7
        write_pgm(str(folders[0] / part / "Black.pgm"), plate, 255)
    done = run_command("pdf", path, path.parent / "out.pdf", folders[0])
    assert done.returncode == 5 and "page 1: Black: pixel 4,3 has tint 0 of 255" in done.stderr, done
    assert (path.parent / "out.pdf").read_bytes() == b"old" and not (path.parent / "out.json").exists()
