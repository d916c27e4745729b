# SPDX-License-Identifier: Apache-2.0
"""The table of precedence of docs/PRESS.md: for each kind of value each two neighbours that can give it, and the note that names what
lost."""
from collections.abc import Sequence
from pathlib import Path
from typing import Any

import pytest
from press import owner_files, pairs, precedence
from press.inks import InkBook, Separation
from press.job import Statement
from press.job_language import Parameters, read_job
from press.page import edits_of, lost_edits, pdf_line
from press.settings import PRESETS, Settings, parameters
from room import TOP, Room

pytestmark = [pytest.mark.quick, pytest.mark.plain]
PRESET, FILE, OTHER = "flexo", "<< /TrapWidth 0.3 /StepLimit 0.4 >> settrapparams\n", "<< /TrapWidth 0.5 >> settrapparams\n"
PRESET_NAMES = ("offset", "flexo", "gravure", "screen")
ZONED = "<< /TrapWidth 0.15 >> settrapparams 0 0 moveto 9 0 lineto 9 9 lineto settrapzone\n"


@pytest.fixture(name="house", autouse=True)
def fixture_house(tmp_path: Path, monkeypatch: pytest.MonkeyPatch) -> Path:
    """A house's folder."""
    monkeypatch.setenv("PRESS_HOUSE", str(tmp_path / "own-house"))
    (tmp_path / "own-house").mkdir()
    return tmp_path / "own-house"


# Trapping parameters

def page_of(settings: Settings, files: Sequence[tuple[str, str]]) -> tuple[list[Statement], Parameters, list[str]]:
    """The statements of a page, the parameters in force outside the owner's zones, and what is said of those that lost."""
    given = [Statement(name, text.encode()) for name, text in files]
    found = precedence.in_order(settings, given)
    whole = read_job(b"\n".join(one.text for one in found if b"settrapzone" not in one.text))
    return found, whole.zones[0].parameters, list(precedence.lost_lines(settings, given))


@pytest.mark.parametrize("option, files, width, step, lost", [
    # The default, a preset, a file of all pages, one of the page, and the command line: each over the one before.
    ({}, [], 2500, 2500, []),
    ({"preset": PRESET}, [], 5669, 2000, []),
    ({"preset": PRESET}, [("a.zones", FILE)], 3000, 4000,
     ["width 0.2mm (flexo.preset, line 2) gives way to /TrapWidth 0.3 (a.zones, line 1)",
      "step 0.2 (flexo.preset, line 4) gives way to /StepLimit 0.4 (a.zones, line 1)"]),
    ({}, [("a.zones", FILE), ("a.1.zones", OTHER)], 5000, 4000,
     ["/TrapWidth 0.3 (a.zones, line 1) gives way to /TrapWidth 0.5 (a.1.zones, line 1)"]),
    ({"width": "0.25mm"}, [("a.zones", FILE), ("a.1.zones", OTHER)], 7087, 4000,
     ["/TrapWidth 0.3 (a.zones, line 1) gives way to --width 0.25mm", "/TrapWidth 0.5 (a.1.zones, line 1) gives way to --width 0.25mm"]),
    ({"preset": PRESET, "width": "0.25mm"}, [], 7087, 2000, ["width 0.2mm (flexo.preset, line 2) gives way to --width 0.25mm"]),
    ({"width": "0.3pt"}, [("a.zones", FILE)], 3000, 4000, [])])
def test_parameters_of_the_page(option: dict[str, str], files: list[tuple[str, str]], width: int, step: int, lost: list[str]) -> None:
    """Each source overrides the one below it, and what lost is named; equal values are no loss."""
    statements, found, said = page_of(Settings(parameters=parameters(**option)), files)
    assert (found.trap_width, found.step_limit) == (width, step) and said == lost
    # No comment of the job speaks of a preset's value that does not hold.
    assert not any(line.partition(" (")[0].encode() in one.text for line in said for one in statements if line.startswith("width"))


@pytest.mark.parametrize("files", [[("a.zones", ZONED)], [("a.zones", ZONED), ("a.1.zones", FILE)]])
def test_a_zone_keeps_what_its_file_sets(files: list[tuple[str, str]]) -> None:
    """Outside the zone the command line holds; within it what its own file sets, which a note says."""
    settings = Settings(parameters=parameters(width="0.25mm"), thin_zones=False)
    statements, whole, said = page_of(settings, files)
    zone = read_job(b"\n".join(one.text for one in statements)).zones[1].parameters
    assert (whole.trap_width, zone.trap_width) == (7087, 1500)
    assert zone.step_limit == (4000 if len(files) == 2 else 2500)
    assert said[-1] == "--width 0.25mm gives way to /TrapWidth 0.15 (a.zones, line 1) in the zones of that file"


@pytest.mark.parametrize("name", ["width", "black-width", "step", "slide", "scale"])
def test_each_option_overrides_files_and_presets(name: str) -> None:
    """The options of all parameters, and not the width's alone."""
    key = {"width": "TrapWidth", "black-width": "BlackWidth", "step": "StepLimit", "slide": "SlidingTrapLimit",
           "scale": "TrapColorScaling"}[name]
    field = {"width": "trap_width", "black-width": "black_width", "step": "step_limit", "slide": "sliding_trap_limit",
             "scale": "trap_color_scaling"}[name]
    text = "0.9pt" if name == "width" else "0.9"
    settings = Settings(parameters=parameters(preset=PRESET, **{name.replace("-", "_"): text}))
    _, found, said = page_of(settings, [("a.zones", f"<< /{key} 0.6 >> settrapparams\n")])
    assert getattr(found, field) == 9000
    assert f"/{key} 0.6 (a.zones, line 1) gives way to --{name} {text}" in said
    _, found, _ = page_of(Settings(parameters=parameters(preset=PRESET)), [("a.zones", f"<< /{key} 0.6 >> settrapparams\n")])
    assert getattr(found, field) == 6000


def test_a_preset_of_the_house(house: Path) -> None:
    """A preset of the house overrides the one of this name in press/presets."""
    assert parameters(preset=PRESET)["width"].text == "0.2mm" and (Path(PRESETS) / "flexo.preset").exists()
    (house / "flexo.preset").write_text("width 0.11mm\n")
    assert parameters(preset=PRESET)["width"].text == "0.11mm"


def test_presets_are_as_documented() -> None:
    """The table of presets in docs/ZONES.md has the values of the files, and of the engine."""
    rows = [[cell.strip().strip("`") for cell in line.split("|")[1:-1]]
            for line in (TOP / "docs" / "ZONES.md").read_text(encoding="utf-8").splitlines() if line.startswith("| ")]
    head, = (row for row in rows if row[0] == "Preset")
    shown = {row[0]: dict(zip(head[1:], row[1:])) for row in rows if len(row) == len(head) and row[0] in ("none", *PRESET_NAMES)}
    assert set(shown) == {"none", *PRESET_NAMES} == {"none", *(path.stem for path in Path(PRESETS).glob("*.preset"))}
    for name in PRESET_NAMES:
        assert {key: value.text for key, value in parameters(preset=name).items()} == shown[name]
    usual = Parameters()
    assert [usual.trap_width, usual.black_width, usual.step_limit, usual.sliding_trap_limit, usual.trap_color_scaling] == [
        round(10_000 * float(value.removesuffix("pt"))) for value in shown["none"].values()]


# Inks

def ink_of(settings: Settings, table: Path | None, name: str = "Reflex Blue") -> tuple[str, str, str, list[str]]:
    """Density, kind and role of an ink, and what is said of figures that lost."""
    book = InkBook(settings, str(table) if table else None)
    ink, = book.page_inks([Separation(name.encode(), b"", (0, 0, 0, 50), name.replace(" ", "_"))], [True])
    return ink.density, ink.kind, ink.role, list(book.lost_lines(ink, [ink]))


def test_figures_of_an_ink(tmp_path: Path, house: Path) -> None:
    """The command line, the file's table, the house's, the library and the guess, each over the next."""
    table, own = tmp_path / "a.inks", house / "house.inks"
    assert ink_of(Settings(), None, "Nobody's")[:3] == ("0.85", "Normal", "spot")
    library = ink_of(Settings(), None, "PANTONE Reflex Blue C")
    assert library[0] not in ("0.85", "0.5") and not library[3]
    own.write_text("Reflex Blue\t0.5\tOpaque\tmetallic\nPANTONE Reflex Blue C\t0.5\n")
    assert ink_of(Settings(), None, "PANTONE Reflex Blue C")[0] == "0.5"
    table.write_text("reflex blue\t0.6\tNormal\tspot\n")
    assert ink_of(Settings(), table) == ("0.6", "Normal", "spot", [
        "the density 0.5 of Reflex Blue (house.inks, line 1) gives way to 0.6 (a.inks, line 1)",
        "the kind Opaque of Reflex Blue (house.inks, line 1) gives way to Normal (a.inks, line 1)",
        "the role metallic of Reflex Blue (house.inks, line 1) gives way to spot (a.inks, line 1)"])
    own.unlink()
    given = Settings(density=("Reflex Blue=0.7",), kind=("Reflex Blue=Transparent",), role=("Reflex Blue=varnish",))
    assert ink_of(given, table) == ("0.7", "Transparent", "varnish", [
        "the density 0.6 of Reflex Blue (a.inks, line 1) gives way to 0.7 (the command line)",
        "the kind Normal of Reflex Blue (a.inks, line 1) gives way to Transparent (the command line)",
        "the role spot of Reflex Blue (a.inks, line 1) gives way to varnish (the command line)"])


@pytest.mark.parametrize("option", [{"merge": ("die=Cut",)}, {"rename": ("die=Cut",)}, {"to_process": ("die",)}, {"drop": ("die",)}])
def test_what_becomes_of_plates(tmp_path: Path, house: Path, option: dict[str, tuple[str, ...]]) -> None:
    """An option overrides the file's table, and that the house's."""
    (house / "house.inks").write_text("DIE\t-\t-\tmerge=Black\n")
    assert edits_of(Settings(), InkBook(Settings(), None)).merge == {b"DIE": b"Black"}
    (tmp_path / "a.inks").write_text("Die\t-\t-\trename=Outline\n")
    book = InkBook(Settings(), str(tmp_path / "a.inks"))
    edits = edits_of(Settings(), book)
    assert (edits.rename, edits.merge) == ({b"Die": b"Outline"}, {})
    assert list(lost_edits(Settings(), book)) == ["merge=Black of DIE (house.inks, line 1) gives way to rename=Outline (a.inks, line 1)"]
    edits = edits_of(Settings(**option), book)
    assert edits.inks == {b"die"}
    assert "rename=Outline of Die in the tables gives way to the options for die" in list(lost_edits(Settings(**option), book))


@pytest.mark.parametrize("option", [{"merge": ("die=Cut",)}, {"rename": ("die=Cut",)}, {"to_process": ("die",)}, {"drop": ("die",)},
                                    {"merge_suffixes": True}, {}])
def test_no_trapped_pdf_of_edited_inks(tmp_path: Path, option: dict[str, Any]) -> None:
    """An edit of an ink of the file by an option or a table refuses a trapped PDF, and one of an ink that it does not have does not."""
    table = None if option else str(tmp_path / "a.inks")
    (tmp_path / "a.inks").write_text("Die\t-\t-\tdrop\n")
    settings, spots = Settings(**option), (b"Die", b"PANTONE 485 C", b"PANTONE 485 CVC")
    book = InkBook(settings, table)
    name = "PANTONE 485 CVC" if "merge_suffixes" in option else "Die"
    assert f"PDF, and {name} would be merged" in (pdf_line(settings.but(pdf=True), book, spots) or "")
    assert pdf_line(settings, book, spots) is None and pdf_line(settings.but(pdf=True), book, (b"Gold", b"PANTONE 485 C")) is None


# Files

def test_files_give_way_to_options(tmp_path: Path, house: Path) -> None:
    """--zones, --inks and --pairs stand in the place of files beside the PDF, and those of the house's pairs; a note names what is not
    read."""
    for name in ("a.pdf", "a.zones", "a.1.zones", "a.inks", "a.pairs"):
        (tmp_path / name).write_text("")
    (house / "pairs.inks").write_text("")
    path = str(tmp_path / "a.pdf")
    assert precedence.zones_files(Settings(), path, 1) == [str(tmp_path / "a.zones"), str(tmp_path / "a.1.zones")]
    assert precedence.zones_files(Settings(zones="z"), path, 1) == ["z"]
    assert pairs.pairs_file(Settings(pairs="p"), path) == "p"
    assert pairs.pairs_file(Settings(), path) == str(tmp_path / "a.pairs")
    assert pairs.pairs_file(Settings(), str(tmp_path / "b.pdf")) == str(house / "pairs.inks")
    said = [one.text for one in owner_files.beside_findings(path, 1, Settings(zones="z", inks="i", pairs="p")) if one.kind == "overridden"]
    assert said == [f"{tmp_path}/a.zones gives way to --zones z", f"{tmp_path}/a.1.zones gives way to --zones z",
                    f"{tmp_path}/a.inks gives way to --inks i", f"{tmp_path}/a.pairs gives way to --pairs p",
                    f"{house}/pairs.inks gives way to p"]


def test_table_of_the_documents() -> None:
    """docs/PRESS.md names the sources in their order."""
    text = (TOP / "docs" / "PRESS.md").read_text(encoding="utf-8")
    assert "| Value | Command line | Beside the file | House | Preset | Library | Otherwise |" in text


@pytest.mark.slow
def test_notes_of_values_that_lost(room: Room) -> None:
    """press/plates prints them, and the job has the width that holds, alone."""
    room.sample("pair.pdf")
    room.write("pair.zones", "<< /TrapWidth 0.3 >> settrapparams\n")
    room.write("pair.inks", "Cyan\t0.5\n")
    words = ["--dpi", "600", "--no-thin-zones", "--width", "0.25mm", "--preset", PRESET, "--density", "cyan=0.6"]
    told = room.goes("plates", "pair.pdf", "page", *words).err
    for text in ("/TrapWidth 0.3 (pair.zones, line 1) gives way to --width 0.25mm", "width 0.2mm (flexo.preset, line 2) gives way",
                 "the density 0.5 of Cyan (pair.inks, line 1) gives way to 0.6 (the command line)"):
        assert told.count(text) == 1, told
    job = (room / "page" / "page.job").read_text()
    assert "0.2mm" not in job
    assert read_job(job.encode()).zones[0].parameters.trap_width == 7087


# The press's profile

def test_the_presss_profile() -> None:
    """--icc comes before the file's own output intent."""
    lost = ["--output-intent gives way to --icc press.icc"]
    assert list(precedence.lost_lines(Settings(icc="press.icc", output_intent=True), [])) == lost
    assert not list(precedence.lost_lines(Settings(icc="press.icc"), []))
    assert not list(precedence.lost_lines(Settings(output_intent=True), []))


# Widths that fit

@pytest.mark.parametrize("dpi, given, least, most", [(600, {}, "15.42pt", "15.41pt"), (2400, {}, "3.856pt", "3.85pt"),
                                                     (600, {"black_width": "2"}, "7.71pt", "7.709pt")])
def test_width_that_fits(room: Room, built: None, dpi: int, given: dict[str, str], least: str, most: str) -> None:
    """A width that the engine would refuse is refused at once with the largest that fits, which the engine takes."""
    (room / "x.pdf").write_bytes(b"%PDF-1.4")
    words = [word for name, value in given.items() for word in (f"--{name.replace('_', '-')}", value)]
    room.refused(2, rf"press-plates: --width: a trap width of .*pt( times 2 at black)? is too wide at {dpi} pixels per inch: at most "
                 rf"[\d.]+pt \([\d.]+mm\) fits \(see press-plates --help\)", "plates", "x.pdf", "out", "--dpi", str(dpi), "--width", least, *words)
    for width, fits in ((most, True), (least, False)):
        black = given.get("black_width", "1")
        text = f"<< /HWResolution [{dpi} {dpi}] >> setpagedevice << /TrapWidth {width[:-2]} /BlackWidth {black} >> settrapparams showpage"
        room.write("job", text)
        room.write("plate", b"P5\n1 1\n255\n\xff")
        details = text.replace("showpage", "<< /TrappingDetails << /Type 1001 /ColorantDetails << /K << /NeutralDensity 1 >> >> >> >> "
                                           "setpagedevice showpage")
        room.write("job", details)
        done = room.run(room.programs / "trap", "page", "job", "report", "K:plate:out.pgm")
        assert (done.status == 0) == fits, done
        assert fits or "ReachTooWide" in done.out
