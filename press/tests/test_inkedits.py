# SPDX-License-Identifier: Apache-2.0
"""Roles of inks, and plates that are merged, turned into process inks, dropped or renamed."""
from pathlib import Path

import numpy as np
import pytest

from press.errors import PressError, UsageError
from press.inkedits import InkEdits, edit_plates, same_swatches, without_suffix
from press.inks import InkBook, Separation
from press.page import edits_of
from press.plates import Plates
from press.render import Rendering
from press.settings import Settings

pytestmark = [pytest.mark.quick, pytest.mark.plain]
PROCESS = ("Cyan", "Magenta", "Yellow", "Black")
SPOTS = {"PANTONE 485 C": (0, 95, 100, 0), "PANTONE 485 CVC": (0, 95, 100, 0), "Label Red": (0, 90, 50, 0)}


def rendering(maxval: int = 255) -> Rendering:
    """A page of four rows in which each plate has a tint of its own: row 0 of the first ink, and so on."""
    names = [*PROCESS, *SPOTS]
    looks = [None] * 4 + list(SPOTS.values())
    separations = tuple(Separation(name.encode(), name.encode(), look, name.replace(" ", "_"))
                        for name, look in zip(names, looks))
    arrays = []
    for number in range(len(names)):
        array = np.full((4, 8), maxval, "u1" if maxval == 255 else ">u2")
        array[:, number] = maxval - maxval * 4 // 5
        arrays.append(array)
    plates = Plates(tuple(one.name for one in separations), tuple(arrays), maxval, 72)
    return Rendering(1, separations, plates, (), ())


def names(found: Rendering) -> list[str]:
    """The colorants of a page."""
    return [one.colorant.decode() for one in found.separations]


def test_a_merged_ink_prints_with_the_other_plate(tmp_path: Path) -> None:
    found = edit_plates(rendering(), InkEdits({b"PANTONE 485 CVC": b"PANTONE 485 C"}), str(tmp_path), "a.pdf")
    assert names(found) == [*PROCESS, "PANTONE 485 C", "Label Red"]
    assert list(255 - found.plates["PANTONE_485_C"][0]) == [0, 0, 0, 0, 204, 204, 0, 0]
    assert found.plates.names == tuple(one.name for one in found.separations)


def test_where_both_print_their_tints_are_added(tmp_path: Path) -> None:
    page = rendering()
    page.plates.arrays[5][:, 4] = 100
    found = edit_plates(page, InkEdits({b"PANTONE_485_CVC": b"PANTONE 485 C"}), str(tmp_path), "a.pdf")
    assert list(255 - found.plates["PANTONE_485_C"][0])[4:6] == [255, 204]


def test_an_ink_whose_other_name_is_on_no_plate_gets_it(tmp_path: Path) -> None:
    """On a page that has one of the two alone."""
    found = edit_plates(rendering(), InkEdits({b"Label Red": b"PANTONE 186 C"}), str(tmp_path), "a.pdf")
    assert names(found)[-1] == "PANTONE 186 C" and found.separations[-1].name == "PANTONE_186_C"


@pytest.mark.parametrize("maxval", (255, 65_535))
def test_a_spot_prints_with_process_inks(tmp_path: Path, maxval: int) -> None:
    found = edit_plates(rendering(maxval), InkEdits(to_process=frozenset([b"Label Red"])), str(tmp_path), "a.pdf")
    assert names(found) == [*PROCESS, "PANTONE 485 C", "PANTONE 485 CVC"]
    shares = [(maxval - int(found.plates[name][2, 6])) / maxval for name in PROCESS]
    assert shares == pytest.approx([0, 0.72, 0.4, 0], abs=0.003)
    assert (maxval - int(found.plates["Magenta"][2, 1])) / maxval == pytest.approx(0.8, abs=0.003)


def test_plates_are_dropped_and_renamed(tmp_path: Path) -> None:
    edits = InkEdits(drop=frozenset([b"PANTONE 485 CVC"]), rename={b"Label Red": "Rot/1".encode()})
    found = edit_plates(rendering(), edits, str(tmp_path), "a.pdf")
    assert names(found) == [*PROCESS, "PANTONE 485 C", "Rot/1"]
    assert found.separations[-1].name == "Rot_1" and found.separations[-1].suffix == b"Rot%2F1"


@pytest.mark.parametrize("edits, line", [
    (InkEdits(drop=frozenset([b"Cyan"])), "--drop: Cyan is a process ink"),
    (InkEdits({b"Black": b"Label Red"}), "--merge: Black is a process ink"),
    (InkEdits(rename={b"Label Red": b"PANTONE 485 C"}), "--rename: the page has an ink PANTONE 485 C already")])
def test_what_cannot_be_done_is_refused(tmp_path: Path, edits: InkEdits, line: str) -> None:
    with pytest.raises(PressError, match=line):
        edit_plates(rendering(), edits, str(tmp_path), "a.pdf")


def test_swatches_of_one_number_are_one_ink(tmp_path: Path) -> None:
    assert without_suffix(b"PANTONE 485 CVC") == without_suffix(b"Pantone 485C") == without_suffix(b"PANTONE 485 U")
    assert without_suffix(b"PANTONE 485 C") != without_suffix(b"PANTONE 486 C")
    assert without_suffix(b"Vitamin C") != without_suffix(b"Vitamin")
    assert same_swatches([b"HKS 41 K", b"HKS 41 N", b"Red"]) == {b"HKS 41 N": b"HKS 41 K"}
    found = edit_plates(rendering(), InkEdits(merge_suffixes=True), str(tmp_path), "a.pdf")
    assert names(found) == [*PROCESS, "PANTONE 485 C", "Label Red"]


def test_options_and_tables_say_what_is_done(tmp_path: Path) -> None:
    """The columns of a table after the kind; options override them."""
    table = tmp_path / "a.inks"
    table.write_text("Old Red\t-\t-\tmerge=PANTONE 485 C\nDie\t-\t-\ttechnical\tdrop\nGold\t-\t-\tto-process\n"
                     "Blue\t0.9\tNormal\trename=Navy\n", encoding="utf-8")
    settings = Settings(merge=("Old Red=Label Red",), drop=("Notes",))
    edits = edits_of(settings, InkBook(settings, str(table)))
    assert edits.merge == {b"Old Red": b"Label Red"} and edits.rename == {b"Blue": b"Navy"}
    assert edits.drop == {b"Die", b"Notes"} and edits.to_process == {b"Gold"}
    with pytest.raises(UsageError, match="--merge is OLD=NEW"):
        edits_of(Settings(merge=("Old",)), InkBook(Settings(), None))
    table.write_text("Old Red\t-\t-\tmerge\n", encoding="utf-8")
    with pytest.raises(UsageError, match="line 1: after the kind comes"):
        InkBook(Settings(), str(table))


# Roles

@pytest.mark.parametrize("name, role, kind, density", [
    ("White Underprint", "white", "Normal", "0.06"), ("Deckweiss", "white", "Normal", "0.06"),
    ("Silver", "metallic", "Opaque", "2.0"), ("PANTONE 877 C", "metallic", "Opaque", "2.0"),
    ("Lack UV", "varnish", "Transparent", None), ("Stanze", "technical", "Transparent", None),
    ("Gold Foil", "technical", "OpaqueIgnore", None), ("PANTONE 185 C", "spot", "Normal", "0.78"),
    ("PANTONE Black 6 C", "spot", "Normal", "2.06"), ("Cyan", "process", "Normal", "0.61")])
def test_roles_by_name(name: str, role: str, kind: str, density: str | None) -> None:
    """What an ink is for follows from its name, and its kind and density from that."""
    ink = InkBook(Settings(), None).ink(Separation(name.encode(), b"", None, name.replace(" ", "_")))
    assert (ink.role, ink.kind) == (role, kind) and density in (None, ink.density)


def test_roles_by_the_owner(tmp_path: Path) -> None:
    """A role gives kind and density where the owner gives none; an option overrides a table."""
    table = tmp_path / "a.inks"
    table.write_text("Base\t-\t-\twhite\nShine\t1.9\t-\tmetallic\nClear 7\t-\t-\tvarnish\n", encoding="utf-8")
    book = InkBook(Settings(role=("Clear 7=spot",)), str(table))
    inks = [book.ink(Separation(name, b"", None, name.decode())) for name in (b"Base", b"Shine", b"Clear 7")]
    assert [(ink.role, ink.kind, ink.density) for ink in inks] == [
        ("white", "Normal", "0.06"), ("metallic", "Opaque", "1.9"), ("spot", "Normal", "0.85")]
    with pytest.raises(UsageError, match="a role is process, spot, white"):
        InkBook(Settings(role=("Base=weiss",)), None)


def test_the_density_of_a_metal_goes_with_its_kind() -> None:
    """A gold that is told to print as any other ink has the density of its colour, and not that of a cover."""
    ink = InkBook(Settings(kind=("Gold=Normal",)), None).ink(Separation(b"Gold", b"", (0, 20, 60, 30), "Gold"))
    assert ink.kind == "Normal" and float(ink.density) < 1
