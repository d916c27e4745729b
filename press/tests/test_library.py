# SPDX-License-Identifier: Apache-2.0
"""The library of inks: each figure of the source "look" is what its colour makes, each line has a known source and kind, and names of
inks are known for what they are."""
import math
import re
from pathlib import Path

import pytest
from room import TOP

from press import inks, tables
from press.settings import Settings

pytestmark = pytest.mark.quick
LIBRARY = TOP / "press" / "inks"
KINDS = {"CutContour": "Transparent", "Stanzlinie": "Transparent", "Découpe": "Transparent", "Die-Line": "Transparent",
         "Varnish_Gloss": "Transparent", "UV Lack": "Transparent", "White opaque": "Normal", "Deckweiß": "Normal",
         "Gold Foil": "OpaqueIgnore", "Heißfolie Silber": "OpaqueIgnore", "Silver": "Opaque", "PANTONE 877 C": "Opaque",
         "PANTONE 185 C": "Normal", "Warm Red": "Normal", "100% (matt)": "Normal", "Coca Cola Red": "Normal", "Cyan": "Normal",
         "Goldgelb": "Normal", "Dark Blue": "Normal", "Whisky": "Normal", "MuddyBlack": "Normal", "Glanzlack": "Transparent"}
# Words for colours that print, none of which is technical.
COLORS = """black noir schwarz nero negro preto zwart svart czarny red rot rouge rosso rojo vermelho rood blue blau bleu blu azul blauw green
grün vert verde groen yellow gelb jaune giallo amarillo amarelo geel orange violet lila purple brown braun marron bruin grey gray grau gris
grigio pink rosa turquoise türkis beige creme cream navy teal lime olive maroon ivory coral amber mint rust sand sky wine""".split()


def density(color: str) -> str:
    """The neutral density of a colour on a screen, written as RRGGBB."""
    parts = [int(color[at:at + 2], 16) / 255 for at in (0, 2, 4)]
    linear = [part / 12.92 if part <= 0.04045 else ((part + 0.055) / 1.055) ** 2.4 for part in parts]
    return f"{-math.log10(sum(share * part for share, part in zip((0.2126, 0.7152, 0.0722), linear))):.2f}"


@pytest.mark.parametrize("name", ["process.inks", "spots.inks", "technical.inks"])
def test_lines_of_the_library(name: str) -> None:
    """Each line has a source that the head of its table explains, a kind, and a density that is its colour's."""
    text = (LIBRARY / name).read_text(encoding="utf-8")
    sources = set(re.findall(r"^# (\w+) {2,}\w", text, re.MULTILINE))
    entries = inks.entries_of(str(LIBRARY / name))
    assert entries
    for number, line in entries:
        _, figure, kind, source, *color = line.split("\t")
        assert source in sources, f"line {number}: no source {source}"
        assert kind in tables.kinds() and (figure == "-" or 0.001 <= float(figure) <= 10), f"line {number}"
        assert source != "look" or density(color[0]) == figure, f"line {number}: {density(color[0])}"


@pytest.fixture(name="book")
def fixture_book(tmp_path: Path, monkeypatch: pytest.MonkeyPatch) -> inks.InkBook:
    """What is known of inks without a table and without a house."""
    monkeypatch.setenv("PRESS_HOUSE", str(tmp_path))
    return inks.InkBook(Settings(), None)


def kind_of(book: inks.InkBook, name: str) -> str:
    """The kind that an ink of this name is taken for."""
    return book.ink(inks.Separation(name.encode(), b"", None, name)).kind


@pytest.mark.parametrize("name, kind", KINDS.items())
def test_kinds_by_name(book: inks.InkBook, name: str, kind: str) -> None:
    """Technical inks are known by their names, and inks that print are not taken for them."""
    assert kind_of(book, name) == kind


def test_colours_print(book: inks.InkBook) -> None:
    """No colour is a technical ink."""
    for name in [one for color in COLORS for one in (color, f"{color} 2", f"Dark{color.title()}")]:
        assert kind_of(book, name) == "Normal", name
