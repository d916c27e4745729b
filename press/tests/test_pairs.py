# SPDX-License-Identifier: Apache-2.0
"""Tables of pairs of inks: directions by densities, widths by zones, and what is refused."""
from pathlib import Path

import numpy as np
import pytest

from press.errors import PressError, UsageError
from press.inks import InkBook, Separation
from press.job_language import Parameters, read_job
from press.layout import lay_out, stroke_rule
from press.pairs import directed, pair_places, pairs_file, read_pairs
from press.plates import Plates
from press.settings import Settings

pytestmark = [pytest.mark.quick, pytest.mark.plain]
DENSITIES = {"Cyan": "0.61", "Magenta": "0.76", "Yellow": "0.16", "Red": "0.80", "Gold": "2.0"}
NAMES = tuple(DENSITIES)


def inks_of(**kinds: str) -> list:
    """Five inks with ink on their plates."""
    words = tuple(f"{name}={density}" for name, density in DENSITIES.items())
    book = InkBook(Settings(density=words, kind=tuple(f"{name}={kind}" for name, kind in kinds.items())), None)
    return [book.ink(Separation(name.encode(), b"", None, name)) for name in NAMES]


def page(*patches: tuple[int, int, int, int, str]) -> Plates:
    """Plates of 200 by 100 pixels with patches of full ink: left, upper, width, height and the ink."""
    arrays = [np.full((100, 200), 255, np.uint8) for _ in NAMES]
    for left, upper, width, height, name in patches:
        for array in arrays:
            array[upper:upper + height, left:left + width] = 255
        arrays[NAMES.index(name)][upper:upper + height, left:left + width] = 0
    return Plates(NAMES, tuple(arrays), 255, 300)


def table(path: Path, *lines: str) -> str:
    """A table of pairs."""
    path.write_text("# Pairs\n" + "\n".join(lines) + "\n", encoding="utf-8")
    return str(path)


def test_lines_of_a_table(tmp_path: Path) -> None:
    rules = read_pairs(table(tmp_path / "p", "Red\tCyan\tunder", "Gold\tCyan\tnever", "Red\tGold\t0.5"))
    assert [(one.under, one.factor) for one in rules] == [(True, 1), (False, 0), (False, 0.5)]
    assert rules[2].place.endswith("p: line 4")
    for line in ("Red\tCyan", "Red\tCyan\tover", "Red\tCyan\t0", "Red\tCyan\t11"):
        with pytest.raises(UsageError, match="p: line 2: "):
            read_pairs(table(tmp_path / "p", line))


def test_a_direction_moves_a_density(tmp_path: Path) -> None:
    """Magenta (0.76) lies between Red (0.80) and Cyan (0.61), but not between Red and itself."""
    rules = read_pairs(table(tmp_path / "p", "Red\tMagenta\tunder"))
    inks = {ink.name: float(ink.density) for ink in directed(inks_of(), rules)}
    assert inks["Red"] < inks["Magenta"] and inks["Cyan"] < min(inks["Red"], inks["Magenta"])
    assert directed(inks_of(), read_pairs(table(tmp_path / "p", "Cyan\tRed\tunder"))) == inks_of()


@pytest.mark.parametrize("line, fault", [("Red\tCyan\tunder", "Magenta lies between those of Red and Cyan"),
                                         ("Gold\tCyan\tunder", "Gold is Opaque, and no trap spreads it")])
def test_directions_that_cannot_be_said(tmp_path: Path, line: str, fault: str) -> None:
    with pytest.raises(PressError, match=fault):
        directed(inks_of(Gold="Opaque"), read_pairs(table(tmp_path / "p", line)))


def job_of(plates: Plates, pairs: str) -> list:
    """The zones of a page with a table of pairs."""
    layout = lay_out([], None, None, plates, inks_of(), Settings(dpi=300, pairs=pairs, thin_zones=False))
    return list(read_job(b"\n".join(one.text for one in layout.statements)).zones[1:])


def test_a_width_becomes_a_zone_where_both_meet(tmp_path: Path) -> None:
    """The edge between red and cyan at column 100 alone; that of yellow and magenta keeps the page's width."""
    plates = page((20, 10, 80, 30, "Cyan"), (100, 10, 80, 30, "Red"),
                  (20, 60, 80, 30, "Yellow"), (100, 60, 80, 30, "Magenta"))
    whole, pair = job_of(plates, table(tmp_path / "p", "Cyan\tRed\t0.5"))
    assert (whole.parameters.trap_width, pair.parameters.trap_width) == (2500, 1250)
    points = [(x * 300 / 72 / 10_000, 100 - y * 300 / 72 / 10_000) for ring in pair.subpaths for x, y in ring]
    assert 95 < min(x for x, _ in points) < 100 < max(x for x, _ in points) < 105
    assert min(y for _, y in points) < 12 and 38 < max(y for _, y in points) < 45


def test_never_is_a_zone_without_traps(tmp_path: Path) -> None:
    plates = page((20, 10, 80, 30, "Cyan"), (100, 10, 80, 30, "Red"))
    _, pair = job_of(plates, table(tmp_path / "p", "Red\tCyan\tnever"))
    assert not pair.parameters.enabled


def test_inks_that_do_not_meet_make_no_zone(tmp_path: Path) -> None:
    plates = page((20, 10, 40, 30, "Cyan"), (100, 10, 80, 30, "Red"))
    assert not job_of(plates, table(tmp_path / "p", "Red\tCyan\tnever"))


def test_places_with_other_inks_are_refused(tmp_path: Path) -> None:
    """Stripes of three inks, four pixels each: no zone holds one pair alone."""
    plates = page(*((4 * at, 10, 4, 80, ("Cyan", "Red", "Magenta")[at % 3]) for at in range(45)))
    rules = read_pairs(table(tmp_path / "p", "Red\tCyan\tnever"))
    with pytest.raises(PressError, match="Red and Cyan meet where other inks do too"):
        list(pair_places(plates.arrays, inks_of(), rules, stroke_rule(Parameters()), 300))


def test_which_table_is_taken(tmp_path: Path, monkeypatch: pytest.MonkeyPatch) -> None:
    """The option's, the one beside the file, the house's."""
    (tmp_path / "house").mkdir()
    monkeypatch.setenv("PRESS_HOUSE", str(tmp_path / "house"))
    path = str(tmp_path / "label.pdf")
    assert pairs_file(Settings(), path) is None
    house = table(tmp_path / "house" / "pairs.inks")
    assert pairs_file(Settings(), path) == house
    beside = table(tmp_path / "label.pairs")
    assert pairs_file(Settings(), path) == beside and pairs_file(Settings(pairs="own"), path) == "own"
