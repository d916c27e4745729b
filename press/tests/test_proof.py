# SPDX-License-Identifier: Apache-2.0
"""The proof sheet: what stands in it, that it fetches nothing, that its script draws, and what misregistration opens."""
import base64
import io
import json
import re
import subprocess
import tempfile
from pathlib import Path

import numpy as np
import pytest
from PIL import Image
from room import LABEL, Room, needs

PARTS = ("Proof of pair.pdf", 'class="slider"', "Out of register", "Where gaps can still open", "<h3>Inks", "<h3>The job", "TrapWidth 0.2835",
         "data:image/png;base64,")
CHROMIUM = ("chromium", "--headless", "--no-sandbox", "--disable-gpu", "--virtual-time-budget=8000", "--dump-dom")
BROWSER_STARTS, BROWSER_SECONDS = 3, 300


@pytest.fixture(name="sheet")
def fixture_sheet(room: Room, built: None) -> Path:
    """The proof sheet of pair.pdf with traps of two pixels."""
    room.sample("pair.pdf")
    room.goes("all", "--quiet", "--dpi", "600", "pair.pdf", "out", "--width", "0.1mm")
    return room / "out" / "proof.html"


def test_parts_of_a_sheet(room: Room, sheet: Path) -> None:
    """The sheet has all its parts, and asks for nothing of a network."""
    text = sheet.read_text()
    assert [part for part in PARTS if part not in text] == []
    assert not re.search(r'(src|href)="?(https?:)?//', text)
    room.goes("proof", "out/page-001")
    assert (room / "out/page-001/proof.html").stat().st_size > 0


def test_report_as_json(sheet: Path) -> None:
    """The report has the inks and what misregistration opens: a trap of two pixels closes what plates a pixel off open."""
    told = json.loads((sheet.parent / "page-001/trapped/report.json").read_text())
    assert told["samples_changed"] > 0 and told["edges"] > 0
    assert {ink["name"] for ink in told["inks"]} == {"Cyan", "Magenta", "Yellow", "Black"}
    assert told["misregister"]["radius"] == 1 and told["misregister"]["bared_before"] > 0 == told["misregister"]["bared_after"], told


@needs("chromium")
@pytest.mark.slow
def test_script_in_a_browser(room: Room, sheet: Path) -> None:
    """A browser runs the sheet's script: the parts are drawn. One that does not come up on a busy machine is started again."""
    dom = ""
    # The browser's sockets need a short path.
    with tempfile.TemporaryDirectory(prefix="browser-", ignore_cleanup_errors=True) as home:
        words = [*CHROMIUM, f"--user-data-dir={home}/data", f"file://{sheet}"]
        for _ in range(BROWSER_STARTS):
            try:
                dom = subprocess.run(words, capture_output=True, text=True, timeout=BROWSER_SECONDS, check=False,
                                     env={**room.environment, "HOME": home, "TMPDIR": home}).stdout
            except subprocess.TimeoutExpired:
                continue
            if 'data-drawn="yes"' in dom:
                break
    assert 'data-drawn="yes"' in dom and "2 across, 0 down, in samples" in dom


@pytest.mark.slow
def test_sheet_of_the_label(room: Room, built: None) -> None:
    """Pictures can be drawn of the label."""
    room.goes("all", "--quiet", "--dpi", "72", LABEL, "label")
    page = room / "label/page-001"
    for name, options in (("page", ()), ("traps", ("--traps",)), ("register", ("--misregister", "--part", "most", "--enlarge", "4"))):
        room.goes("look", page, f"{name}.png", *options)
        assert (room / f"{name}.png").stat().st_size > 1000


@needs("qpdf")
def test_the_trapped_pdf_and_screened_plates(room: Room, built: None) -> None:
    """A run's sheet has a link to its trapped PDF; with --screened it has the dots of the screened plates, which have to be
    of these plates."""
    room.sample("two.pdf")
    room.goes("all", "--quiet", "--dpi", "144", "--pdf", "--kind", "Gold Foil=Normal", "two.pdf", "out")
    sheet = (room / "out/proof.html").read_text()
    assert 'href="two-trapped.pdf"' in sheet and "byte for byte" in sheet
    room.goes("screen", "out/page-001", "bits", "--dpi", "600", "--lpi", "60")
    room.goes("proof", "out", "--screened", "bits")
    sheet = (room / "out/proof.html").read_text()
    assert "Screened plates of page 1" in sheet and re.search(r"<td>Warm Red</td><td>\d\d\.\d\d°</td><td>[56]\d\.\d\d</td>", sheet)
    room.goes("proof", "out/page-001", "--screened", "bits")
    dots = re.search(r'class="dots" src="data:image/png;base64,([^"]+)"', (room / "out/page-001/proof.html").read_text())
    picture = np.asarray(Image.open(io.BytesIO(base64.b64decode(dots[1]))))
    assert picture.shape == (200, 200, 3) and 2 <= len(np.unique(picture.reshape(-1, 3), axis=0)) <= 16
    plate = room / "out/page-001/trapped/Cyan.pgm"
    plate.write_bytes(plate.read_bytes()[:-1] + b"\x07")
    for folder, line in (("bits", "was screened of other plates"), (".", "no screened plates here")):
        told = room.run("proof", "out/page-001", "--screened", folder)
        assert told.status == 6 and line in told.err, told
