# SPDX-License-Identifier: Apache-2.0
"""The job language: what is written for a page, what is read of zones, and the places of offsets."""
import re

import pytest

from press import job, precedence
from press.folder import PageSource
from press.inks import Ink
from press.settings import Settings, parameters

pytestmark = pytest.mark.quick
INKS = (Ink("Cyan", b"Cyan", b"Cyan", "0.61"), Ink("Gold_Foil", b"Gold Foil", b"Gold Foil", "1.1", "OpaqueIgnore"))
ZONES = b"<< /TrapWidth 1 >> settrapparams\n"


def test_job_of_a_page() -> None:
    """A job has the resolution, the inks with their kinds, the statements of files with their names, and showpage."""
    made = job.write_job(PageSource(b"label.pdf", 2, 600), INKS, [job.Statement(None, b"% own\n"), job.Statement("a/b.zones", ZONES)])
    text = made.text.decode()
    assert text.startswith("%!PS\n% Page 2 of label.pdf, ") and text.endswith(f"% own\n% From b.zones:\n{ZONES.decode()}\nshowpage\n")
    assert "/HWResolution [600 600]" in text
    assert "/Cyan << /NeutralDensity 0.61 >>" in text
    assert "/Gold_Foil << /NeutralDensity 1.1 /ColorantType /OpaqueIgnore >>  % Gold Foil: " in text
    part, = made.parts
    assert made.text[part.start:part.start + len(ZONES)] == ZONES


def test_parameters_of_options() -> None:
    """Options become one statement with a comment for each number; without options there is none."""
    assert not precedence.parameter_statement(Settings())
    one, = precedence.parameter_statement(Settings(parameters=parameters(width="0.1mm", scale="50%")))
    assert b"/TrapWidth 0.2835 " in one.text and b"2.36 samples at 600" in one.text and b"/TrapColorScaling 0.5 " in one.text


def test_zones_are_read() -> None:
    """Each zone has the parameters that hold where it is made; without zones those at the end hold for the page."""
    text = b"<< /TrapWidth 1 /BlackWidth 2 >> settrapparams newpath settrapzone << /Enabled false >> settrapparams settrapzone"
    assert [(zone.width, zone.black, zone.enabled) for zone in job.read(text).zones] == [(1, 2, True), (1, 2, False)]
    assert [zone.width for zone in job.read(ZONES).zones] == [1]


@pytest.mark.parametrize("text, key, line", [
    (b"<< /TrapWidht 1 >> settrapparams", "TrapWidht", r"is /TrapWidth meant\?"),
    (b"<< /HalftoneName null >> settrapparams", "HalftoneName", "an entry of PostScript's trapping"),
    (b"<< /Nothing << /Else 1 >> >> setpagedevice", "Nothing", "unknown key /Nothing before setpagedevice")])
def test_keys_that_are_passed_over(text: bytes, key: str, line: str) -> None:
    """A key that the engine does not know is found at its offset."""
    stranger, = job.read(text).strangers
    assert stranger.key == key and text[stranger.at:].startswith(b"/" + key.encode())
    assert re.search(line, job.stranger_line(stranger))


@pytest.mark.parametrize("text", [b"<<", b"(", b"[[[", b">> settrapparams", b"\xff\x00<< /A", b"<< /TrapWidth >> settrapparams", b"<<" * 500])
def test_broken_jobs_are_read_to_their_end(text: bytes) -> None:
    """What a broken job means is for the program to say: reading it never fails."""
    assert job.read(text).zones


@pytest.mark.parametrize("width, dpi, line", [(0.25, 290, None), (0.25, 200, "0.69 samples at 200 .* not trapped"), (0.25, 100, "nothing is trapped")])
def test_widths_in_samples(width: float, dpi: int, line: str | None) -> None:
    """A width below a sample is called out; a zone that is not enabled never."""
    told = job.width_line(job.ZoneParameters(width), dpi)
    assert told is None if line is None else re.search(line, told or "")
    assert job.width_line(job.ZoneParameters(width, enabled=False), dpi) is None


def test_places_of_offsets() -> None:
    """An offset of a job is a line of the file that it came from."""
    made = job.write_job(PageSource(b"a.pdf", 1, 600), INKS, [job.Statement("one.zones", b"gsave\n"), job.Statement("two.zones", b"\n\nq\n")])
    at = made.text.index(b"\nq\n") + 1
    assert job.file_place(at, made.parts) == ("two.zones", 3)
    assert job.job_place(made.text, at).endswith(", which is line 3 of two.zones")
    assert job.file_place(len(made.text), made.parts)[0] == "two.zones"
