# SPDX-License-Identifier: Apache-2.0
"""Trapping parameters on the command line, presets, and those of the house."""
import re

import pytest
from room import Room


def test_parameters_on_the_command_line(room: Room) -> None:
    """Each parameter stands in the job with a comment that says what was asked for."""
    room.sample("technical.pdf")
    room.goes("plates", "technical.pdf", "technical", "--width", "0.1mm", "--black-width", "2", "--step", "20%", "--slide", "0.8", "--scale", "50%")
    job = (room / "technical" / "page.job").read_text()
    for line in (r"   /TrapWidth 0\.2835  *% 0\.1mm: 2\.36 samples at 600 pixels per inch \(--width\)", r"/BlackWidth 2 .*0\.2 mm \(--black-width\)",
                 r"/StepLimit 0\.2 ", r"/SlidingTrapLimit 0\.8 ", r"/TrapColorScaling 0\.5 "):
        assert re.search(line, job), f"no {line} in {job}"


def test_preset_of_the_house(room: Room) -> None:
    """A preset of the house is taken by its name; the command line overrides it."""
    room.sample("technical.pdf")
    (room.beside / "house" / "mine.preset").write_text("width 150um # measured\nscale 0.9\n")
    room.goes("plates", "technical.pdf", "technical", "--preset", "mine", "--scale", "1")
    job = (room / "technical" / "page.job").read_text()
    assert re.search(r"/TrapWidth 0\.4252 .*mine\.preset, line 1", job), job
    assert re.search(r"/TrapColorScaling 1 .*--scale", job), job


@pytest.mark.parametrize("preset", ["offset", "flexo", "gravure", "screen"])
def test_presets(room: Room, built: None, preset: str) -> None:
    """Each preset makes a job that the engine takes."""
    room.sample("technical.pdf")
    room.goes("plates", "technical.pdf", "technical", "--preset", preset)
    room.goes("trap", "technical")
    assert f"{preset}.preset, line" in (room / "technical" / "page.job").read_text()
