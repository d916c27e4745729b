# SPDX-License-Identifier: Apache-2.0
"""Inks: what is told of them and what is guessed, the library, technical inks, and the house's own table."""
import re
import shutil

from room import TOP, Room


def test_order_of_what_is_told(room: Room) -> None:
    """The command line overrides the table, and both override a guess."""
    room.sample("two.pdf")
    room.write("told.inks", "Warm Red\t0.9\nGold Foil\t1.1\tOpaque\n")
    done = room.goes("plates", "two.pdf", "inks", "--inks", "told.inks", "--density", "Warm Red=0.8", "--kind", "Gold_Foil=OpaqueIgnore")
    assert [line.partition(": page 1: ")[2] for line in done.err.splitlines()] == [
        "the kind Opaque of Gold Foil (told.inks, line 2) gives way to OpaqueIgnore (the command line)",
        "the density 0.9 of Warm Red (told.inks, line 1) gives way to 0.8 (the command line)"]
    job = (room / "inks" / "page.job").read_text()
    assert "/Warm_Red << /NeutralDensity 0.8 >>" in job
    assert "/Gold_Foil << /NeutralDensity 1.1 /ColorantType /OpaqueIgnore >>" in job


def test_warnings_of_inks(room: Room) -> None:
    """An ink that the page does not have, a guessed density and a kind taken from a name are warned of, each once."""
    room.sample("two.pdf")
    told = room.goes("plates", "two.pdf", "inks", "--kind", "Silver=Transparent").err
    assert "no colorant of the file is called Silver" in told
    assert len(re.findall("Warm Red is not told; 0.98 is a guess: add a line to NAME.inks or house.inks, or give --density", told)) == 1
    assert len(re.findall("Gold Foil is a technical ink by its name, and is taken as OpaqueIgnore", told)) == 1


def test_files_beside_the_pdf(room: Room) -> None:
    """A table and zones beside the PDF are taken, those of all pages before those of one."""
    (room / "beside").mkdir()
    room.sample("two.pdf")
    (room / "two.pdf").rename(room / "beside" / "two.pdf")
    room.write("beside/two.inks", "Warm Red\t0.9\nGold Foil\t1.1\tOpaque\n")
    room.write("beside/two.zones", "<< /TrapWidth 1 >> settrapparams\n")
    room.write("beside/two.1.zones", "newpath\n")
    room.goes("plates", "beside/two.pdf", "beside/page")
    assert (room / "beside" / "page" / "page.job").read_text().splitlines()[-8:] == [
        "", "% From two.zones:", "<< /TrapWidth 1 >> settrapparams", "", "% From two.1.zones:", "newpath", "", "showpage"]


def test_findings_of_technical_inks(room: Room) -> None:
    """Technical inks are known by their names, a knock-out is warned of, and swatches come from the library."""
    room.sample("technical.pdf")
    told = room.goes("preflight", "technical.pdf").out
    for line in ("warning: ink-kind: CutContour is a technical ink by its name, and is taken as Transparent",
                 "warning: knock-out: CutContour knocks out the colours below it: set it to overprint .* gets no trap", "warning: ink-kind: UV-Lack .* Transparent",
                 r"note: ink-library: the density of PANTONE Reflex Blue C is 1\.64 by press/inks/spots\.inks, line [0-9]+: look"):
        assert re.search(line, told), f"no {line} in {told}"


def test_kinds_in_the_job(room: Room) -> None:
    """The job has a technical ink's kind with its source; --kind overrides it."""
    room.sample("technical.pdf")
    room.goes("plates", "technical.pdf", "technical")
    job = (room / "technical" / "page.job").read_text()
    assert re.search(r"/CutContour << /NeutralDensity .* /ColorantType /Transparent >>  % .*technical\.inks", job), job
    room.goes("plates", "--force", "technical.pdf", "technical", "--kind", "CutContour=Normal")
    job = (room / "technical" / "page.job").read_text()
    assert re.search(r"/CutContour << /NeutralDensity [0-9.]* >>", job), job
    assert len(re.findall(r"<< /NeutralDensity .*  % .", job)) == 7, job


def test_table_of_the_house(room: Room) -> None:
    """The house's table overrides the library."""
    room.sample("technical.pdf")
    (room.beside / "house" / "house.inks").write_text("CutContour\t0.5\tOpaque\n")
    room.goes("plates", "technical.pdf", "technical")
    job = (room / "technical" / "page.job").read_text()
    assert "/CutContour << /NeutralDensity 0.5 /ColorantType /Opaque >>  % house.inks, line 1" in job


def test_names_that_are_nearly_the_same(room: Room) -> None:
    """A spot called like a process ink, and two spellings of one ink, are warned of; --density of such a name counts."""
    room.sample("spellings.pdf")
    told = room.goes("preflight", "spellings.pdf", "--density", "cyan=0.6").out
    assert "warning: process-name: cyan is a spot with a plate of its own, and is called like a process ink: is Cyan meant" in told
    assert re.search("warning: ink-twice: (WARM RED and Warm Red|Warm Red and WARM RED) are two plates", told), told
    assert "inks-line" not in told and "of cyan is not told" not in told, told


def test_installed_commands_name_their_own_table(room: Room) -> None:
    """Away from the repository the library's table is named by the path that it has there."""
    room.sample("technical.pdf")
    place = room.beside / "installed"
    for name in ("press", "python/press", "docs"):
        shutil.copytree(TOP / name, place / name, ignore=shutil.ignore_patterns("tests", "__pycache__", "static"))
    for name in ("VERSION", "programs.txt"):
        shutil.copy(TOP / name, place)
    told = room.goes(place / "press/preflight", "technical.pdf").out
    found = re.search(r"the density of PANTONE Reflex Blue C is 1\.64 by (.*), line [0-9]+: look", told)
    assert found and found[1] == str(place / "press/inks/spots.inks"), told
