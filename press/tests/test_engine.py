# SPDX-License-Identifier: Apache-2.0
"""Pages through the programs of traps: what is trapped, what is handed to them, and what they refuse."""
import filecmp
import re
from pathlib import Path

import pytest
from room import Room


@pytest.mark.parametrize("name", ["two", "gray", "blank", "odd"])
def test_pages_are_trapped(room: Room, built: None, name: str) -> None:
    """A page is trapped and becomes TIFF files, its report being whole."""
    room.sample(f"{name}.pdf")
    room.goes("plates", f"{name}.pdf", name, *(["--kind", "Gold Foil=Normal"] if name == "two" else []))
    room.goes("trap", name)
    room.goes("tiff", name, f"{name}/tiff")
    report = (room / name / "trapped" / "report").read_text()
    assert report.endswith("end\n"), report
    if name == "gray":
        assert "page 1000 400 255 plates 1\n" in report, "blank plates were handed to the program"
        plates = [file.name for file in (room / name).glob("*.pgm")]
        assert filecmp.cmpfiles(room / name, room / name / "trapped", plates, shallow=False) == (plates, [], [])
    if name == "two":
        changed = {line.split()[1]: int(line.split()[3]) for line in report.splitlines() if line.startswith("plate ")}
        assert changed["Warm_Red"] or changed["Cyan"], report


def test_fault_in_the_job(room: Room, two: Path, built: None) -> None:
    """A fault in the job is printed with the file and its line."""
    job = two / "page.job"
    text = job.read_text()
    line = text[:text.index("showpage")].count("\n") + 1
    job.write_text(text.replace("showpage", "<< /TrapWidth 0 >> settrapparams\nshowpage"))
    room.refused(9, rf'press-trap: two/page\.job: line {line}: trapsheet ended with 3: "job: OutOfRange TrapWidth at [0-9]*"', "trap", "two")


def test_earlier_result_stays(room: Room, trapped_two: Path, built: None) -> None:
    """A page that is refused keeps what an earlier run made of it."""
    job = trapped_two / "page.job"
    job.write_text(job.read_text().replace("showpage", "gsave\nshowpage"))
    before = room.state()
    done = room.run("trap", "two")
    assert done.status == 9 and room.state() == before, done


def test_trap_page_makes_the_same(room: Room, two: Path, built: None) -> None:
    """What `trap page` makes of a page is what trapsheet makes of it; a fault then names that program."""
    if not (room.programs / "trap").exists():
        pytest.skip("the program trap is not built")
    assert two.is_dir()
    room.goes("trap", "two")
    first = {path.name: path.read_bytes() for path in (room / "two/trapped").iterdir()}
    room.script("trapsheet", "#!/bin/sh\nexit 5\n")
    (room.beside / "stand-ins" / "trap").symlink_to((room.programs / "trap").resolve())
    only_page = {"TRAP_BIN": str(room.beside / "stand-ins")}
    for option in (["--trap-page"], ["--band", "64"]):
        room.goes("trap", "two", *option, env=only_page)
        assert {path.name: path.read_bytes() for path in (room / "two/trapped").iterdir()} == first
    room.refused(9, "press-trap: two: trapsheet ended with 5: .*", "trap", "two", env=only_page)


def test_large_pages(room: Room, built: None) -> None:
    """A page that is too large for `trap page` is trapped by trapsheet, and refused with --trap-page by the resolution that fits."""
    room.sample("wide.pdf")
    room.goes("all", "--quiet", "wide.pdf", "sheet")
    assert "page 16667 17 255 plates 1\n" in (room / "sheet/page-001/trapped/report").read_text()
    room.refused(7, r"press-trap: sheet/page-001: 16667 by 17 samples .* \(at most 589 pixels per inch fit here\)", "trap", "sheet/page-001",
                 "--trap-page")
    done = room.run("all", "--quiet", "--trap-page", "wide.pdf", "page")
    assert done.status == 1 and re.search(r"failed: .*16667 by 17 samples, .* \(at most 589 pixels per inch fit here\)", done.out), done


def test_large_pages_are_not_checked(room: Room, programs: Path, built: None) -> None:
    """presscheck takes no such page, which is warned of."""
    if not (programs / "presscheck").exists():
        pytest.skip("the program presscheck is not built")
    room.sample("wide.pdf")
    told = room.goes("all", "--quiet", "--check", "1", "wide.pdf", "sheet").err
    assert "presscheck takes no page of this size: not checked" in told
    assert (room / "sheet/page-001/trapped/report").stat().st_size > 0
