# SPDX-License-Identifier: Apache-2.0
"""press/all: pages that fail beside pages that are done, single pages, what is kept, locks, and what stands in the way."""
import os
import signal

import pytest
from room import LABEL, TEMPORARY, Room, needs

pytestmark = pytest.mark.usefixtures("built")


def test_pages_that_fail_do_not_stop_the_others(room: Room) -> None:
    """A page that fails leaves its reason; it is done again by its number."""
    room.sample("three.pdf")
    zones = room.write("three.2.zones", "gsave\n")
    done = room.run("all", "--quiet", "three.pdf", "pages")
    assert done.status == 1 and done.out.count(": done: ") == 2, done
    failed = [line for line in done.out.splitlines() if line.startswith("page 2: failed: press-preflight: three.pdf: page 2: three.2.zones: line 1: ")]
    assert len(failed) == 1 and failed[0].endswith('UnknownOperator"'), done
    assert (room / "pages/page-002.failed/why").read_text().strip() in failed[0]
    assert not (room / "pages/page-002").exists() and (room / "pages/page-003/tiff").is_dir()
    zones.unlink()
    room.goes("all", "--quiet", "--page", "2", "three.pdf", "pages")
    assert not (room / "pages/page-002.failed").exists() and (room / "pages/page-002/tiff").is_dir()


def test_ranges_of_pages(room: Room) -> None:
    """--page takes ranges and several pages."""
    room.sample("twenty.pdf")
    room.goes("all", "--quiet", "--no-proof", "--page", "2-3,5", "twenty.pdf", "pages")
    assert sorted(os.listdir(room / "pages")) == ["job.json", "page-002", "page-003", "page-005"]


def test_what_is_kept(room: Room) -> None:
    """--tiff-only keeps no plates, and the line says what the page takes of the disk."""
    room.sample("pair.pdf")
    done = room.goes("all", "--quiet", "--tiff-only", "pair.pdf", "thin")
    assert not list((room / "thin").rglob("*.pgm"))
    assert (room / "thin/page-001/tiff/pair-1(Cyan).tif").stat().st_size > 0 and (room / "thin/proof.html").stat().st_size > 0
    assert done.out.endswith(" of disk\n"), done


def test_links_and_folders_of_others_stay(room: Room) -> None:
    """A link in a page's place, and a folder that press/all did not make, stay as they are."""
    room.sample("pair.pdf")
    for name in ("linked", "elsewhere", "way/page-001"):
        (room / name).mkdir(parents=True)
    room.write("elsewhere/colorants.txt", "of another\n")
    room.write("way/page-001/mine", "of another\n")
    (room / "linked/page-001").symlink_to("../elsewhere")
    room.refused_after(1, r"page 1: failed: press-all: linked/page-001: is a link, and press/all did not make it: .*",
                       "all", "--quiet", "--no-proof", "pair.pdf", "linked")
    assert (room / "elsewhere/colorants.txt").read_text() == "of another\n"
    room.refused_after(1, r"page 1: failed: press-all: way/page-001: stands in the way, and press/all did not make it",
                       "all", "--quiet", "--no-proof", "pair.pdf", "way")
    assert (room / "way/page-001/mine").read_text() == "of another\n"


def at_work(room: Room, *arguments: str) -> dict[str, str]:
    """The environment of a run that stays at its first page: its Ghostscript waits until the file slow-now is gone."""
    (room.beside / "slow-now").touch()
    return room.slow_ghostscript()


def begun(room: Room) -> bool:
    """Whether that Ghostscript is at work."""
    return (room.beside / "slow-begun").exists()


@needs("parallel", "mutool")
def test_one_run_at_a_time(room: Room) -> None:
    """A second run in a folder is refused with the process of the first; one that is stopped lets go of the folder."""
    room.sample("two.pdf")
    child = room.start("all", "--quiet", LABEL, "busy", env=at_work(room))
    room.wait_until(lambda: begun(room), "all does not begin", child)
    room.wait_until(lambda: (room / "busy/.press-lock").stat().st_size > 0, "all takes no lock", child)
    for command, options in (("all", []), ("farm", ["--lenient"])):
        done = room.run(command, "--quiet", "two.pdf", "busy", *options)
        assert done.status == 8, done
        assert f"press-{command}: busy: another run is at work here (process {child.pid} on " in done.err and ": press-all)\n" in done.err, done
    assert room.stop(child) == 143, room.complained()
    room.rests()
    assert not (room / "busy/.press-lock").exists()


@needs("parallel", "mutool")
@pytest.mark.parametrize("command", ["all", "farm"])
def test_killed_runs_are_cleared_away(room: Room, command: str) -> None:
    """What a killed run leaves is cleared away by the next one, among the temporary files too, and none of its tools goes on."""
    room.sample("pair.pdf")
    child = room.start(command, "--quiet", *(["--lenient"] if command == "farm" else []), LABEL, "busy", env=at_work(room))
    room.wait_until(lambda: begun(room), f"{command} does not begin", child)
    room.wait_until(room.left_over, "nothing is at work in the folder", child)
    assert room.stop(child, signal.SIGKILL) == -signal.SIGKILL
    room.rests()
    assert [name for name in os.listdir(room.temporary) if TEMPORARY.match(name)] or command == "farm"
    if command == "farm":
        room.clear_temporary()
    (room.beside / "slow-now").unlink()
    room.goes(command, "--quiet", "--no-proof", "pair.pdf", "busy")
    assert (room / "busy/page-001/tiff").is_dir()
