# SPDX-License-Identifier: Apache-2.0
"""Tasks of an array job that make their pages on a node's own disk: OUT and its record are as if they had worked in OUT."""
import json
import os
import re
import subprocess
from pathlib import Path

import pytest
from press.node_disk import local_disk
from room import COMMANDS, LONGEST, Room
from small_pdf import page, pdf
from test_files import fixture_small_disk

pytestmark = pytest.mark.usefixtures("built")
TASK = ("--no-proof", "--dpi", "72")
PAIR = "1 0 0 0 k 10 10 40 28 re f 0 1 0 0 k 50 10 40 28 re f"
# The fixture is taken from there.
__all__ = ["fixture_small_disk"]


@pytest.fixture(name="disk")
def fixture_disk(room: Room) -> Path:
    """The node's own disk. Nothing may be left on it."""
    disk = room.beside / "disk"
    disk.mkdir()
    return disk


def environment(number: int, disk: Path) -> dict[str, str | None]:
    """What Slurm and the user give the task of a page."""
    return {"SLURM_ARRAY_TASK_ID": str(number), "PRESS": str(COMMANDS), "PRESS_LOCAL": str(disk)}


def files_of(folder: Path) -> dict[str, bytes]:
    """The files of a folder by their names, with its own name as OUT."""
    return {str(path.relative_to(folder)): path.read_bytes().replace(f"{folder.name}/page".encode(), b"OUT/page")
            for path in folder.rglob("*") if path.is_file()}


def three_pages(room: Room) -> None:
    """A job of three pages, the second of which fails."""
    pdf(str(room / "job.pdf"), [page([], PAIR), page([], PAIR), page([], "0.4 g 10 10 60 20 re f")])
    room.write("job.2.zones", "gsave\n")
    room.write("own.inks", "Gold\t1.5\n")


def test_record_has_pages_of_all_tasks(room: Room, disk: Path) -> None:
    """Tasks that end at the same time leave the files and the record of press/all, to the byte, and nothing on the node's disk."""
    three_pages(room)
    words = ("job.pdf", "array", *TASK, "--inks", "own.inks")
    tasks = [room.start("farm.sbatch", *words, env=environment(number, disk), log=f"task{number}") for number in (1, 2, 3)]
    assert [task.wait(LONGEST) for task in tasks] == [0, 1, 0], [room.complained(f"task{number}") for number in (1, 2, 3)]
    assert re.match(r"page 2: failed: press-preflight: job\.pdf: page 2: job\.2\.zones: line 1: ", room.printed("task2")), room.printed("task2")
    assert room.run("all", "--quiet", *TASK, "--inks", "own.inks", "job.pdf", "all").status == 1
    assert files_of(room / "array") == files_of(room / "all")
    assert list(json.loads((room / "array/job.json").read_text())["pages"]) == ["1", "2", "3"]
    assert not list(disk.iterdir()) and not room.left_over()


def test_page_that_is_made_again(room: Room, disk: Path) -> None:
    """A task takes the options of the record, and what came of the page replaces what failed; other options and files are refused."""
    three_pages(room)
    assert room.run("all", "--quiet", *TASK, "--width", "1pt", "job.pdf", "out").status == 1
    (room / "job.2.zones").unlink()
    again = environment(2, disk)
    done = room.goes("farm.sbatch", "job.pdf", "out", env=again)
    assert done.out.startswith("page 2: done: "), done
    assert "/TrapWidth 1 " in (room / "out/page-002/page.job").read_text() and not (room / "out/page-002.failed").exists()
    record = json.loads((room / "out/job.json").read_text())
    assert {one["state"] for one in record["pages"].values()} == {"done"} and record["options"]["width"] == "1pt"
    room.refused(2, r"press-all: --dpi: page 2 of out was made with --dpi 72, and not with --dpi 144 .*", "farm.sbatch", "job.pdf", "out",
                 "--dpi", "144", env=again)
    pdf(str(room / "other.pdf"), [page([], PAIR)] * 2)
    room.refused(8, r"press-all: out: has the pages of job\.pdf, and not of other\.pdf: .*", "farm.sbatch", "other.pdf", "out", env=again)
    (room / "job.pdf").write_bytes((room / "other.pdf").read_bytes())
    room.refused(8, r"press-all: out: its pages are of other bytes of job\.pdf .*", "farm.sbatch", "job.pdf", "out", env=again)
    assert not list(disk.iterdir())


def test_events_of_a_task(room: Room, disk: Path) -> None:
    """With --json a page is done when it is in OUT, and the run ends once."""
    three_pages(room)
    done = room.run("farm.sbatch", "job.pdf", "out", *TASK, "--json", env=environment(2, disk))
    events = [json.loads(line) for line in done.out.splitlines()]
    assert done.status == 1 and [one["event"] for one in events][-2:] == ["page-failed", "run-done"], done
    assert [one["event"] for one in events].count("run-done") == 1 and str(disk) not in done.out


def test_disk_without_room(room: Room, disk: Path, small_disk: Path) -> None:
    """A page that finds no room in OUT has failed: its line names the file and the system's reason, and the record has it."""
    three_pages(room)
    out = small_disk / "out"
    room.goes("farm.sbatch", "job.pdf", str(out), *TASK, env=environment(1, disk))
    free = os.statvfs(small_disk)
    (small_disk / "fill").write_bytes(b"1" * (free.f_bavail * free.f_frsize - 32_768))
    done = room.run("farm.sbatch", "job.pdf", str(out), *TASK, env=environment(3, disk))
    assert done.status == 1 and re.fullmatch(rf"page 3: failed: press-all: {out}/page-003\.failed/\S+: No space left on device\n", done.out), done
    assert (out / "page-001/tiff").is_dir() and sorted(os.listdir(out / "page-003.failed")) == ["job.json", "why"]
    record = json.loads((out / "job.json").read_text())
    assert [(number, one["state"]) for number, one in record["pages"].items()] == [("1", "done"), ("3", "failed")]
    assert not list(disk.iterdir()) and not list(out.glob(".press-*"))


def test_disk_that_is_not_there(room: Room) -> None:
    """A folder that is none is named. Without a task, or with an empty variable, pages are made in OUT."""
    three_pages(room)
    line = rf"press-all: {room.beside}/none: No such file or directory"
    room.refused(8, line, "farm.sbatch", "job.pdf", "out", env=environment(1, room.beside / "none"))
    assert local_disk() is None
    room.goes("all", "--quiet", *TASK, "--page", "1", "job.pdf", "out", env={"PRESS_LOCAL": str(room.beside / "none")})


def test_task_that_is_stopped(room: Room, disk: Path) -> None:
    """Slurm's signal ends the task; neither OUT nor the node's disk has anything of it."""
    three_pages(room)
    (room.beside / "slow-now").touch()
    env = {**environment(1, disk), **room.slow_ghostscript("*tiffsep*-r300*")}
    child: subprocess.Popen[str] = room.start("farm.sbatch", "job.pdf", "out", "--dpi", "300", env=env)
    room.wait_until((room.beside / "slow-begun").exists, "the page is not begun", child)
    assert room.stop(child) == 143, room.complained()
    room.rests()
    assert not list(disk.iterdir()) and not (room / "out").exists()
