# SPDX-License-Identifier: Apache-2.0
"""Many pages: by GNU parallel on this machine, by a stand-in for ssh on others, and as tasks of an array job."""
import hashlib
import json
import os
import re
import subprocess
import sys
from pathlib import Path

import pytest
from press.farm_hosts import probe_script
from room import COMMANDS, LABEL, TOP, Room, needs
from test_watch import LABEL_DPI, same_pages

pytestmark = [pytest.mark.usefixtures("built"), needs("parallel", "mutool")]
QUIET = ("--quiet", "--lenient", "--no-proof", "--dpi", "72")
# What is done on the machine `near` is done here. As sshd does, this begins in the home folder, and hands on nothing of the environment,
# the name of a shell neither. The machine `down` cannot be reached; on `mute` nothing can be begun, since its TMPDIR is none. `lost` and
# `dumb` become like them when they have been probed.
SSH = """#!/usr/bin/env bash
while [[ $1 == -* ]]; do case $1 in -o | -i | -p | -l | -S) shift 2 ;; *) shift ;; esac; done
machine=$1
echo "$machine" >>"$HOME/calls"
if [ "$machine" = lost ] || [ "$machine" = dumb ]; then
  if [ "$(grep -cx "$machine" "$HOME/calls")" -gt 1 ]; then [ "$machine" = lost ] && machine=down || machine=mute; fi
fi
[ "$machine" != down ] || { echo "ssh: down: no route" >&2; exit 255; }
shift
[ "$1" != -- ] || shift
cd "$HOME" || exit 255
mute=()
[ "$machine" != mute ] || mute=(TMPDIR="$0/none")
exec env -i HOME="$HOME" PATH="$PATH" "${mute[@]}" bash -c "$*"
"""
ODD_NAME = "{} {.} {= 1 =} %d 'b' \"$(touch ran)\" Gr\udcfcn"
DONE = r"^page [789]: done: "


def ssh(room: Room) -> dict[str, str]:
    """The environment in which machines are reached by the stand-in. GNU parallel needs a home folder."""
    return {"HOME": str(room.beside), "PARALLEL_SSH": str(room.script("ssh", SSH))}


def farm(room: Room, status: int, line: str, *arguments: str, cwd: Path | None = None) -> str:
    """Runs press/farm over machines. All lines that it prints match, and there is one; answers them."""
    done = room.run("farm", *QUIET, *arguments, env=ssh(room), cwd=cwd)
    logs = [path.read_text(errors="replace") for path in room.folder.rglob("farm.log")]
    assert done.status == status, f"{done}\n{logs}"
    assert done.out and all(re.search(line, one) for one in done.out.splitlines()), f"{done}\n{logs}"
    return done.out


def test_pages_that_fail(room: Room) -> None:
    """A page that fails does not stop the others; --again does it, and the pages have the bytes of press/all."""
    room.sample("three.pdf", "two.pdf")
    room.refused(8, r"press-farm: two\.pdf: File exists", "farm", "two.pdf", "two.pdf")
    zones = room.write("three.2.zones", "gsave\n")
    done = room.run("farm", "three.pdf", "farm", "--dpi", "300")
    assert done.status == 1 and not (room / "farm/page-002").exists() and (room / "farm/page-003").is_dir(), done
    zones.unlink()
    done = room.goes("farm", "--quiet", "--again", "three.pdf", "farm", "--dpi", "300", env={"HOME": None})
    assert done.out.startswith("page 2: done") and done.out.count("\n") == 1, done
    room.goes("all", "--quiet", "three.pdf", "all", "--dpi", "300")
    assert same_pages(room / "all", room / "farm") == 3


def test_trapped_pdf_of_a_farm(room: Room) -> None:
    """--pdf makes the trapped PDF of all pages, verified, with a link to it in the proof sheet."""
    room.sample("three.pdf")
    room.goes("farm", "--quiet", "--lenient", "--jobs", "2", "--dpi", "72", "--pdf", "three.pdf", "farm")
    told = json.loads((room / "farm/three-trapped.json").read_text(encoding="utf-8"))
    assert told["verified"] and [page["page"] for page in told["pages"]] == [1, 2, 3]
    assert 'href="three-trapped.pdf"' in (room / "farm/proof.html").read_text(encoding="utf-8")


def test_label_has_the_bytes_of_all(room: Room) -> None:
    """Two pages at once have the bytes of press/all, of presscheck too."""
    check = ("--check", "2") if (Path(room.environment["TRAP_BIN"]) / "presscheck").exists() else ()
    room.goes("all", "--quiet", *LABEL_DPI, *check, LABEL, "all")
    room.goes("farm", "--quiet", "--jobs", "2", *LABEL_DPI, *check, LABEL, "farm")
    assert same_pages(room / "all", room / "farm") == 2


def test_warnings_are_printed_once(room: Room) -> None:
    """A warning of several pages is one line; without --lenient it refuses the file."""
    room.sample("twenty.pdf")
    done = room.goes("farm", "--quiet", "--lenient", "--no-proof", "--page", "4,6", "twenty.pdf", "out", "--dpi", "200")
    assert len(re.findall("warning: .*0.69 samples", done.err)) == 1, done
    done = room.run("farm", "--quiet", "twenty.pdf", "out", "--dpi", "200")
    lines = [line for line in done.err.splitlines() if ": warning: " not in line]
    assert done.status == 10 and len(lines) == 1, done
    assert re.fullmatch(r"press-farm: twenty\.pdf: TrapWidth 0\.25 pt is 0\.69 samples .* \(--strict\)", lines[0]), done


def test_progress(room: Room) -> None:
    """press/farm prints how far it is."""
    room.sample("twenty.pdf")
    done = room.run("farm", "--lenient", "--no-proof", "--page", "4-5", "--dpi", "72", "twenty.pdf", "out")
    assert done.status == 0 and re.search(r"^press-farm: twenty\.pdf: 1 of 2 pages, .* left", done.err, re.MULTILINE), done


def test_more_pages_than_memory(room: Room) -> None:
    """No more pages are begun at once than there is memory for."""
    room.sample("twenty.pdf")
    done = room.goes("farm", *QUIET, "--jobs", "1024", "--page", "1", "twenty.pdf", "many")
    available = int(re.search(r"^MemAvailable: *(\d+)", Path("/proc/meminfo").read_text(), re.MULTILINE)[1])
    told = re.search(r"memory for [0-9]+ pages at once, of [0-9.]+ MB each: --jobs 1024 is too many", done.err)
    assert told or available > 299_000_000, done


def test_machines_that_cannot_work(room: Room) -> None:
    """A machine that cannot be reached, or does nothing, is probed once, dropped and named; its pages go to the others."""
    room.sample("twenty.pdf")
    told = farm(room, 0, DONE, "--jobs", "1", "--hosts", "down,near,mute", "--page", "7-9", "twenty.pdf", "far")
    assert told.count("\n") == 3
    complained = room.run("farm", *QUIET, "--again", "--hosts", "down,near", "twenty.pdf", "far", env=ssh(room))
    assert complained.status == 0 and complained.err.endswith("\npress-farm: warning: down is left out: ssh: down: no route\n"), complained
    calls = (room.beside / "calls").read_text().split()
    assert calls.count("down") == 2 and calls.count("mute") == 1, calls
    done = room.run("farm", *QUIET, "--hosts", "down,mute", "--page", "7", "twenty.pdf", "none", env=ssh(room))
    assert done.status == 3 and done.out == "" and (room / "far/page-007").is_dir(), done
    assert sorted(line for line in done.err.splitlines() if "TrapWidth" not in line) == [
        "press-farm: down, mute: none of its machines can work", "press-farm: warning: down is left out: ssh: down: no route",
        "press-farm: warning: mute is left out: it starts nothing and gives no reason"], done


def test_machines_of_another_disk(room: Room) -> None:
    """A machine that has another folder in place of OUT, or no commands, is dropped with that reason."""
    for token, why in ((str(room / "none"), "none is another folder there, or there is none"), (str(room.folder), "nothing can be written into none")):
        script = probe_script(".", "none", token)
        done = subprocess.run(["sh", "-c", script], cwd=room.folder, capture_output=True, text=True, check=False)
        assert done.returncode == 1 and done.stdout.splitlines()[-1].endswith(why), done


def test_machines_that_are_lost(room: Room) -> None:
    """A page of a machine that is lost after it was probed fails and is named; it is done elsewhere afterwards."""
    room.sample("twenty.pdf")
    told = farm(room, 1, DONE + r"|^page [789]: failed: lost was lost, or cannot be reached \(--again does the page\)$",
                "--jobs", "1", "--hosts", "near,lost", "--page", "7-9", "twenty.pdf", "far")
    assert ": failed: lost was lost" in told, told
    farm(room, 0, DONE, "--again", "--hosts", "near", "twenty.pdf", "far")
    assert sorted(path.name for path in (room / "far").glob("page-*")) == ["page-007", "page-008", "page-009"]


def test_pages_that_are_gone(room: Room) -> None:
    """A page that is gone is done again, also where a full disk has cut the log; a machine that does nothing is named, and what an
    earlier run made of its page stays."""
    room.sample("twenty.pdf")
    farm(room, 0, DONE, "--hosts", "near", "--page", "7-8", "twenty.pdf", "far")
    for path in sorted((room / "far/page-008").rglob("*"), reverse=True):
        path.rmdir() if path.is_dir() else path.unlink()
    (room / "far/page-008").rmdir()
    with open(room / "far/farm.log", "a", encoding="ascii") as log:
        log.write("3\tnear\t17")
    farm(room, 0, "^page 8: done: ", "--again", "--hosts", "near", "twenty.pdf", "far")
    farm(room, 1, "^page 7: failed: dumb started nothing and gave no reason: ", "--hosts", "dumb", "--page", "7", "twenty.pdf", "far")
    assert (room / "far/page-007").is_dir()
    farm(room, 0, "^page 7: done: ", "--again", "--hosts", "near", "twenty.pdf", "far")


def test_again_takes_the_recorded_options(room: Room) -> None:
    """--again takes the options and pages of the last run, and refuses other ones, and a file of other bytes."""
    room.sample("three.pdf", "two.pdf")
    zones = room.write("three.2.zones", "gsave\n")
    first = room.run("farm", *QUIET, "--page", "2-3", "--width", "1pt", "three.pdf", "out")
    assert first.status == 1, first
    zones.unlink()
    done = room.goes("farm", "--quiet", "--again", "three.pdf", "out")
    assert re.fullmatch(r"page 2: done: .*\n", done.out), done
    assert "/TrapWidth 1 " in (room / "out/page-002/page.job").read_text() and not (room / "out/page-001").exists()
    room.refused(2, r"press-farm: --again takes the options of the last run, which were .*--dpi=72 .*", "farm", "--again", "--dpi", "144", "three.pdf", "out")
    digests = []
    for name in ("three.pdf", "two.pdf"):
        digests.append(hashlib.sha256((room / name).read_bytes()).hexdigest()[:12])
    (room / "two.pdf").replace(room / "three.pdf")
    room.refused(8, rf"press-farm: three\.pdf: .*{digests[0]}.* then, {digests[1]}.*", "farm", "--again", "three.pdf", "out")
    room.refused(4, "press-farm: none: no run was here that could be gone on with", "farm", "--again", "three.pdf", "none")


def test_a_file_that_is_replaced_while_a_farm_is_at_work(room: Room) -> None:
    """No page is kept as done, those that had ended before neither, and --again is refused; a new run makes all pages."""
    room.sample("three.pdf", "two.pdf")
    program = os.path.realpath(room.programs / "trapsheet")
    room.script("trapsheet", f'#!/bin/sh\n! grep -q "Page 2 of" page.job || cp "{room / "two.pdf"}" "{room / "three.pdf"}"\nexec "{program}" "$@"\n')
    done = room.run("farm", *QUIET, "--jobs", "1", "three.pdf", "out", env={"TRAP_BIN": str(room.beside / "stand-ins")})
    last = dict(re.findall(r"^page (\d): (.*)", done.out, re.M))
    assert done.status == 1 and sorted(last) == ["1", "2", "3"], done
    assert all(why.startswith("failed: press-all: three.pdf: the file was replaced while it was processed (SHA-256 ") for why in last.values()), done
    assert "press-all: out: three.pdf has other bytes than at the start" in done.err
    assert sorted(path.name for path in (room / "out").glob("page-*")) == ["page-001.failed", "page-002.failed"]
    assert room.run("farm", *QUIET, "--again", "three.pdf", "out").status == 8
    room.goes("farm", *QUIET, "three.pdf", "out")
    assert sorted(path.name for path in (room / "out").glob("page-*")) == ["page-001"]


def test_json_lines(room: Room) -> None:
    """With --json there is an object for each event: a machine that is left out, each page's steps and end, the end."""
    room.sample("three.pdf")
    room.write("three.2.zones", "gsave\n")
    done = room.run("farm", *QUIET, "--json", "--jobs", "1", "--hosts", "near,down", "--page", "1-2", "three.pdf", "out", env=ssh(room))
    lines = [json.loads(line) for line in done.out.splitlines()]
    events = {name: [one for one in lines if one["event"] == name] for name in {one["event"] for one in lines}}
    assert done.status == 1 and done.err == "", done
    assert events["host-dropped"] == [{"event": "host-dropped", "host": "down", "why": "ssh: down: no route"}], done
    assert events["run-started"] == [{"event": "run-started", "path": "three.pdf", "pages": [1, 2], "count": 3, "converted": False}], done
    page, = events["page-done"]
    assert page["page"] == 1 and page["plates"] == 4 and page["seconds"] > 0 and page["disk"] > 0, page
    assert events["page-failed"][0]["page"] == 2 and "three.2.zones" in events["page-failed"][0]["why"], events["page-failed"]
    assert lines[-1] == {"event": "run-done", "failed": [2]} and len(events["run-done"]) == 1, lines


def test_names_with_anything_in_them(room: Room) -> None:
    """Neither GNU parallel nor a shell takes a part of a name for a command of its own."""
    room.sample("pair.pdf")
    place = room / "far {#}"
    place.mkdir()
    os.rename(room / "pair.pdf", place / f"{ODD_NAME}.pdf")
    farm(room, 0, "^page 1: done: ", "--hosts", "near", "--", f"{ODD_NAME}.pdf", "o {%}", cwd=place)
    assert (place / "o {%}/page-001/tiff").is_dir()
    done = room.run("farm", *QUIET, "--", f"far {{#}}/{ODD_NAME}.pdf", "far1")
    assert done.status == 0 and done.out.startswith("page 1: done: "), done
    assert not list(room.beside.rglob("ran"))


@pytest.mark.parametrize("local", [False, True])
def test_task_of_an_array_job(room: Room, local: bool) -> None:
    """farm.sbatch does one page, on the shared disk or on the node's own, where nothing is left."""
    room.sample("three.pdf")
    disk = room.beside / "disk"
    disk.mkdir()
    env = {"SLURM_ARRAY_TASK_ID": "2", "PRESS": str(COMMANDS), **({"PRESS_LOCAL": str(disk)} if local else {})}
    room.goes("farm.sbatch", "three.pdf", "out", "--dpi", "72", *(["--tiff-only"] if local else []), env=env)
    assert {path.name for path in (room / "out").iterdir()} - {"job.json"} == {"page-002"}
    if local:
        assert sorted(path.name for path in (room / "out/page-002/tiff").iterdir()) == [
            "three-2(Black).tif", "three-2(Cyan).tif", "three-2(Magenta).tif", "three-2(Yellow).tif"]
    assert not list(disk.iterdir())


@needs("sbatch", "slurmctld", "slurmd", "munged")
@pytest.mark.slow
def test_array_job_by_slurm(room: Room) -> None:
    """An array job of two tasks on two nodes has the bytes of press/all."""
    path = {"PATH": f"{room.environment['PATH']}:/usr/sbin"}
    if room.run("slurm-here", "start", "slurm", "2", env=path).status:
        pytest.skip("Slurm does not start here")
    try:
        env = {**path, "SLURM_CONF": str(room / "slurm/slurm.conf"), "PRESS": str(COMMANDS)}
        words = ["sbatch", "--wait", "--array=1-2", f"--cpus-per-task={os.cpu_count()}", "--output=slurm/page-%a.out", COMMANDS / "farm.sbatch",
                 LABEL, "array", *LABEL_DPI]
        done = subprocess.run(words, cwd=room.folder, env=room.surroundings(env), capture_output=True, text=True, timeout=900, check=False)
    finally:
        room.run("slurm-here", "stop", "slurm", env=path)
    assert done.returncode == 0, done
    room.goes("all", "--quiet", *LABEL_DPI, LABEL, "all")
    assert same_pages(room / "all", room / "array") == 2


def night_rows() -> list[tuple[str, float, int, int]]:
    """The rows of the capacity recipe: arguments, hours, and how busy processors and server are in per cent."""
    text = (TOP / "docs" / "FARM.md").read_text(encoding="utf-8")
    found = re.findall(r"^\| [^|]* \| `([^`]*)` \| ([\d.]+) \| (\d+) % \| (\d+) % \|$", text, re.M)
    return [(words, float(hours), int(busy), int(server)) for words, hours, busy, server in found]


@pytest.mark.slow
@pytest.mark.parametrize("row", night_rows()[:3:2], ids=lambda row: str(row[0]))
def test_capacity_recipe(row: tuple[str, float, int, int]) -> None:
    """The table of a night's work has all arguments with which bench/night.py gives its figures. Two of its rows are run."""
    words, hours, busy, server = row
    done = subprocess.run([sys.executable, TOP / "bench" / "night.py", *words.split()], capture_output=True, text=True, check=True)
    assert re.match(rf"{hours:.2f} hours, .* processors {busy}% busy, server {server}%,", done.stdout), done.stdout
