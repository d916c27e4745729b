# SPDX-License-Identifier: Apache-2.0
"""The record of a job, and the file that a folder OUT belongs to."""
import json
import os
import re
import shutil
from pathlib import Path
from typing import Any

import pytest
from press import identity, job_record, recorded
from press.errors import PressError
from press.folder import JobFolder
from press.settings import Settings, parameters
from room import LONGEST, Room
from small_pdf import page, pdf

ALL = ("all", "--quiet", "--no-proof", "--dpi", "72")
GRAY, CYAN, PAIR = "0.4 g 10 10 60 20 re f", "1 0 0 0 k 10 10 60 20 re f", "1 0 0 0 k 10 10 40 28 re f 0 1 0 0 k 50 10 40 28 re f"


def pages_of(path: Path, *contents: str) -> None:
    """Writes a PDF of pages with these contents."""
    pdf(str(path), [page([], one) for one in contents])


def files_of(folder: Path) -> dict[str, bytes]:
    """The files of a folder."""
    return {str(path.relative_to(folder)): path.read_bytes() for path in folder.rglob("*") if path.is_file()}


def record(folder: Path) -> dict[str, Any]:
    """The record in a folder."""
    found: dict[str, Any] = json.loads((folder / "job.json").read_text(encoding="utf-8"))
    return found


@pytest.mark.plain
def test_a_record_keeps_what_it_does_not_know(tmp_path: Path) -> None:
    """Keys of other commands stay, names need not be UTF-8, and a damaged record is refused and stays."""
    with job_record.changing_record(str(tmp_path)) as found:
        found.update(file={"name": "a\udcff\n.pdf", "bytes": 1, "sha256": "00"}, later={"key": [1]})
    assert (tmp_path / "job.json").read_bytes().decode("utf-8").startswith('{\n "schema": 1,')
    with job_record.changing_record(str(tmp_path)) as found:
        found["pages"] = {}
    kept = job_record.read_record(str(tmp_path))
    assert kept["later"] == {"key": [1]} and job_record.file_of(kept) == job_record.InputFile("a\udcff\n.pdf", 1, "00")
    for text in ("{", "[1]", '{"pages": 1}'):
        (tmp_path / "job.json").write_text(text)
        with pytest.raises(PressError, match="no record of a job"), job_record.changing_record(str(tmp_path)):
            pass
        assert (tmp_path / "job.json").read_text() == text and os.listdir(tmp_path) == ["job.json"]


@pytest.mark.plain
def test_options_come_back(tmp_path: Path, monkeypatch: pytest.MonkeyPatch) -> None:
    """Settings that are recorded are the same when they are read again, from another folder too."""
    monkeypatch.chdir(tmp_path)
    (tmp_path / "own.zones").write_text("")
    (tmp_path / "below").mkdir()
    given = Settings(dpi=300, box="trim", density=("A B=1.5", "C=2"), zones="own.zones", preset="offset", strict=True, over_images=False,
                     proof=False, parameters=parameters("offset", width="0.1mm"))
    options = recorded.options_from(given, "out")
    assert options["zones"] == "../own.zones" and options["width"] == "0.1mm" and "step" not in options
    assert recorded.settings_from(options, "out") == given
    monkeypatch.chdir(tmp_path / "below")
    assert recorded.settings_from(options, "../out") == given.but(zones="../own.zones")


@pytest.mark.usefixtures("built")
def test_record_of_a_run(room: Room) -> None:
    """The file, its options, and for each page its box, resolution and inks, in OUT and in the folder of the page."""
    room.sample("cropped.pdf", "two.pdf")
    room.goes(*ALL, "--box", "crop", "cropped.pdf", "out")
    data = (room / "cropped.pdf").read_bytes()
    found = record(room / "out")
    assert found["file"] == {"name": "cropped.pdf", "bytes": len(data), "sha256": job_record.digest_of(str(room / "cropped.pdf"))}
    assert found["options"] == {"dpi": 72, "box": "crop", "no-proof": True}
    one = found["pages"]["1"]
    assert one["box"] == {"name": "crop", "points": [10, 5, 110, 43]} and (one["resolution"], one["width"], one["height"]) == (72, 100, 38)
    assert [(ink["name"], ink["kind"], ink["blank"]) for ink in one["inks"]] == [
        ("Cyan", "Normal", False), ("Magenta", "Normal", False), ("Yellow", "Normal", True), ("Black", "Normal", True)]
    part = record(room / "out/page-001")
    assert part["pages"] == {"1": one} and part["file"] == found["file"]
    room.goes("plates", "two.pdf", "two", "--dpi", "72")
    assert {ink["name"] for ink in record(room / "two")["pages"]["1"]["inks"]} >= {"Warm Red", "Gold Foil"}


@pytest.mark.usefixtures("built")
def test_a_folder_belongs_to_one_file(room: Room) -> None:
    """Pages of another file are refused, with and without their record; --force replaces them."""
    pages_of(room / "first.pdf", GRAY, CYAN, PAIR)
    pages_of(room / "second.pdf", PAIR)
    room.goes("all", "--quiet", "--dpi", "72", "first.pdf", "out")
    line = r"press-all: out: has the pages of first\.pdf, and not of second\.pdf: take another folder \(--force replaces them\)"
    room.refused(8, line, *ALL, "second.pdf", "out")
    kept = (room / "out/job.json").read_bytes()
    (room / "out/job.json").unlink()
    room.refused(8, line, *ALL, "second.pdf", "out")
    (room / "out/job.json").write_bytes(kept)
    room.goes("all", "--quiet", "--dpi", "72", "--force", "second.pdf", "out")
    assert sorted(os.listdir(room / "out")) == ["job.json", "page-001", "proof.html"]
    assert record(room / "out")["file"]["name"] == "second.pdf" and list(record(room / "out")["pages"]) == ["1"]
    sheet = (room / "out/proof.html").read_text()
    assert "Proof of second.pdf" in sheet and "first.pdf" not in sheet


@pytest.mark.usefixtures("built")
def test_other_bytes_of_the_name(room: Room) -> None:
    """Pages are made anew, those that the file has no more are removed, and approvals lapse."""
    pages_of(room / "job.pdf", GRAY, CYAN, PAIR)
    room.goes(*ALL, "--pdf", "job.pdf", "out")
    with job_record.changing_record(str(room / "out")) as found:
        found["desk"] = {"1": {"approval": {"verdict": "approved", "name": "Ada"}, "notes": [{"text": "thin"}]}}
    room.goes(*ALL, "job.pdf", "out")
    assert "lapsed" not in record(room / "out")["desk"]["1"]["approval"]
    before = record(room / "out")["file"]["sha256"]
    pages_of(room / "job.pdf", PAIR, GRAY)
    room.goes(*ALL, "job.pdf", "out")
    assert sorted(os.listdir(room / "out")) == ["job.json", "page-001", "page-002"]
    found = record(room / "out")
    assert "lapsed" in found["desk"]["1"]["approval"] and found["desk"]["1"]["notes"] == [{"text": "thin"}]
    assert {one["sha256"] for one in found["pages"].values()} == {found["file"]["sha256"]} != {before}


@pytest.mark.usefixtures("built")
def test_a_page_of_other_bytes(room: Room) -> None:
    """One page of a file with other bytes is refused; by --force it is made, and the preview leaves the old pages out."""
    pages_of(room / "job.pdf", GRAY, CYAN)
    room.goes("all", "--quiet", "--dpi", "72", "job.pdf", "out")
    pages_of(room / "job.pdf", PAIR, CYAN)
    room.refused(8, r"press-all: out: its pages are of other bytes of job\.pdf \(SHA-256 [0-9a-f]{12}\.\. then, [0-9a-f]{12}\.\. now\): .*",
                 "all", "--quiet", "--page", "1", "job.pdf", "out")
    room.goes("all", "--quiet", "--page", "1", "--force", "job.pdf", "out")
    assert list(JobFolder(str(room / "out")).pages()[0]) == [1] and (room / "out/page-002").is_dir()
    assert 'id="page-2"' not in (room / "out/proof.html").read_text() and 'id="page-1"' in (room / "out/proof.html").read_text()


def replaced_by(room: Room, moment: str) -> dict[str, str]:
    """The environment of a run in which the PDF is replaced when page 2 is trapped, in place or by a new file."""
    program = os.path.realpath(room.programs / "trapsheet")
    room.script("trapsheet", f'#!/bin/sh\ncase "$*" in *page.job*) if grep -q "Page 2 of" page.job; then {moment}; fi ;; esac\nexec "{program}" "$@"\n')
    return {"TRAP_BIN": str(room.beside / "stand-ins")}


@pytest.mark.usefixtures("built")
@pytest.mark.parametrize("how", ["cp", "mv", "rm"])
def test_a_file_that_is_replaced_while_it_is_processed(room: Room, how: str) -> None:
    """No page of the run is called done, each has its line, and the next run makes all pages of the new bytes."""
    pages_of(room / "job.pdf", GRAY, CYAN, PAIR)
    pages_of(room / "later.pdf", PAIR, PAIR, PAIR)
    shutil.copyfile(room / "later.pdf", room / "kept.pdf")
    moment = f"rm -f '{room / 'job.pdf'}'" if how == "rm" else f"[ ! -e '{room / 'later.pdf'}' ] || {how} '{room / 'later.pdf'}' '{room / 'job.pdf'}'"
    done = room.run(*ALL, "job.pdf", "out", env=replaced_by(room, moment))
    what = "the file was taken away while it was processed" if how == "rm" else "the file was replaced while it was processed"
    assert done.status == 1 and done.out.count("failed: press-all: job.pdf: " + what) == 3, done
    assert sorted(name for name in os.listdir(room / "out") if name.startswith("page")) == [f"page-00{page}.failed" for page in (1, 2, 3)]
    shutil.copyfile(room / "kept.pdf", room / "job.pdf")
    room.goes(*ALL, "job.pdf", "out")
    assert sorted(os.listdir(room / "out")) == ["job.json", "page-001", "page-002", "page-003"]
    assert (room / "out/page-001/Cyan.pgm").read_bytes() == (room / "out/page-003/Cyan.pgm").read_bytes()


@pytest.mark.plain
def test_digests_are_taken_again_only_if_the_system_shows_a_change(tmp_path: Path, monkeypatch: pytest.MonkeyPatch) -> None:
    """A file that was written to long before the start, and not since, is not read a second time."""
    path = tmp_path / "job.pdf"
    path.write_bytes(b"one")
    os.utime(path, ns=(0, 0))
    taken = identity.take(str(path))
    monkeypatch.setattr(identity, "RACY_NS", -10**12)
    assert taken.is_untouched() and taken.changed_line() is None
    path.write_bytes(b"one")
    assert not taken.is_untouched() and taken.changed_line() is None
    path.write_bytes(b"two")
    assert "the file was replaced while it was processed (SHA-256 7692c3ad3540.. at the start, 3fc4ccfe7458.. now)" in str(taken.changed_line())


@pytest.mark.usefixtures("built")
def test_a_page_made_again_uses_the_recorded_options(room: Room) -> None:
    """The same bytes as before, from another folder too; other options are refused without --force, which keeps the rest."""
    pages_of(room / "job.pdf", GRAY, PAIR)
    room.write("own.zones", "<< /TrapWidth 2 >> settrapparams\n")
    (room / "below").mkdir()
    room.goes("all", "--quiet", "--dpi", "72", "--box", "crop", "--zones", "own.zones", "--preset", "offset", "--no-proof", "job.pdf", "out")
    folder = room / "out/page-002"
    before = files_of(folder)
    shutil.rmtree(folder)
    room.goes("all", "--quiet", "--page", "2", "job.pdf", "out")
    assert files_of(folder) == before
    room.goes("all", "--quiet", "--page", "2", "--dpi", "72", "../job.pdf", "../out", cwd=room / "below")
    assert {name for name, data in files_of(folder).items() if before.get(name) != data} <= {"page.job", "job.json", "warnings.txt"}
    for option, was, now in (("dpi", "--dpi 72", "--dpi 600"), ("width", "no --width", "--width 1mm"), ("look", "no --look", "--look")):
        line = (rf"press-all: --{option}: page 2 of out was made with {was}, and not with {now} \(without it the recorded options are used; "
                r"--force makes the page with other ones\) \(see press-all --help\)")
        room.refused(2, line, "all", "--quiet", "--page", "2", *now.split(), "job.pdf", "out")
    room.goes("all", "--quiet", "--page", "2", "--pdf", "--time", "500", "job.pdf", "out")
    assert (room / "out/job-trapped.pdf").is_file()
    room.goes("all", "--quiet", "--page", "2", "--dpi", "36", "--force", "job.pdf", "out")
    found = record(room / "out")
    assert found["options"]["dpi"] == 72 and found["pages"]["2"]["options"] == {**found["pages"]["1"]["options"], "dpi": 36}
    room.refused(2, r"press-all: --page: pages 1 and 2 of out were made with different options: make them one after the other .*", "all",
                 "--quiet", "--page", "1,2", "job.pdf", "out")


@pytest.mark.usefixtures("built")
@pytest.mark.parametrize("kept", ["plates", "TIFF files"])
def test_only_changed(room: Room, kept: str) -> None:
    """A page with the same plates, job and options keeps its results, edits and approval among them; the others are made anew."""
    options = ["--tiff-only"] if kept == "TIFF files" else []
    pages_of(room / "job.pdf", GRAY, PAIR, CYAN)
    room.goes("all", "--quiet", "--dpi", "288", *options, "job.pdf", "out")
    with job_record.changing_record(str(room / "out")) as found:
        found["desk"] = {"1": {"approval": {"verdict": "approved"}}}
    with open(room / "out/page-001/page.job", "a", encoding="ascii") as file:
        file.write("% edited\n")
    report = (room / "out/page-001/trapped/report").stat()
    pages_of(room / "job.pdf", GRAY, PAIR.replace("50 10", "48 10"))
    done = room.goes("all", "--quiet", "--dpi", "288", *options, "--only-changed", "job.pdf", "out")
    assert re.fullmatch(r"page 1: done: not changed, its results are kept; .*\npage 2: done: 4 plates, [1-9]\d* samples changed, .*\n", done.out), done
    assert (room / "out/page-001/trapped/report").stat() == report
    assert (room / "out/page-001/page.job").read_text().endswith("% edited\n")
    found = record(room / "out")
    assert list(found["pages"]) == ["1", "2"] and "lapsed" not in found["desk"]["1"]["approval"]
    assert {one["sha256"] for one in found["pages"].values()} == {found["file"]["sha256"]} == {record(room / "out/page-001")["file"]["sha256"]}
    done = room.goes("all", "--quiet", "--dpi", "288", *options, "--only-changed", "--step", "0.5", "job.pdf", "out")
    assert "kept" not in done.out, done
    found = record(room / "out/page-001")
    (room / "out/page-001/job.json").write_text(json.dumps({**found, "version": "0.1"}))
    done = room.goes("all", "--quiet", "--dpi", "288", *options, "--only-changed", "--step", "0.5", "job.pdf", "out")
    assert [line for line in done.out.splitlines() if "kept" in line] == [done.out.splitlines()[1]], done


@pytest.mark.usefixtures("built")
def test_json_lines(room: Room) -> None:
    """Each event is an object on a line of its own, a refusal too; nothing else is on standard output."""
    pages_of(room / "job.pdf", GRAY, CYAN)
    room.write("job.2.zones", "gsave\n")
    done = room.run("all", "--json", "--dpi", "72", "--no-proof", "job.pdf", "out")
    events = [json.loads(line) for line in done.out.splitlines()]
    assert done.status == 1 and not done.err, done
    assert events[0] == {"event": "run-started", "path": "job.pdf", "pages": [1, 2], "count": 2, "converted": False}
    assert events[-1] == {"event": "run-done", "failed": [2]}
    findings = {one["kind"]: one for one in events if one["event"] == "finding" and one["page"] is None}
    assert findings["trap-width"]["level"] == "warning" and "nothing is trapped" in findings["trap-width"]["text"]
    ends = {one["page"]: one for one in events if one["event"] in ("page-done", "page-failed")}
    assert ends[1]["plates"] == 4 and ends[1]["kept"] is False and ends[2]["status"] == 9 and "job.2.zones: line 1" in ends[2]["why"]
    done = room.run("all", "--json", "none.pdf", "out")
    assert done.status == 4 and done.err == "press-all: none.pdf: No such file or directory\n"
    assert json.loads(done.out) == {"event": "refused", "status": 4, "place": "none.pdf", "text": "No such file or directory"}


@pytest.mark.usefixtures("built")
def test_trapped_pdf_by_the_record(room: Room) -> None:
    """press/pdf takes the box and the profile of the record, and warns of a file with other bytes than the pages were made of."""
    room.sample("cropped.pdf")
    room.goes(*ALL, "--box", "crop", "cropped.pdf", "out")
    assert "verified" in room.goes("pdf", "cropped.pdf", "trapped.pdf", "out").out
    room.write("later.pdf", (room / "cropped.pdf").read_bytes() + b"% later\n")
    line = r"later\.pdf: page 1 was made of other bytes than this file has \(SHA-256 [0-9a-f]{12}\.\. then, [0-9a-f]{12}\.\. now\)"
    assert re.search(f"press-pdf: warning: {line}", room.goes("pdf", "later.pdf", "trapped.pdf", "out").err)
    room.refused(10, rf"press-pdf: {line} \(--strict\)", "pdf", "--strict", "later.pdf", "trapped.pdf", "out")
    part = record(room / "out/page-001")
    part["pages"]["1"]["options"]["icc"] = "../none.icc"
    (room / "out/page-001/job.json").write_text(json.dumps(part))
    room.refused(4, r"press-pdf: none\.icc: page 1 was drawn by this profile, which is not there \(--icc names another\)", "pdf", "cropped.pdf",
                 "trapped.pdf", "out")


@pytest.mark.usefixtures("built")
def test_runs_of_single_pages_at_the_same_time(room: Room) -> None:
    """Each page is in the record, whichever run ends last."""
    pages_of(room / "job.pdf", GRAY, CYAN, PAIR)
    runs = [room.start(*ALL, "--page", str(page), "job.pdf", "out", log=f"page{page}") for page in (1, 2, 3)]
    assert [child.wait(LONGEST) for child in runs] == [0, 0, 0], [room.complained(f"page{page}") for page in (1, 2, 3)]
    assert list(record(room / "out")["pages"]) == ["1", "2", "3"] and not room.left_over()
