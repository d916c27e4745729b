# SPDX-License-Identifier: Apache-2.0
"""The parts of a hot folder: what is ready, the queue on disk, which is killed before each of its steps, the configuration file, the log."""
import errno
import json
import os
from collections.abc import Iterator
from contextlib import ExitStack
from dataclasses import replace
from pathlib import Path
from types import SimpleNamespace
from typing import Any

import pytest
from document_blocks import Block, every_block
from press.errors import PressError, Status
from press.events import PageDone
from press import files
from press.hotfolder import arrivals, jobs, status, watching
from press.hotfolder.arrivals import Arrivals, is_held, lacks_end
from press.hotfolder.claims import Claim, claim, claims
from press.hotfolder.config import Config, HotFolder, LogFile, read_config
from press.hotfolder.journal import Journal
from press.hotfolder.status import status_of
from press.hotfolder.watching import Station
from press.runs import RunResult
from press.settings import Settings
from watch_soak import version

pytestmark = [pytest.mark.plain, pytest.mark.quick]
WHOLE = version(7, 100)


def hot_folder(path: Path, **more: Any) -> HotFolder:
    """A hot folder in which a file is taken at once."""
    for name in ("done", "failed", ".claimed"):
        (path / name).mkdir(parents=True, exist_ok=True)
    return replace(HotFolder(str(path), Settings(), str(path / "done"), str(path / "failed"), settle=0), **more)


# What is ready

def test_a_file_waits_until_it_is_unchanged(tmp_path: Path) -> None:
    """A file is ready when it has been unchanged for so many seconds; a change or another file of the name begins anew."""
    now = [0.0]
    arrivals = Arrivals(hot_folder(tmp_path, settle=5), lambda: now[0])

    def ready(at: float) -> list[str]:
        now[0] = at
        return [one.name for one in arrivals.ready()]

    (tmp_path / "a.pdf").write_bytes(WHOLE)
    assert ready(0) == [] and ready(4.9) == []
    (tmp_path / "b.pdf").write_bytes(WHOLE)
    (tmp_path / "b.pdf").rename(tmp_path / "a.pdf")
    assert ready(5) == [] and ready(9) == [] and ready(10) == ["a.pdf"]


def test_an_open_file_waits(tmp_path: Path) -> None:
    """A file that a process has open to write is not ready, however long it is unchanged."""
    now = [0.0]
    arrivals = Arrivals(hot_folder(tmp_path), lambda: now[0])
    with open(tmp_path / "a.pdf", "wb", buffering=0) as file:
        file.write(WHOLE)
        assert list(arrivals.ready()) == []
        now[0] = 3600
        assert list(arrivals.ready()) == [] and is_held(str(tmp_path / "a.pdf")) is not False
    assert [one.name for one in arrivals.ready()] == ["a.pdf"]


@pytest.mark.parametrize(("data", "why"), [
    (WHOLE, None), (WHOLE + b"\0\0\n", None), (WHOLE[:300], "there is no %%EOF at its end"), (b"", "it is empty"),
    (WHOLE + b"9 0 obj\n<< /Le", "an update at its end is cut off"), (b"no page", None),
    (b"%PDF-1.7\n1 0 obj\n<< /Linearized 1 /L 90000 /H [ 1 2 ] >>\nendobj\nstartxref\n0\n%%EOF\n",
     "its first object promises 90000 bytes, and it has 82"),
    (WHOLE.replace(b"startxref\n", b"startxref\n9"), None),
    (b"%!PS-Adobe-3.0 EPSF-3.0\n0 0 moveto\n", "there is neither %%EOF nor showpage at its end"),
    (b"%!PS-Adobe-3.0\nshowpage\n0 0 moveto (x\n%%EOF\n", None), (b"%!PS-Adobe-3.0\n0 0 moveto showpage\nend\n", None),
    (b"%!\nshowpage\n", None), (b"\xc5\xd0\xd3\xc6" + (30).to_bytes(4, "little") + (100).to_bytes(4, "little") + bytes(60),
                                "its header promises 130 bytes, and it has 72")], ids=range(13))
def test_what_is_complete(tmp_path: Path, data: bytes, why: str | None) -> None:
    """A PDF, an EPS and PostScript with comments are complete if they have their end."""
    (tmp_path / "a").write_bytes(data)
    found = lacks_end(str(tmp_path / "a"))
    assert found == why if why is None else (found or "").startswith(why), found


def test_an_incomplete_file_is_waited_for(tmp_path: Path) -> None:
    """A file without its end is ready after a longer time, and is refused then."""
    now = [0.0]
    hot = hot_folder(tmp_path, wait=30)
    arrivals = Arrivals(hot, lambda: now[0])
    (tmp_path / "a.pdf").write_bytes(WHOLE[:300])
    assert list(arrivals.ready()) == []
    now[0] = 29
    assert list(arrivals.ready()) == []
    now[0] = 30
    assert [one.name for one in arrivals.ready()] == ["a.pdf"]
    station = Station(hot, Journal())
    station.arrivals = arrivals
    station.turn()
    assert (tmp_path / "failed/a/why.txt").read_text() == "incomplete: there is no %%EOF at its end\n"
    assert (tmp_path / "failed/a/a.pdf").read_bytes() == WHOLE[:300]


# The queue on disk

def pages_of(path: str, out: str, _: Settings, observer: Any) -> RunResult:
    """Stands for a run: a page that has the file's bytes."""
    os.makedirs(os.path.join(out, "page-001"))
    with open(path, "rb") as file, open(os.path.join(out, "page-001", "plates"), "wb") as made:
        made.write(file.read())
    end = PageDone(1, 4, 0, 0.1, 0)
    observer(end)
    return RunResult({1: end}, ())


@pytest.fixture(name="fake_run")
def fixture_fake_run(monkeypatch: pytest.MonkeyPatch) -> None:
    """Runs without Ghostscript."""
    monkeypatch.setattr(jobs, "run", pages_of)


def work(hot: HotFolder) -> None:
    """Does what lies in a hot folder, from a start on until there is nothing more."""
    station = Station(hot, Journal())
    station.resume()
    while list(Arrivals(hot).ready()) or station.waiting or station.jobs or station.commands or station.later:
        station.turn()


def put_in(path: Path) -> dict[str, bytes]:
    """Two versions of a file, one after the other, and one that is no page; with their bytes."""
    (path / "a.pdf").write_bytes(WHOLE)
    (path / "a.inks").write_text("Cyan\t0.6\n")
    (path / "why.txt").write_bytes(b"a note")
    return {"done/a/a.pdf": WHOLE, "failed/why/why.txt-2": b"a note"}


def test_second_version_of_a_name(tmp_path: Path, fake_run: None) -> None:
    """A file that is put in under a name that was done is done too, beside the first one."""
    hot = hot_folder(tmp_path)
    for data in (WHOLE, version(8, 0)):
        (tmp_path / "a.pdf").write_bytes(data)
        work(hot)
    assert (tmp_path / "done/a/page-001/plates").read_bytes() == WHOLE
    assert (tmp_path / "done/a-2/page-001/plates").read_bytes() == (tmp_path / "done/a-2/a.pdf").read_bytes() == version(8, 0)
    record = json.loads((tmp_path / "done/a-2/job.json").read_text())["watch"]
    assert record["state"] == "done" and record["name"] == "a.pdf" and record["why"] == []


def test_changed_while_it_is_made(tmp_path: Path, monkeypatch: pytest.MonkeyPatch) -> None:
    """A file that a writer changes after all while it is made is made again."""
    runs = []

    def changing(path: str, out: str, settings: Settings, observer: Any) -> RunResult:
        if not os.path.exists(tmp_path / ".once"):
            (tmp_path / ".once").touch()
            result = pages_of(path, out, settings, observer)
            Path(path).write_bytes(version(8, 0))
            return result
        return pages_of(path, out, settings, observer)

    monkeypatch.setattr(jobs, "run", changing)
    hot, journal = hot_folder(tmp_path), Journal()
    monkeypatch.setattr(Journal, "__call__", lambda _, event, *words, **more: runs.append(event))
    (tmp_path / "a.pdf").write_bytes(WHOLE)
    station = Station(hot, journal)
    while not (tmp_path / "done/a").exists():
        station.turn()
    assert runs == ["taken", "changed", "done"]
    assert (tmp_path / "done/a/page-001/plates").read_bytes() == (tmp_path / "done/a/a.pdf").read_bytes() == version(8, 0)


def test_written_after_it_was_claimed(tmp_path: Path, fake_run: None) -> None:
    """A claimed file whose writer still has it open is made when that one has closed it."""
    hot = hot_folder(tmp_path)
    station = Station(hot, Journal())
    with open(tmp_path / "a.pdf", "wb", buffering=0) as file:
        file.write(WHOLE[:300])
        one = claim(hot, "a.pdf")
        assert one is not None
        station.waiting.append(one)
        station.turn()
        assert not station.jobs and station.later
        file.write(WHOLE[300:])
    while not (tmp_path / "done/a").exists():
        station.turn()
    assert (tmp_path / "done/a/page-001/plates").read_bytes() == WHOLE


def test_full_disk(tmp_path: Path, fake_run: None, monkeypatch: pytest.MonkeyPatch) -> None:
    """A step that the system refuses is tried again later: the file stays claimed, and a line says why."""
    said: list[str] = []
    monkeypatch.setattr(watching, "AGAIN", 0)
    monkeypatch.setattr(Journal, "write", lambda _, text: said.append(text))
    hot = hot_folder(tmp_path)
    (tmp_path / "a.pdf").write_bytes(WHOLE)
    (tmp_path / "done").rmdir()
    (tmp_path / "done").write_text("in the way")
    station = Station(hot, Journal())
    while not any("tried again" in line for line in said):
        station.turn()
    assert [one.name for one in claims(hot)] == ["a.pdf"]
    (tmp_path / "done").unlink()
    while not (tmp_path / "done/a").exists():
        station.turn()
    assert "done: File exists: tried again" in "\n".join(said)


def test_a_file_that_cannot_be_moved(tmp_path: Path, fake_run: None, monkeypatch: pytest.MonkeyPatch) -> None:
    """A file that the system does not let go holds up no other one, and leaves no claim. It is claimed when it can be."""
    said, real, held = [], os.rename, [tmp_path / "a.pdf"]
    monkeypatch.setattr(watching, "AGAIN", 0)
    monkeypatch.setattr(Journal, "write", lambda _, text: said.append(text))

    def rename(one: Any, other: Any) -> None:
        if Path(one) in held:
            raise PermissionError(errno.EPERM, "Operation not permitted", one)
        real(one, other)

    monkeypatch.setattr(watching.os, "rename", rename)
    hot = hot_folder(tmp_path)
    for name in ("a.pdf", "b.pdf"):
        (tmp_path / name).write_bytes(WHOLE)
    station = Station(hot, Journal())
    while not (tmp_path / "done/b").exists():
        station.turn()
    station.turn()
    assert (tmp_path / "a.pdf").exists() and not os.listdir(tmp_path / ".claimed")
    assert f"a.pdf: {tmp_path}/a.pdf: Operation not permitted: tried again in 0 s" in "\n".join(said)
    held.clear()
    while not (tmp_path / "done/a").exists():
        station.turn()


def test_disk_without_room_for_a_claim(tmp_path: Path, fake_run: None, monkeypatch: pytest.MonkeyPatch) -> None:
    """The watch goes on, says once why nothing is taken, and leaves no claim."""
    said, is_full = [], [True]
    monkeypatch.setattr(Journal, "__call__", lambda _, event, *words, **more: said.append(event))
    real = files.tempfile.mkstemp

    def mkstemp(*words: Any, **more: Any) -> Any:
        if is_full[0]:
            raise OSError(errno.ENOSPC, "No space left on device")
        return real(*words, **more)

    monkeypatch.setattr(files.tempfile, "mkstemp", mkstemp)
    (tmp_path / "a.pdf").write_bytes(WHOLE)
    station = Station(hot_folder(tmp_path), Journal())
    for _ in range(3):
        station.turn()
    assert said == ["lost"] and (tmp_path / "a.pdf").exists() and not os.listdir(tmp_path / ".claimed")
    is_full[0] = False
    while not (tmp_path / "done/a").exists():
        station.turn()
    assert said == ["lost", "taken", "done"]


def test_a_file_that_cannot_be_read(tmp_path: Path, fake_run: None, monkeypatch: pytest.MonkeyPatch) -> None:
    """A file of somebody else is waited for, and then refused with the reason; others go on meanwhile."""
    now, real = [0.0], os.access
    monkeypatch.setattr(arrivals.os, "access", lambda path, how: not str(path).endswith("a.pdf") and real(path, how))
    hot = hot_folder(tmp_path)
    for name in ("a.pdf", "b.pdf"):
        (tmp_path / name).write_bytes(WHOLE)
    station = Station(hot, Journal())
    station.arrivals = Arrivals(hot, lambda: now[0])
    while not (tmp_path / "done/b").exists():
        station.turn()
    assert (tmp_path / "a.pdf").exists()
    now[0] = hot.wait
    while not (tmp_path / "failed/a").exists():
        station.turn()
    assert (tmp_path / "failed/a/why.txt").read_text() == "it cannot be read: Permission denied\n"


# The configuration file

CONFIG = """
[log]
file = "watch.log"
megabytes = 1.5
[[folder]]
path = "one"
dpi = 1200
width = "0.2mm"
inks = "house.inks"
density = ["Gold=1.5", "Silver=1"]
outputs = ["plates", "pdf"]
files = 3
lenient = true
command = ["mail", "-s", "press"]
[[folder]]
path = "/srv/two"
done = "/srv/out"
"""


def read(tmp_path: Path, text: str) -> Config:
    """A configuration file that is read."""
    (tmp_path / "watch.toml").write_text(text)
    return read_config(str(tmp_path / "watch.toml"))


def test_configuration(tmp_path: Path) -> None:
    """Each folder has its own options; paths count from the folder of the file."""
    found = read(tmp_path, CONFIG)
    one, two = found.folders
    assert found.log == LogFile(str(tmp_path / "watch.log"), 1_500_000)
    assert one.path == str(tmp_path / "one") and one.done == str(tmp_path / "one/done") and one.command == ("mail", "-s", "press")
    assert (one.settings.dpi, one.settings.inks, one.settings.density) == (1200, str(tmp_path / "house.inks"), ("Gold=1.5", "Silver=1"))
    assert one.settings.parameters["width"].text == "0.2mm" and one.files == 3 and not one.settings.strict
    assert one.settings.pdf and not one.settings.tiff_only and not one.settings.proof and not one.settings.tiff
    assert (two.path, two.done, two.failed) == ("/srv/two", "/srv/out", "/srv/two/failed")
    assert two.settings.strict and two.settings.proof and two.settings.tiff and two.settings.time == 600


@pytest.mark.parametrize(("text", "line"), [
    ("[[folder]\n", "watch.toml: no TOML: "), ("", r"watch.toml: no [[folder]] in it"), ("[folder]\npath='x'\n", r"no [[folder]] in it"),
    ("[[folder]]\n", "[[folder]] 1: path is missing"), ("[[folder]]\npath='x'\ndip=3\n", "[[folder]] 1: unknown key dip; there are path, "),
    ("[[folder]]\npath='x'\ndpi='many'\n", "[[folder]] 1: --dpi is a whole number from 1 to 10000, and not 'many'"),
    ("[[folder]]\npath='x'\n[[folder]]\npath='x'\n", "two folders have the path "),
    ("[[folder]]\npath='x'\npreset='none'\n", "[[folder]] 1: --preset: there is no none"),
    ("[[folder]]\npath='x'\noutputs=['film']\n", "[[folder]] 1: outputs: there is no film; there are tiff, plates, proof, pdf, pictures"),
    ("[[folder]]\npath='x'\noutputs=['pdf']\n", "[[folder]] 1: outputs: pdf needs plates"),
    ("[[folder]]\npath='x'\noutputs=['tiff']\npdf=true\n", "[[folder]] 1: outputs says whether there is pdf"),
    ("[[folder]]\npath='x'\ncommand='mail'\n", "[[folder]] 1: command is a list of strings, and not 'mail'"),
    ("[log]\nfile='x'\nkeep=0\n[[folder]]\npath='x'\n", "[log]: keep is a number above 0"), ("[logs]\n", "unknown key logs; there are log, folder")],
    ids=range(14))
def test_configuration_that_is_refused(tmp_path: Path, text: str, line: str) -> None:
    """A line names the file, the folder and the key."""
    with pytest.raises(PressError) as refusal:
        read(tmp_path, text)
    assert line in str(refusal.value) and str(refusal.value).startswith(str(tmp_path / "watch.toml")), str(refusal.value)
    assert refusal.value.status == Status.INPUT


@pytest.mark.parametrize("block", [one for one in every_block() if one.kind == "folders"], ids=lambda one: str(one.document))
def test_configurations_of_the_documents(tmp_path: Path, block: Block) -> None:
    """Each configuration file that a document shows is valid, and has two folders."""
    found = read(tmp_path, block.text)
    assert len(found.folders) == 2 and found.log and found.folders[0].command and found.folders[1].done.startswith("/srv/")


# The log and the status

def test_log_is_renamed_when_it_is_large(tmp_path: Path) -> None:
    """A log in a file is renamed when it has so many bytes, and so many old ones are kept."""
    journal = Journal(log=LogFile(str(tmp_path / "log"), 500, 2))
    for number in range(60):
        journal("taken", "hot", f"{number}.pdf", again=False)
    assert sorted(os.listdir(tmp_path)) == ["log", "log.1", "log.2"]
    assert all((tmp_path / name).stat().st_size <= 500 for name in os.listdir(tmp_path))
    assert (tmp_path / "log").read_text().endswith("59.pdf: taken\n")


def test_status(tmp_path: Path, fake_run: None) -> None:
    """What waits, what is claimed, and what came of the others."""
    hot = hot_folder(tmp_path)
    put_in(tmp_path)
    work(hot)
    for name in ("b.pdf", "c\n.pdf"):
        (tmp_path / name).write_bytes(WHOLE)
    claim(hot, "c\n.pdf")
    found = status_of(hot)
    assert (found["waiting"], found["done"], found["failed"], found["watched_by"]) == (["b.pdf"], 1, 1, None)
    assert [(one["name"], one["state"]) for one in found["claimed"]] == [("c\n.pdf", "claimed")]
    assert found["last_failure"]["why"].startswith("no page: PDF")


def test_status_while_a_file_is_filed(tmp_path: Path, monkeypatch: pytest.MonkeyPatch) -> None:
    """A claim that is closed while the status is read is left out."""
    hot = hot_folder(tmp_path)
    (tmp_path / "a.pdf").write_bytes(WHOLE)
    claim(hot, "a.pdf")

    def filed(folder: HotFolder) -> Iterator[Claim]:
        for one in claims(folder):
            one.close()
            yield one

    monkeypatch.setattr(status, "claims", filed)
    assert status_of(hot)["claimed"] == []


def test_another_file_system(tmp_path: Path, monkeypatch: pytest.MonkeyPatch) -> None:
    """Folders on another file system are refused before anything is taken."""
    real = os.stat

    def stat(path: Any, *words: Any, **more: Any) -> Any:
        found = real(path, *words, **more)
        return SimpleNamespace(st_dev=found.st_dev + 1, st_mode=found.st_mode) if str(path).endswith("/failed") else found

    hot = hot_folder(tmp_path)
    monkeypatch.setattr(watching.os, "stat", stat)
    with pytest.raises(PressError, match="failed: on another file system than .*: no file can be renamed into it"):
        watching.prepare(hot, ExitStack())
