# SPDX-License-Identifier: Apache-2.0
"""Traps that the editor makes in memory: the folder of a page has a whole set at any time, and the newest one before
anybody relies on it."""
import io
import itertools
import json
import os
import shutil
import signal
import time
import zipfile
from pathlib import Path

import pytest

np = pytest.importorskip("numpy")
pytest.importorskip("PIL.Image")
pytest.importorskip("starlette")

from press import engine, tools  # noqa: E402
from press.desk import keeper, trapped_set  # noqa: E402
from press.desk.page import DeskPage  # noqa: E402
from press.errors import PressError, Status  # noqa: E402
from press.folder import PageFolder  # noqa: E402
from test_desk_load import Served  # noqa: E402
from test_desk_server import (LIBRARY, SECONDS, change, fetched, files_of, make_page, open_client,  # noqa: E402
                              page_of, trapped_by_command, undone, view, wait_until_shown)

pytestmark = [pytest.mark.plain, pytest.mark.skipif(
    LIBRARY is None or not tools.has_program("trap"), reason="libtrap or the program trap is not built")]
LATER = 3600.0


@pytest.fixture(name="memory")
def fixture_memory(tmp_path, monkeypatch):
    """A folder in place of the system's memory; nothing comes to a page's folder by itself."""
    (tmp_path / "memory").mkdir()
    monkeypatch.setattr(trapped_set, "MEMORY", str(tmp_path / "memory"))
    monkeypatch.setattr(keeper, "SECONDS", LATER)
    return tmp_path / "memory"


@pytest.fixture(name="page")
def fixture_page(tmp_path):
    """The folder of a page, in a job of its own."""
    return make_page(tmp_path / "jobs" / "made" / "page-001")


def wide(client, key, width=50_000):
    """A page with wider traps, as it is shown; its folder need not have them."""
    assert change(client, key, {"TrapWidth": width}).status_code == 200
    return wait_until_shown(client, key, is_kept=False)


def is_empty(memory):
    """Whether a folder is empty soon: the page has its plates just before."""
    end = time.monotonic() + SECONDS
    while os.listdir(memory) and time.monotonic() < end:
        time.sleep(0.05)
    return not os.listdir(memory)


def test_what_is_shown_is_in_memory_at_first(page, memory, tmp_path):
    """The view is that of the command, the folder still has the set before; it has the new one when the server ends."""
    before = files_of(page)
    with open_client(page.parent.parent) as client:
        key = page_of(client)
        assert not wide(client, key)["kept"] and files_of(page) == before and os.listdir(memory)
        live = view(client, key)
    wanted = trapped_by_command(page, tmp_path / "again")
    assert files_of(page) == wanted != before and not os.listdir(memory)
    with open_client(page.parent.parent) as client:
        assert wait_until_shown(client, key)["version"] == 2 and np.array_equal(view(client, key), live)


def test_they_come_to_the_folder_after_the_last_change(page, memory, tmp_path, monkeypatch):
    """Not while somebody goes on changing the page."""
    monkeypatch.setattr(keeper, "SECONDS", 3.0)
    before = files_of(page)
    with open_client(page.parent.parent) as client:
        key, start = page_of(client), time.monotonic()
        wide(client, key)
        while time.monotonic() < start + 2:
            time.sleep(0.2)
        wide(client, key, 40_000)
        assert files_of(page) == before
        wait_until_shown(client, key)
        assert time.monotonic() > start + 5 and is_empty(memory)
        assert files_of(page) == trapped_by_command(page, tmp_path / "again")


def test_an_approval_is_of_what_the_folder_has(page, memory, tmp_path):
    """It has the plates at once; the digest is that of a server which knows the folder alone."""
    with open_client(page.parent.parent) as client:
        key = page_of(client)
        version = wide(client, key)["version"]
        said = client.post(f"/api/pages/{key}/approval", json={"verdict": "approved", "name": "Ada", "version": version})
        assert said.json()["approval"]["current"] and said.json()["kept"] and not os.listdir(memory)
        assert files_of(page) == trapped_by_command(page, tmp_path / "again")
        wide(client, key, 40_000)
        undone(client, key)
        assert wait_until_shown(client, key, is_kept=False)["approval"]["current"]
    with open_client(page.parent.parent) as client:
        assert wait_until_shown(client, key)["approval"]["current"]


@pytest.mark.parametrize("kind, name", [("plates", "Cyan.pgm"), ("report", "report"), ("report.json", "report.json")])
def test_a_download_is_of_what_is_shown(page, memory, tmp_path, kind, name):
    """Though the folder did not have it before."""
    with open_client(page.parent.parent) as client:
        key = page_of(client)
        wide(client, key)
        found = fetched(client, key, kind).content
        assert not os.listdir(memory)
    wanted = trapped_by_command(page, tmp_path / "again")[name]
    assert (zipfile.ZipFile(io.BytesIO(found)).read(name) if kind == "plates" else found) == wanted


def test_a_crash_loses_traps_and_no_job(page, memory, tmp_path):
    """What the disk has when a server ends in the middle is a whole older set and the newest job: the next server traps
    the page again, and approves nothing before."""
    before = files_of(page)
    with open_client(page.parent.parent) as client:
        wide(client, page_of(client))
        shutil.copytree(page.parent.parent, tmp_path / "after")
    left = tmp_path / "after" / "made" / "page-001"
    assert files_of(left) == before and os.listdir(memory) == []
    opened = DeskPage(str(left))
    assert opened.is_behind() and opened.shown < opened.version
    with open_client(tmp_path / "after") as client:
        key = page_of(client)
        assert wait_until_shown(client, key, is_kept=False)["settings"]["TrapWidth"] == 50_000
    assert files_of(left) == trapped_by_command(left, tmp_path / "again") != before


def test_plates_of_an_older_job_are_not_approved(page, monkeypatch):
    """Nor fetched, while a page is behind that a server left in the middle."""
    with open_client(page.parent.parent) as client:
        key = page_of(client)
        wide(client, key)
        wait_until_shown(client, key)
    job = page / "page.job"
    job.write_bytes(job.read_bytes().replace(b"/TrapWidth 5 ", b"/TrapWidth 4 "))
    monkeypatch.setattr(engine, "trap_into", lambda *_: time.sleep(SECONDS))
    opened = DeskPage(str(page))
    assert opened.version == opened.shown + 1
    with pytest.raises(PressError, match="being trapped"):
        from press.desk.outputs import need_done  # pylint: disable=import-outside-toplevel
        need_done(opened, opened.version)


def test_a_set_is_moved_as_a_whole_or_not_at_all(page, memory, tmp_path):
    """Given up before each file, it leaves what was there, and nothing else."""
    before, opened = files_of(page), DeskPage(str(page))
    opened.change(1, {**opened.state()["edits"], "settings": {"TrapWidth": 50_000}})
    made = trapped_set.make(opened.folder, opened.text, trapped_set.memory_folder(opened.folder), lambda _: None)
    assert opened.take_trapped(2, made)
    for asked in itertools.count():
        left = iter(range(asked))
        opened.bring(lambda left=left: next(left, None) is not None)
        if not opened.trapped.is_in_memory:
            break
        assert files_of(page) == before and opened.is_behind()
        assert not [one.name for one in page.iterdir() if one.name.startswith(".press")]
    assert asked > len(before) - 1 and not opened.is_behind() and not os.listdir(memory)
    assert files_of(page) == trapped_by_command(page, tmp_path / "again") != before


def test_without_room_in_memory_the_folder_is_written_at_once(page, memory, tmp_path, monkeypatch):
    """If there is no such place, or too little room, or the page is too large for it, or memory runs out on the way."""
    def full(*_):
        raise PressError(Status.PROGRAM, "trapsheet ended with 8: write plate 0: No space left on device")
    cases = ((trapped_set, "MEMORY", str(tmp_path / "nowhere")), (trapped_set, "free_memory", lambda: 1000),
             (trapped_set, "MOST_IN_MEMORY", 1000), (engine, "trap_into", full))
    with open_client(page.parent.parent) as client:
        key = page_of(client)
        for number, case in enumerate(cases):
            with monkeypatch.context() as patch:
                if case[1] == "trap_into":
                    patch.setattr(trapped_set.engine, "trap_into", fails_once(full))
                else:
                    patch.setattr(*case)
                assert wide(client, key, 30_000 + 1_000 * number)["kept"], case[1]
            assert files_of(page) == trapped_by_command(page, tmp_path / f"again-{number}")
            assert not os.listdir(memory)


def fails_once(fault):
    """The engine's function, after a first call that fails."""
    own, calls = engine.trap_into, itertools.count()

    def called(*words):
        return own(*words) if next(calls) else fault()
    return called


def test_a_full_disk_is_a_message(page, memory, monkeypatch):
    """The plates stay in memory and are shown; they come to the folder once it takes them."""
    before = files_of(page)
    with open_client(page.parent.parent) as client:
        key = page_of(client)
        wide(client, key)
        with monkeypatch.context() as patch:
            def full(*_):
                raise OSError(28, "No space left on device")
            patch.setattr(trapped_set.shutil, "copyfile", full)
            answer = client.post(f"/api/pages/{key}/outputs/report", json={})
            assert answer.status_code == 422 and "No space left" in answer.json()["error"]
            assert files_of(page) == before and os.listdir(memory)
        assert fetched(client, key, "report").content == (page / "trapped" / "report").read_bytes()
        assert files_of(page) != before


def test_a_signal_brings_what_is_in_memory(page, tmp_path):
    """Within two seconds, and nothing is left in the system's memory."""
    served = Served(page.parent.parent)
    try:
        key = json.loads(served.ask("/api/jobs")[1])[0]["pages"][0]["id"]
        found = json.loads(served.ask(f"/api/pages/{key}")[1])
        edits = {**found["edits"], "settings": {"TrapWidth": 50_000}}
        assert served.ask(f"/api/pages/{key}/edits", {"version": 1, "edits": edits})[0] == 200
        end = time.monotonic() + SECONDS
        while found["shown"] < 2 and time.monotonic() < end:
            found = json.loads(served.ask(f"/api/pages/{key}")[1])
        start = time.monotonic()
        served.process.send_signal(signal.SIGTERM)
        assert served.process.wait(SECONDS) == 0
        assert time.monotonic() - start < 2 + os.getloadavg()[0] / (os.cpu_count() or 1)
    finally:
        served.process.kill()
        served.process.communicate()
    assert files_of(page) == trapped_by_command(page, tmp_path / "again")
    assert not list(Path("/dev/shm").glob(f".press-{served.process.pid}-*"))


def test_keepaway_is_in_memory_too(page, memory, tmp_path):
    """The plates that traps begin from, and what the record says of them."""
    job = page / "page.job"
    job.write_bytes(job.read_bytes().replace(b"showpage", b"<< /BlackDensityLimit 0.5 >> settrapparams\nshowpage"))
    engine.trap(PageFolder.read(str(page)), engine.Settings())
    with open_client(page.parent.parent) as client:
        key = page_of(client)
        wide(client, key)
        live = view(client, key)
        assert os.listdir(memory)
        fetched(client, key, "report")
        assert np.array_equal(view(client, key), live)
    assert files_of(page) == trapped_by_command(page, tmp_path / "again")
