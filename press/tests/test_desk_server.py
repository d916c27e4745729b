# SPDX-License-Identifier: Apache-2.0
"""The trap editor's server without a browser: pages, changes, conflicts, and whoever may not ask."""
import asyncio
import io
import json
import os
import queue
import shutil
import socket
import subprocess
import tempfile
import time
import zipfile
from pathlib import Path

import pytest

np = pytest.importorskip("numpy")
image = pytest.importorskip("PIL.Image")
testclient = pytest.importorskip("starlette.testclient")

from press import engine, tools  # noqa: E402
from press.folder import PageFolder, PageSource, write_table  # noqa: E402
from press.inks import Ink  # noqa: E402
from press.job import write_job  # noqa: E402
from press.job_language import read_job  # noqa: E402
from press.picture import Painter  # noqa: E402
from press.plates import write_pgm  # noqa: E402
from press.settings import Settings  # noqa: E402

LIBRARY = tools.library()
pytestmark = [pytest.mark.plain, pytest.mark.skipif(
    LIBRARY is None or not tools.has_program("trap"), reason="libtrap or the program trap is not built")]
if LIBRARY:
    os.environ.setdefault("TRAP_LIBRARY", LIBRARY)

from press.desk.colours import GAP  # noqa: E402
from press.desk.guard import LOOPBACK, allowed_hosts  # noqa: E402
from press.desk.page import DeskPage  # noqa: E402
from press.desk import history, keeper, runs  # noqa: E402
from press.desk.job_queue import TooMuch  # noqa: E402
from press.desk.serve import Where, bound_socket  # noqa: E402
from press.desk.server import application, in_time  # noqa: E402
from press.desk.said import digest_of
from press.desk.store import Store  # noqa: E402
from press.desk.uploads import colorants_of, plain_name  # noqa: E402

PORT = 8631
BASE = f"http://127.0.0.1:{PORT}"
WIDTH, HEIGHT, DPI = 160, 120, 72
SECONDS = 60
# Tests that read a page's folder need not wait long for its plates.
keeper.SECONDS = 0.1


def make_page(folder: Path, maxval: int = 255, number: int = 1, has_lines: bool = False) -> Path:
    """A trapped page: a cyan disc on magenta, black type-like bars, and an empty yellow plate; and thin cyan lines."""
    folder.mkdir(parents=True)
    rows, columns = np.mgrid[:HEIGHT, :WIDTH]
    disc = (rows - 60) ** 2 + (columns - 60) ** 2 < 40 ** 2
    bars = (columns > 110) & (columns // 4 % 2 == 0)
    if has_lines:
        disc |= (columns < 108) & (rows > 104) & (rows < 110)
    marks = {"Cyan": disc, "Magenta": ~disc, "Yellow": np.zeros_like(disc), "Black": bars}
    inks = tuple(Ink(name, name.encode(), name.encode(), density, has_ink=bool(marks[name].any()))
                 for name, density in (("Cyan", "0.61"), ("Magenta", "0.76"), ("Yellow", "0.16"), ("Black", "1.70")))
    for name, mark in marks.items():
        tints = np.where(mark, 0, maxval).astype("u1" if maxval < 256 else ">u2")
        write_pgm(str(folder / f"{name}.pgm"), tints, maxval)
    source = PageSource(b"made.pdf", number, DPI)
    (folder / "page.job").write_bytes(write_job(source, inks, []).text.replace(
        b"showpage", b"<< /TrapWidth 2 >> settrapparams\nshowpage"))
    write_table(str(folder), source, inks)
    engine.trap(PageFolder.read(str(folder)), Settings())
    return folder


@pytest.fixture(name="folder")
def fixture_folder(tmp_path):
    """A folder with one job of one page."""
    make_page(tmp_path / "jobs" / "made" / "page-001")
    return tmp_path / "jobs"


@pytest.fixture(name="client")
def fixture_client(folder):
    """A browser without a window."""
    with open_client(folder) as client:
        yield client


def open_client(folder, token=None):
    """A browser of a server of its own."""
    app = application(Store(str(folder)), allowed_hosts(LOOPBACK, PORT), token)
    return testclient.TestClient(app, base_url=BASE, headers={"origin": BASE})


def page_of(client):
    """The id of the only page."""
    (job,) = client.get("/api/jobs").json()
    return job["pages"][0]["id"]


def change(client, key, settings=None, zones=(), version=None):
    """Edits a page on its newest version, or on one that is given."""
    version = version or client.get(f"/api/pages/{key}").json()["version"]
    edits = {"settings": settings or {}, "zones": list(zones), "inks": {}}
    return client.post(f"/api/pages/{key}/edits", json={"version": version, "edits": edits})


def wait_until_shown(client, key, is_kept=True):
    """The page once its plates are those of its job; and once its folder has them, unless that is not asked for."""
    end = time.monotonic() + SECONDS
    while time.monotonic() < end:
        page = client.get(f"/api/pages/{key}").json()
        if page["version"] == page["shown"] and not page["preview"] and (page["kept"] or not is_kept):
            return page
        time.sleep(0.05)
    raise AssertionError("the page was not trapped")


def trapped_by_command(page: Path, scratch: Path) -> dict[str, bytes]:
    """The files that the engine makes of a copy of the page's folder."""
    shutil.copytree(page, scratch)
    engine.trap(PageFolder.read(str(scratch)), Settings())
    return files_of(scratch)


def files_of(page: Path) -> dict[str, bytes]:
    """The trapped plates and reports of a page, and the plates that trapping began from."""
    trapped = page / "trapped"
    return {str(one.relative_to(trapped)): one.read_bytes() for one in trapped.rglob("*") if one.is_file()}


def zone(**settings):
    """A rectangular zone with settings of its own."""
    corners = [[20, 20], [100, 20], [100, 80], [20, 80]]
    return {"name": "panel", "points": corners, "settings": settings, "overImages": False}


def view(client, key, **more):
    """The pixels of a part of the page."""
    asked = {"left": 5, "top": 7, "width": 140, "height": 100, "mode": "after", "inks": 65535, **more}
    answer = client.post(f"/api/pages/{key}/view", json=asked)
    assert answer.status_code == 200, answer.text
    return np.frombuffer(answer.content, "u4")


def test_a_page_is_described(client):
    """Sides, inks and settings as the folder has them."""
    page = client.get(f"/api/pages/{page_of(client)}").json()
    assert (page["width"], page["height"], page["dpi"]) == (WIDTH, HEIGHT, DPI)
    assert [ink["title"] for ink in page["inks"]] == ["Cyan", "Magenta", "Yellow", "Black"]
    assert page["settings"]["TrapWidth"] == 20_000 and page["edits"] == {
        "settings": {}, "zones": [], "inks": {}, "off": [], "keepaway": None}


@pytest.mark.parametrize("settings, zones", [
    ({"TrapWidth": 40_000}, ()), ({"TrapWidth": 30_000, "BlackWidth": 20_000}, ()),
    ({}, (zone(TrapWidth=50_000),)), ({}, (zone(Enabled=False),))])
def test_a_change_is_that_of_the_command(client, folder, tmp_path, settings, zones):
    """At once in the view, and when the page is done in every file, byte for byte."""
    key, page = page_of(client), folder / "made" / "page-001"
    before = view(client, key)
    answer = change(client, key, settings, zones)
    assert answer.status_code == 200 and answer.json()["version"] == 2
    live = view(client, key)
    wait_until_shown(client, key)
    assert np.array_equal(live, view(client, key)) and not np.array_equal(live, before)
    assert files_of(page) == trapped_by_command(page, tmp_path / "again")


def test_a_zone_changes_pixels_inside_it_alone(client, folder):
    """With traps off also as far outside as the page's trap reaches: half a pixel more than its width, cut."""
    key = page_of(client)
    plates = [np.array(one) for one in PageFolder.read(str(folder / "made" / "page-001")).plates(True).arrays]
    change(client, key, {}, (zone(Enabled=False),))
    wait_until_shown(client, key)
    now = PageFolder.read(str(folder / "made" / "page-001")).plates(True).arrays
    changed = np.any([old != new for old, new in zip(plates, now)], axis=0)
    rows, columns = np.nonzero(changed)
    far = np.maximum.reduce([20 - columns, columns - 99, 20 - rows, rows - 79, np.zeros_like(rows)])
    assert changed.any() and far.max() <= int(2 * DPI / 72 + 0.5)


def test_the_second_of_two_changes_on_one_version_is_refused(client):
    """Nothing is lost: the first stands, and the second is told of it."""
    key = page_of(client)
    assert change(client, key, {"TrapWidth": 30_000}, version=1).status_code == 200
    answer = change(client, key, {"TrapWidth": 50_000}, version=1)
    assert answer.status_code == 409 and "newest is 2" in answer.json()["error"]
    assert client.get(f"/api/pages/{key}").json()["settings"]["TrapWidth"] == 30_000


def test_undo_and_redo_give_the_job_back_byte_for_byte(client, folder):
    """The job's file too."""
    key, job = page_of(client), folder / "made" / "page-001" / "page.job"
    first = job.read_bytes()
    change(client, key, {"TrapWidth": 30_000}, (zone(TrapWidth=10_000),))
    second = job.read_bytes()
    assert client.post(f"/api/pages/{key}/undo", json={"version": 2}).json()["canRedo"]
    assert job.read_bytes() == first != second
    assert client.post(f"/api/pages/{key}/redo", json={"version": 3}).json()["edits"]["zones"][0]["name"] == "panel"
    assert job.read_bytes() == second
    assert client.post(f"/api/pages/{key}/redo", json={"version": 4}).status_code == 400


@pytest.mark.parametrize("settings, zones, status", [
    ({"TrapWidth": 2_000_000}, (), 422), ({"TrapWidth": 0}, (), 422), ({"Colour": 1}, (), 400),
    ({"Enabled": 1}, (), 400),
    ({}, ({**zone(), "points": [[0, 0], [5, 5]]},), 400), ({}, ({**zone(), "points": [["a", 0]] * 3},), 400),
    ({}, (zone(),) * 201, 400)])
def test_bad_edits_are_refused_and_change_nothing(client, folder, settings, zones, status):
    """With a line that says why; the job stays."""
    key, job = page_of(client), folder / "made" / "page-001" / "page.job"
    before = job.read_bytes()
    answer = change(client, key, settings, zones)
    assert answer.status_code == status and answer.json()["error"]
    assert job.read_bytes() == before and client.get(f"/api/pages/{key}").json()["version"] == 1


def test_a_view_of_changes_is_the_view(client):
    """The changed pixels over the picture before are the picture after."""
    key = page_of(client)
    change(client, key, {"TrapWidth": 60_000})
    picture, changes = view(client, key, mode="before").copy(), view(client, key, delta=True)
    count = changes.size // 2
    picture[changes[:count]] = changes[count:]
    assert count and np.array_equal(picture, view(client, key))


def test_the_answer_to_a_change_has_what_is_visible(client, folder):
    """The page, and behind it the pixels; undo has them too. With a view that is none nothing is changed."""
    key, job = page_of(client), folder / "made" / "page-001" / "page.job"
    before, asked = job.read_bytes(), {"left": 5, "top": 7, "width": 140, "height": 100, "mode": "after", "inks": 65535}
    edits = {"settings": {"TrapWidth": 60_000}, "zones": [], "inks": {}}
    first = view(client, key)

    def page_and_pixels(answer):
        length = int.from_bytes(answer.content[:4], "little")
        return json.loads(answer.content[4:4 + length]), np.frombuffer(answer.content[4 + length:], "u4")
    page, pixels = page_and_pixels(client.post(
        f"/api/pages/{key}/edits", json={"version": 1, "edits": edits, "view": asked}))
    assert page["version"] == 2 and page["settings"]["TrapWidth"] == 60_000
    assert np.array_equal(pixels, view(client, key)) and not np.array_equal(pixels, first)
    page, pixels = page_and_pixels(client.post(f"/api/pages/{key}/undo", json={"version": 2, "view": asked}))
    assert page["version"] == 3 and np.array_equal(pixels, first)
    bad = {"version": 3, "edits": edits, "view": {**asked, "left": WIDTH}}
    assert client.post(f"/api/pages/{key}/edits", json=bad).status_code == 400
    assert job.read_bytes() == before and client.get(f"/api/pages/{key}").json()["version"] == 3


def test_plates_out_of_register_are_drawn_so(client):
    """A plate that is moved by whole pixels; paper comes in at the border."""
    key, shifts = page_of(client), [[3, -2], [0, 0], [0, 0], [0, 0]]
    still = view(client, key, inks=1, left=0, top=0, width=WIDTH, height=HEIGHT).reshape(HEIGHT, WIDTH)
    moved = view(client, key, inks=1, left=0, top=0, width=WIDTH, height=HEIGHT, shifts=shifts)
    moved = moved.reshape(HEIGHT, WIDTH)
    assert np.array_equal(moved[:-2, 3:], still[2:, :-3]) and set(moved[:, 0]) == {0xFFFFFFFF}


def test_gaps_are_marked_where_plates_out_of_register_open_them(client):
    """Before trapping; traps close them. In register there is none, and no mark unless it is asked for."""
    key, asked = page_of(client), {"left": 5, "top": 7, "width": 140, "height": 100, "inks": 65535, "gaps": True}
    shifts = [[1, 0], [0, 0], [0, 0], [0, 0]]

    def counted(**more):
        answer = client.post(f"/api/pages/{key}/view", json={**asked, **more})
        marked = int(np.count_nonzero(np.frombuffer(answer.content, "u4") == GAP))
        return marked, answer.headers.get("x-gaps")
    marked, said = counted(mode="before", shifts=shifts)
    assert marked > 40 and said == str(marked)
    assert counted(mode="after", shifts=shifts) == (0, "0")
    assert counted(mode="before") == (0, None) == counted(mode="before", shifts=shifts, gaps=False)


@pytest.mark.parametrize("bad", [{"width": 0}, {"left": 155}, {"width": 99_999}, {"mode": "odd"}, {"left": "x"},
                                 {"shifts": [[1, 1]]}, {"shifts": [[9_999, 0]] * 4}])
def test_bad_views_are_refused(client, bad):
    """Status 400, and a line."""
    asked = {"left": 5, "top": 7, "width": 100, "height": 100, "mode": "after", "inks": 15, **bad}
    answer = client.post(f"/api/pages/{page_of(client)}/view", json=asked)
    assert answer.status_code == 400 and answer.json()["error"]


def test_tiles_have_the_pixels_of_the_plates(client):
    """A PNG for each picture; none outside the page."""
    key = page_of(client)
    for mode in ("before", "after", "traps"):
        answer = client.get(f"/api/pages/{key}/tiles/{mode}/v/15/0/0/0")
        assert answer.status_code == 200 and answer.content[:4] == b"\x89PNG"
        assert "immutable" in answer.headers["cache-control"]
    for bad in ("after/v/15/0/9/9", "odd/v/15/0/0/0", "after/v/15/99/0/0"):
        assert client.get(f"/api/pages/{key}/tiles/{bad}").status_code == 404


def test_why_gives_the_tints_of_the_plates(client, folder):
    """Of pixels everywhere, before and after."""
    key, page = page_of(client), PageFolder.read(str(folder / "made" / "page-001"))
    inked = [k for k, ink in enumerate(page.inks) if ink.has_ink]
    before, after = page.plates().arrays, page.plates(True).arrays
    for x in range(0, WIDTH, 13):
        answer = client.get(f"/api/pages/{key}/why/{x}/{x % HEIGHT}").json()
        assert answer["before"] == [255 - int(before[k][x % HEIGHT, x]) for k in inked]
        assert answer["after"] == [255 - int(after[k][x % HEIGHT, x]) for k in inked]
    assert client.get(f"/api/pages/{key}/why/{WIDTH}/0").status_code == 404


def test_an_approval_lapses_with_any_change(client):
    """It has a name and a time, and is out of date once the page differs."""
    key = page_of(client)
    said = client.post(f"/api/pages/{key}/approval", json={"verdict": "approved", "name": "Ada", "version": 1}).json()
    assert said["approval"]["current"] and said["approval"]["name"] == "Ada"
    change(client, key, {"TrapWidth": 30_000})
    assert not wait_until_shown(client, key)["approval"]["current"]
    client.post(f"/api/pages/{key}/undo", json={"version": 2})
    assert wait_until_shown(client, key)["approval"]["current"]
    for bad in ({"verdict": "fine", "name": "Ada", "version": 3}, {"verdict": "approved", "name": " ", "version": 3},
                {"verdict": "approved", "name": "Ada", "version": 1}):
        assert client.post(f"/api/pages/{key}/approval", json=bad).status_code == 400


def test_notes_stay(client, folder):
    """Over a restart too, and what else the record holds stays with them."""
    key, record = page_of(client), folder / "made" / "job.json"
    record.write_text('{"source": {"name": "made.pdf"}}')
    client.post(f"/api/pages/{key}/notes", json={"text": "thin type", "place": [12, 34]})
    with open_client(folder) as again:
        (note,) = again.get(f"/api/pages/{key}").json()["notes"]
    assert note["text"] == "thin type" and note["place"] == [12, 34] and '"made.pdf"' in record.read_text()
    assert client.post(f"/api/pages/{key}/notes", json={"text": "x", "place": [9999, 0]}).status_code == 400


def test_a_restart_takes_up_the_page_where_it_was(folder, tmp_path):
    """A job that was changed while the server ended is trapped when the page is opened again."""
    page, key = folder / "made" / "page-001", None
    with open_client(folder) as client:
        key = page_of(client)
        change(client, key, {"TrapWidth": 50_000}, (zone(TrapWidth=10_000),))
    with open_client(folder) as client:
        found = wait_until_shown(client, key)
        assert found["settings"]["TrapWidth"] == 50_000
        assert found["edits"]["zones"][0]["settings"] == {"TrapWidth": 10_000}
        opened = DeskPage(str(page))
        end = time.monotonic() + SECONDS
        while opened.is_behind() and time.monotonic() < end:
            time.sleep(0.05)
    assert files_of(page) == trapped_by_command(page, tmp_path / "again")


def test_two_browsers_see_each_others_changes(client):
    """An event of the change, and one when the page is done."""
    key = page_of(client)
    with client.websocket_connect("/api/events", headers={"host": f"127.0.0.1:{PORT}"}) as socket:
        change(client, key, {"TrapWidth": 30_000})
        events = [socket.receive_json()]
        while events[-1]["kind"] != "shown":
            events.append(socket.receive_json())
    assert events[0] == {"kind": "changed", "page": key, "version": 2} and events[-1]["version"] == 2


def test_whoever_may_not_ask_is_refused(client):
    """Another host, another port, a change from another origin or from none."""
    key = page_of(client)
    for host in ("evil.example:8631", "127.0.0.1:80", "127.0.0.1", ""):
        assert client.get("/api/jobs", headers={"host": host}).status_code == 403
    for origin in ("http://evil.example", "null", f"http://127.0.0.1:{PORT + 1}", ""):
        answer = client.post(f"/api/pages/{key}/undo", json={"version": 1}, headers={"origin": origin})
        assert answer.status_code == 403


def test_with_a_token_only_who_has_it_is_answered(folder):
    """The address with the token sets a cookie that scripts cannot read, and other sites do not send."""
    with open_client(folder, "a-long-enough-token") as client:
        assert client.get("/api/jobs").status_code == 403
        assert client.get("/?token=wrong").status_code == 403
        welcome = client.get("/?token=a-long-enough-token", follow_redirects=False)
        assert welcome.status_code == 303 and "token" not in welcome.headers["location"]
        cookie = welcome.headers["set-cookie"].lower()
        assert "httponly" in cookie and "samesite=strict" in cookie
        assert client.get("/api/jobs").status_code == 200


def test_no_id_leads_out_of_the_folder(client):
    """Ids of pages that are there, and nothing else."""
    for key in ("..", "%2e%2e", "..%2f..%2fetc", "0" * 16, "made/page-001"):
        assert client.get(f"/api/pages/{key}").status_code == 404
    assert client.get("/static/../server.py").status_code == 404


@pytest.mark.parametrize("name, plain", [
    ("../../etc/passwd", "passwd.pdf"), ("a/b\\c.PDF", "c.PDF"), ("", "upload.pdf"), ("..", "upload.pdf"),
    ("täg 1.pdf", "täg 1.pdf"), ("x\n\0.pdf", "x__.pdf"), ("n" * 300 + ".pdf", "n" * 100 + ".pdf")])
def test_a_name_from_a_browser_is_a_plain_name(name, plain):
    """No folder, no control character, no hidden file, and a bounded length."""
    assert plain_name(name) == plain


def test_sixteen_bit_plates_are_edited_too(tmp_path):
    """The view is that of the trapped page."""
    make_page(tmp_path / "jobs" / "deep" / "page-001", 65_535)
    with open_client(tmp_path / "jobs") as client:
        key = page_of(client)
        change(client, key, {"TrapWidth": 50_000})
        live = view(client, key)
        wait_until_shown(client, key)
        assert np.array_equal(live, view(client, key))


def test_a_hostile_file_ends_in_a_message(client, folder):
    """What is no PDF becomes a job that failed, with a line; nothing is left beside it."""
    if not shutil.which("gs"):
        pytest.skip("Ghostscript is not installed")
    answer = client.post("/api/jobs?name=bad.pdf", content=b"%PDF-1.7 not really")
    assert answer.status_code == 200
    end, job = time.monotonic() + SECONDS, {"state": "waiting"}
    while job["state"] in ("waiting", "running") and time.monotonic() < end:
        job = next(one for one in client.get("/api/jobs").json() if one["id"] == answer.json()["id"])
        time.sleep(0.1)
    assert job["state"] == "failed" and job["message"]
    assert not [one.name for one in folder.iterdir() if one.name.startswith(".")]
    assert client.post("/api/jobs?name=empty.pdf", content=b"").status_code == 413


def free_port() -> int:
    """A port that nobody uses now."""
    with socket.socket() as probe:
        probe.bind(("127.0.0.1", 0))
        return int(probe.getsockname()[1])


def test_the_command_serves_and_ends(folder):
    """It prints its address, refuses a port that is taken, and ends when it is told to though a browser listens."""
    websockets = pytest.importorskip("websockets")
    port = free_port()
    command = [str(Path(tools.PRESS) / "desk"), str(folder), "--no-open", "--port", str(port)]

    async def listen_while_it_ends(server):
        async with websockets.connect(f"ws://127.0.0.1:{port}/api/events", origin=f"http://127.0.0.1:{port}") as events:
            server.terminate()
            await events.wait_closed()
    with subprocess.Popen(command, stdout=subprocess.PIPE, text=True) as server:
        try:
            assert server.stdout is not None and server.stdout.readline().strip() == f"http://127.0.0.1:{port}/"
            taken = subprocess.run(command, capture_output=True, text=True, check=False)
            assert taken.returncode == 8 and str(port) in taken.stderr
            asyncio.run(listen_while_it_ends(server))
        finally:
            server.terminate()
        assert server.wait(SECONDS) == 0


def test_answers_are_sent_at_once():
    """A connection to the server does not wait for the browser's acknowledgement before it sends the rest."""
    async def connected():
        taken = asyncio.get_running_loop().create_future()

        def accept(_, writer):
            held = writer.get_extra_info("socket")
            taken.set_result(held.getsockopt(socket.IPPROTO_TCP, socket.TCP_NODELAY))
            writer.close()
        with bound_socket(Where(0)) as listening:
            server = await asyncio.start_server(accept, sock=listening)
            _, writer = await asyncio.open_connection(*listening.getsockname())
            found = await asyncio.wait_for(taken, SECONDS)
            writer.close()
            server.close()
        return found
    assert asyncio.run(connected())


def test_digests_of_pages_differ(folder):
    """Nothing of a page can change without its digest."""
    page = DeskPage(str(folder / "made" / "page-001"))
    first = digest_of(page)
    plate = Path(page.folder.plate(page.folder.inks[0], True))
    data = bytearray(plate.read_bytes())
    data[-1] ^= 1
    plate.write_bytes(data)
    assert digest_of(page) != first


def test_an_inks_density_and_kind_can_be_changed(client, folder, tmp_path):
    """The job gets the details of all inks; the others keep theirs."""
    key = page_of(client)
    edits = {"settings": {}, "zones": [], "inks": {"Magenta": {"density": 20_000, "kind": "Opaque"}}}
    page = client.post(f"/api/pages/{key}/edits", json={"version": 1, "edits": edits}).json()
    assert [(ink["density"], ink["kind"]) for ink in page["inks"]] == [
        (0.61, "Normal"), (2.0, "Opaque"), (0.16, "Normal"), (1.7, "Normal")]
    assert page["edits"]["inks"] == edits["inks"]
    wait_until_shown(client, key)
    made = folder / "made" / "page-001"
    assert files_of(made)["report"] == trapped_by_command(made, tmp_path / "again")["report"]
    for bad in ({"Gold": {"density": 1, "kind": "Normal"}}, {"Cyan": {"density": 6_100, "kind": "Odd"}}):
        answer = client.post(f"/api/pages/{key}/edits", json={"version": 2, "edits": {**edits, "inks": bad}})
        assert answer.status_code == 400


def test_presets_are_offered_in_the_units_of_the_job(client):
    """Each has a width."""
    found = {one["name"]: one["settings"] for one in client.get(f"/api/pages/{page_of(client)}").json()["presets"]}
    assert {"offset", "flexo"} <= set(found) and found["flexo"]["TrapWidth"] > found["offset"]["TrapWidth"] > 0


def test_the_trapped_plates_can_be_fetched(client, folder):
    """As a ZIP with the job and the report, byte for byte; nothing of it stays on the server."""
    key, page = page_of(client), folder / "made" / "page-001"
    before = set(Path(tempfile.gettempdir()).glob("press-desk-*"))
    answer = fetched(client, key, "plates")
    packed = zipfile.ZipFile(io.BytesIO(answer.content))
    wanted = {**files_of(page), "page.job": (page / "page.job").read_bytes()}
    assert {name: packed.read(name) for name in packed.namelist()} == wanted
    assert "made-1-plates.zip" in answer.headers["content-disposition"]
    assert set(Path(tempfile.gettempdir()).glob("press-desk-*")) == before
    assert fetched(client, key, "report").content == (page / "trapped" / "report").read_bytes()
    assert client.post(f"/api/pages/{key}/outputs/..%2Fpage.job", json={}).status_code == 404
    assert client.get("/api/outputs/..%2Fpage.job").status_code == 404


def fetched(client, key, kind, **options):
    """A file of a page, made and fetched once; its key is good for no more."""
    made = client.post(f"/api/pages/{key}/outputs/{kind}", json=options)
    assert made.status_code == 200, made.text
    answer = client.get(f"/api/outputs/{made.json()['key']}")
    assert client.get(f"/api/outputs/{made.json()['key']}").status_code == 404
    return answer


# Rules, thin strokes, versions

def make_ruled_page(folder: Path) -> Path:
    """The page of make_page as press/plates would lay it out: kept within a box, with thin strokes and an image."""
    make_page(folder, has_lines=True)
    job = (folder / "page.job").read_bytes()
    (folder / "page.job").write_bytes(job.replace(b"showpage", b"""% The page within its trim box (--trap-within):
newpath
4.000 4.000 moveto 150.000 0 rlineto 0 110.000 rlineto -150.000 0 rlineto
settrapzone
% Within images nothing is trapped, but at what is drawn above them (--trap-images traps there too):
<< /Enabled false >> settrapparams
newpath
10.000 60.000 moveto 50.000 0 rlineto 0 50.000 rlineto -50.000 0 rlineto
settrapzone
showpage"""))
    (folder / "zones.json").write_text(json.dumps({"thin": {"places": []}}))
    engine.trap(PageFolder.read(str(folder)), Settings())
    return folder


@pytest.fixture(name="ruled")
def fixture_ruled(tmp_path):
    """A browser of a page with rules."""
    make_ruled_page(tmp_path / "jobs" / "made" / "page-001")
    with open_client(tmp_path / "jobs") as client:
        yield client, tmp_path / "jobs" / "made" / "page-001"


def edit(client, key, **edits):
    """Edits of the newest version."""
    version = client.get(f"/api/pages/{key}").json()["version"]
    said = {"settings": {}, "zones": [], "inks": {}, "off": [], **edits}
    return client.post(f"/api/pages/{key}/edits", json={"version": version, "edits": said})


def test_rules_are_switched_off_and_on(ruled, tmp_path):
    """Images are trapped then, and the page beyond its box; back on, the job is the first one byte for byte."""
    client, page = ruled
    key, first, plates = page_of(client), (page / "page.job").read_bytes(), files_of(page)
    assert client.get(f"/api/pages/{key}").json()["rules"] == {"trim": True, "thin": True, "images": True}
    for off in (["images"], ["trim"], ["images", "trim"]):
        assert edit(client, key, off=off).json()["edits"]["off"] == off
        wait_until_shown(client, key)
        assert files_of(page) == trapped_by_command(page, tmp_path / "-".join(off)) != plates
    edit(client, key)
    wait_until_shown(client, key)
    assert (page / "page.job").read_bytes() == first and files_of(page) == plates
    assert edit(client, key, off=["colour"]).status_code == 400


def test_thin_strokes_are_found_anew_when_the_width_changes(ruled, tmp_path):
    """The page is a preview until that is done; its traps are then narrower at the bars, unless the rule is off."""
    client, page = ruled
    key = page_of(client)
    found = edit(client, key, settings={"TrapWidth": 60_000}).json()
    assert found["preview"]
    shown = wait_until_shown(client, key)
    assert shown["version"] == 3 and [zone["name"] for zone in shown["jobZones"]].count("small type and thin lines") > 0
    assert files_of(page) == trapped_by_command(page, tmp_path / "thin")
    # A change on the version before is no conflict: nobody changed the settings in between.
    said = {"settings": {"TrapWidth": 60_000}, "zones": [], "inks": {}, "off": ["thin"]}
    assert client.post(f"/api/pages/{key}/edits", json={"version": 2, "edits": said}).status_code == 200
    shown = wait_until_shown(client, key)
    assert [zone["name"] for zone in shown["jobZones"]] == ["the page within its box", "images"]


def test_a_restart_finds_thin_strokes_that_an_ended_server_did_not(ruled):
    """A preview is taken up."""
    client, page = ruled
    key = page_of(client)
    edit(client, key, settings={"TrapWidth": 60_000})
    with open_client(page.parent.parent) as again:
        assert not wait_until_shown(again, key)["preview"]


def test_a_view_by_another_version_or_other_settings(client, folder):
    """That of the first version is its plates, and that of other settings the plates that these make."""
    key, page = page_of(client), folder / "made" / "page-001"
    whole = {"left": 0, "top": 0, "width": WIDTH, "height": HEIGHT}
    first = view(client, key, **whole)
    edit(client, key, settings={"TrapWidth": 60_000})
    wait_until_shown(client, key)
    wide = view(client, key, **whole)
    assert not np.array_equal(first, wide)
    assert np.array_equal(view(client, key, other={"version": 1}, **whole), first)
    assert np.array_equal(view(client, key, other={"settings": {"TrapWidth": 20_000}}, **whole), first)
    for bad in ({"version": 9}, {"settings": {"Colour": 1}}):
        asked = {**whole, "mode": "after", "inks": 15, "other": bad}
        assert client.post(f"/api/pages/{key}/view", json=asked).status_code == 400
    assert page.exists()


def test_settings_are_applied_to_the_other_pages(tmp_path):
    """Each keeps its own zones; all are trapped as the command does it."""
    folder = tmp_path / "jobs" / "made"
    for number in (1, 2, 3):
        make_page(folder / f"page-{number:03d}", number=number)
    with open_client(tmp_path / "jobs") as client:
        (job,) = client.get("/api/jobs").json()
        keys = [page["id"] for page in job["pages"]]
        edit(client, keys[1], zones=[zone(TrapWidth=10_000)])
        edit(client, keys[0], settings={"TrapWidth": 40_000})
        assert client.post(f"/api/pages/{keys[0]}/all", json={}).status_code == 200
        end = time.monotonic() + SECONDS
        while client.get(f"/api/pages/{keys[2]}").json()["settings"]["TrapWidth"] != 40_000 and time.monotonic() < end:
            time.sleep(0.05)
        pages = [wait_until_shown(client, key) for key in keys]
    assert [page["settings"]["TrapWidth"] for page in pages] == [40_000] * 3
    assert [len(page["edits"]["zones"]) for page in pages] == [0, 1, 0]
    assert files_of(folder / "page-002") == trapped_by_command(folder / "page-002", tmp_path / "again")


def test_a_folder_of_press_all_is_one_job(tmp_path):
    """Its pages are not jobs of their own, so that settings can be applied to all of them. One page's folder is a job
    too."""
    for number in (1, 2):
        make_page(tmp_path / "out" / f"page-{number:03d}", number=number)
    with open_client(tmp_path / "out") as client:
        (job,) = client.get("/api/jobs").json()
        assert [page["number"] for page in job["pages"]] == [1, 2]
        assert all(client.get(f"/api/pages/{page['id']}").json()["siblings"] == 1 for page in job["pages"])
    with open_client(tmp_path / "out" / "page-002") as client:
        (job,) = client.get("/api/jobs").json()
        assert len(job["pages"]) == 1


# What is found, and what is fetched

def test_findings_come_with_their_places(client, folder):
    """The gravest first; a place in millimetres from the lower left corner as a box of pixels."""
    page = folder / "made" / "page-001"
    (page / "warnings.txt").write_text("note: images: an image over 3% of the page\n"
                                       "warning: total-ink: 320% at 20, 10 mm\nodd line\n")
    found = client.get(f"/api/pages/{page_of(client)}").json()["findings"]
    assert [one["level"] for one in found] == ["warning", "note"] and found[1]["places"] == []
    (left, top, width, height), = found[0]["places"]
    assert abs(left + width / 2 - 20 * DPI / 25.4) < 2 and abs(HEIGHT - top - height / 2 - 10 * DPI / 25.4) < 2


def test_a_finding_about_an_ink_leads_to_its_ink(client, folder):
    """The box around all that the plate has, as far as the reduced copy shows it; none for a name within another."""
    page = folder / "made" / "page-001"
    (page / "warnings.txt").write_text("warning: knock-out: Magenta knocks out the colours below it\n"
                                       "note: ink-library: Magentas has a density of 0.7\n")
    first, second = client.get(f"/api/pages/{page_of(client)}").json()["findings"]
    plate = PageFolder.read(str(page)).plates()["Magenta"] < 255
    rows, columns = np.flatnonzero(plate.any(axis=1)), np.flatnonzero(plate.any(axis=0))
    (left, top, width, height), = first["places"]
    assert second["places"] == []
    assert left <= columns[0] < left + 4 and left + width - 4 <= columns[-1] < left + width
    assert top <= rows[0] < top + 4 and top + height - 4 <= rows[-1] < top + height


def test_outputs_are_those_of_the_commands(client, folder, tmp_path):
    """TIFF files, screened plates, the proof; a trapped PDF only if its PDF is there."""
    key, page = page_of(client), folder / "made" / "page-001"
    subprocess.run([str(Path(tools.PRESS) / "tiff"), str(page), str(tmp_path / "tiff")], check=True)
    packed = zipfile.ZipFile(io.BytesIO(fetched(client, key, "tiff").content))
    assert {name: packed.read(name) for name in packed.namelist()} == {
        path.name: path.read_bytes() for path in (tmp_path / "tiff").iterdir()}
    assert b"<html" in fetched(client, key, "proof").content
    kinds = {one["kind"] for one in client.get(f"/api/pages/{key}").json()["downloads"]}
    assert "pdf" not in kinds and {"tiff", "screened", "plates", "report", "report.json", "tables"} <= kinds
    assert client.post(f"/api/pages/{key}/outputs/pdf", json={}).status_code == 422
    assert client.post(f"/api/pages/{key}/outputs/odd", json={}).status_code == 404


def test_screened_plates_are_those_of_the_command(client, folder, tmp_path):
    """TIFF files of one bit a pixel, by the resolution and the screen that the browser asks for."""
    tifffile = pytest.importorskip("tifffile")
    if not shutil.which("gs"):
        pytest.skip("Ghostscript is not installed")
    key, page = page_of(client), folder / "made" / "page-001"
    subprocess.run([str(Path(tools.PRESS) / "screen"), "--dpi=600", "--lpi=60", str(page), str(tmp_path / "dots")], check=True)
    wanted = {path.name: path.read_bytes() for path in (tmp_path / "dots").iterdir()}
    packed = zipfile.ZipFile(io.BytesIO(fetched(client, key, "screened", dpi=600, lpi=60).content))
    assert {name: packed.read(name) for name in packed.namelist()} == wanted
    plates = [name for name in wanted if name.endswith(".tif")]
    assert len(plates) == 4
    for name in plates:
        with tifffile.TiffFile(io.BytesIO(wanted[name])) as file:
            assert file.pages[0].bitspersample == 1
            assert file.pages[0].shape == (HEIGHT * 600 // DPI, WIDTH * 600 // DPI)


def test_a_page_that_is_not_done_is_not_fetched(client):
    """Its plates would not be those of its job."""
    key = page_of(client)
    edit(client, key, settings={"TrapWidth": 60_000})
    answer = client.post(f"/api/pages/{key}/outputs/plates", json={})
    assert answer.status_code == 422 and "being trapped" in answer.json()["error"]


# Files that browsers send

def wait_for_job(client, key, states=("done", "failed", "cancelled")):
    """A job in one of some states."""
    end, job = time.monotonic() + 3 * SECONDS, {"state": ""}
    while job["state"] not in states and time.monotonic() < end:
        job = next(one for one in client.get("/api/jobs").json() if one["id"] == key)
        time.sleep(0.05)
    return job


def test_separations_become_one_page(client, folder, tmp_path):
    """Several TIFF files of one set, in any order; the plates are those of the files."""
    page = folder / "made" / "page-001"
    subprocess.run([str(Path(tools.PRESS) / "tiff"), "-u", str(page), str(tmp_path / "tiff")], check=True)
    keys = []
    for name in ("Black", "Cyan", "Magenta", "Yellow"):
        path = tmp_path / "tiff" / f"made-1({name}).tif"
        answer = client.post("/api/jobs", params={"name": path.name, "set": "0123456789abcdef", "of": 4},
                             content=path.read_bytes())
        assert answer.status_code == 200, answer.text
        keys.append(answer.json()["id"])
    assert keys[:3] == ["", "", ""]
    job = wait_for_job(client, keys[3])
    assert job["state"] == "done", job
    made = PageFolder.read(str(folder / keys[3] / "page-001"))
    assert sorted(ink.name for ink in made.inks) == ["Black", "Cyan", "Magenta", "Yellow"]
    before = PageFolder.read(str(page))
    old = {ink.name: plate for ink, plate in zip(before.inks, before.plates().arrays)}
    assert all(np.array_equal(old[ink.name], plate) for ink, plate in zip(made.inks, made.plates().arrays))
    for bad in ({"set": "..", "of": 2}, {"set": "0" * 16, "of": 99}, {"set": "0" * 16, "of": 2, "dpi": "x"}):
        assert client.post("/api/jobs", params={"name": "a.tif", **bad}, content=b"x").status_code == 413


@pytest.mark.parametrize("names, colorants", [
    (["a(Cyan).tif", "a(PANTONE 485 C).tif"], ["Cyan", "PANTONE 485 C"]),
    (["page_cyan.tif", "page_Label Red.tif"], ["Cyan", "Label Red"]), (["Gold.tiff"], ["Gold"]),
    (["p-1-C.tif", "p-1-M.tif"], ["C", "M"])])
def test_names_of_separations(names, colorants):
    """By brackets, process inks, and what the names do not share."""
    assert colorants_of(names) == colorants


def sent_label(client):
    """The label, sent."""
    if not shutil.which("gs"):
        pytest.skip("Ghostscript is not installed")
    label = Path(tools.TOP) / "examples" / "label" / "label.pdf"
    return client.post("/api/jobs?name=label.pdf", content=label.read_bytes()).json()["id"]


def test_one_page_of_a_job_is_cancelled(client, folder):
    """The other one is made; findings are there, and its trapped PDF can be fetched."""
    key = sent_label(client)
    end = time.monotonic() + SECONDS
    while client.post(f"/api/jobs/{key}/cancel", json={"page": 2}).status_code != 200 and time.monotonic() < end:
        time.sleep(0.05)
    job = wait_for_job(client, key)
    assert job["state"] == "done" and [page["state"] for page in job["pages"]] == ["done", "cancelled"]
    assert job["findings"] and not (folder / key / "page-002").exists()
    page = job["pages"][0]["id"]
    assert fetched(client, page, "pdf").content.startswith(b"%PDF")
    assert client.post(f"/api/jobs/{key}/cancel", json={}).status_code == 404


def test_a_restart_takes_up_an_upload(folder):
    """What the last server did not finish is made by the next one."""
    with open_client(folder) as client:
        key = sent_label(client)
    with open_client(folder) as client:
        job = wait_for_job(client, key)
        assert job["state"] == "done" and [page["state"] for page in job["pages"]] == ["done", "done"]
        assert job["name"] == "label.pdf"


def test_tables_of_an_edited_page_make_the_same_page(client, folder, tmp_path):
    """Beside the PDF press/plates reads them: zones and inks of the job that it makes are those of the editor, those of
    thin strokes and of images too, which depend on the widths. Back at the first settings the job is the first one."""
    job = wait_for_job(client, sent_label(client))
    key, page = job["pages"][0]["id"], folder / job["id"] / "page-001"
    first, height = (page / "page.job").read_bytes(), client.get(f"/api/pages/{key}").json()["height"]
    kind, own = {"Label_Red": {"density": 9_000, "kind": "Opaque"}}, images_of(read_job(first))
    panel = {"name": "panel", "points": [[100, 100], [900, 100], [900, height - 100]], "settings": {"TrapWidth": 2_000},
             "overImages": False}
    for name, edits in (("zone", {"settings": {"TrapWidth": 4_000}, "inks": kind, "zones": [panel]}),
                        ("wide", {"settings": {"TrapWidth": 12_000}})):
        live = edit(client, key, **edits).json()
        at_once = images_of(read_job((page / "page.job").read_bytes()))
        assert "thin strokes" in live["lacks"] and own != at_once
        wait_until_shown(client, key)
        made = tmp_path / name
        zipfile.ZipFile(io.BytesIO(fetched(client, key, "tables").content)).extractall(made)
        shutil.copyfile(folder / job["id"] / "label.pdf", made / "label.pdf")
        subprocess.run([str(Path(tools.PRESS) / "plates"), str(made / "label.pdf"), str(made / "page")], check=True)
        ours, theirs = (read_job((place / "page.job").read_bytes()) for place in (page, made / "page"))
        assert theirs.inks == ours.inks and len(theirs.zones) > 3 and at_once == images_of(ours)
        assert trapped_zones(theirs) == trapped_zones(ours)
        assert images_of(theirs) == images_of(ours)
    edit(client, key)
    assert wait_until_shown(client, key) and (page / "page.job").read_bytes() == first


def trapped_zones(job):
    """The zones of a job that are trapped."""
    return [one for one in job.zones if one.parameters.enabled]


def images_of(job):
    """The paths of the last zone of a job, which is that of images if it is not trapped."""
    assert not job.zones[-1].parameters.enabled
    return job.zones[-1].subpaths


def test_an_upload_that_stalls_is_given_up():
    """It would hold one of the few places for files that arrive."""
    async def parts(count):
        for _ in range(count):
            yield b"some"
        await asyncio.sleep(SECONDS)

    async def taken(idle, total):
        return [part async for part in in_time(parts(2), idle, total)]
    for idle, total in ((0.05, SECONDS), (SECONDS, 0.05)):
        with pytest.raises(TooMuch):
            asyncio.run(taken(idle, total))

    async def whole():
        async def two():
            yield b"a"
            yield b"b"
        return [part async for part in in_time(two(), SECONDS, SECONDS)]
    assert asyncio.run(whole()) == [b"a", b"b"]


PROFILES = [path for folder in ("/usr/share/color/icc", "/usr/share/ghostscript")
            for path in sorted(Path(folder).rglob("default_cmyk.icc")) if Path(folder).is_dir()]


@pytest.mark.skipif(not PROFILES, reason="Ghostscript's CMYK profile is not there")
def test_a_soft_proof_has_the_colours_of_the_profile(folder):
    """Those of press/look's painter, at 1:1 and in tiles."""
    profile = str(PROFILES[0])
    app = application(Store(str(folder), profile), allowed_hosts(LOOPBACK, PORT))
    painter = Painter(PageFolder.read(str(folder / "made" / "page-001")), True)
    wanted = painter.by_profile(painter.after, profile)
    with testclient.TestClient(app, base_url=BASE, headers={"origin": BASE}) as client:
        key = page_of(client)
        assert client.get(f"/api/pages/{key}").json()["canSoftProof"]
        found = view(client, key, left=0, top=0, width=WIDTH, height=HEIGHT, soft=True)
        assert np.array_equal(found.view("u1").reshape(HEIGHT, WIDTH, 4)[..., :3], wanted)
        assert not np.array_equal(found, view(client, key, left=0, top=0, width=WIDTH, height=HEIGHT))
        tile = client.get(f"/api/pages/{key}/tiles/after/v/15/0/0/0?soft")
        assert np.array_equal(np.asarray(image.open(io.BytesIO(tile.content)).convert("RGB")), wanted)


def test_a_large_page_shows_its_progress(folder, monkeypatch):
    """By the share of its plates that is written."""
    monkeypatch.setattr(runs, "LARGE", 0)
    monkeypatch.setattr(runs, "PROGRESS_SECONDS", 0.02)
    heard = queue.Queue()
    page = DeskPage(str(folder / "made" / "page-001"))
    run = runs.PageRun(page, lambda **event: heard.put(event))
    made = Path(page.folder.path) / ".press-1-made"
    made.mkdir()
    (made / "Cyan.pgm").write_bytes(bytes(2 * WIDTH * HEIGHT))
    with run._progress(run.wanted, page.folder.path, ".press-*/*.pgm"):  # pylint: disable=protected-access
        event = heard.get(timeout=SECONDS)
    run.close()
    assert event["kind"] == "progress" and event["share"] == 2 / len(page.inked) and "67%" in event["text"]


def test_a_page_begins_at_once_if_nobody_saw_its_change(folder, monkeypatch):
    """A change that is drawn with its answer waits until no other follows, and so does one that follows another."""
    monkeypatch.setattr(runs, "QUIET_SECONDS", 3600.0)
    heard = queue.Queue()
    page = DeskPage(str(folder / "made" / "page-001"))
    run = runs.PageRun(page, lambda **event: heard.put(event))
    edits = page.state()["edits"]

    def changed(width, is_seen):
        page.change(page.version, {**edits, "settings": {"TrapWidth": width}})
        run.changed(is_seen)
    changed(30_000, False)
    assert heard.get(timeout=SECONDS)["kind"] == "shown" and page.shown == 2
    changed(31_000, False)
    with pytest.raises(queue.Empty):
        heard.get(timeout=0.5)
    run.changed_at = -3600.0
    changed(32_000, True)
    with pytest.raises(queue.Empty):
        heard.get(timeout=0.5)
    run.changed_at = -3600.0
    run.changed()
    assert heard.get(timeout=SECONDS)["kind"] == "shown" and page.shown == page.version
    run.close()


@pytest.mark.skipif(not shutil.which("tsc"), reason="tsc is not installed (Debian: node-typescript)")
def test_types_of_the_app():
    """tsc --checkJs finds nothing in the app's modules, whose types are in JSDoc."""
    static = Path(tools.TOP) / "python" / "press" / "desk" / "static"
    done = subprocess.run(["tsc", "-p", str(static / "tsconfig.json")], capture_output=True, text=True, check=False)
    assert done.returncode == 0, done.stdout


def test_versions_and_undo_are_bounded(client, monkeypatch):
    """A slider that is pulled for long takes no more memory; the newest versions are kept."""
    monkeypatch.setattr(history, "MOST_VERSIONS", 3)
    key = page_of(client)
    for width in range(21_000, 27_000, 1_000):
        assert change(client, key, {"TrapWidth": width}).status_code == 200
    page = client.get(f"/api/pages/{key}").json()
    assert [one["number"] for one in page["versions"]] == [5, 6, 7]
    undone = 0
    while page["canUndo"]:
        page = client.post(f"/api/pages/{key}/undo", json={"version": page["version"]}).json()
        undone += 1
    assert undone == 3 and page["settings"]["TrapWidth"] == 23_000


def undone(client, key, how="undo"):
    """A page after one step back or forth."""
    version = client.get(f"/api/pages/{key}").json()["version"]
    answer = client.post(f"/api/pages/{key}/{how}", json={"version": version})
    assert answer.status_code == 200, answer.text
    return answer.json()


def test_versions_undo_and_redo_outlive_the_server(folder):
    """Two changes, one of them undone; the next server goes back and forth between all three, and compares with them."""
    key, job = "", folder / "made" / "page-001" / "page.job"
    texts = [job.read_bytes()]
    with open_client(folder) as client:
        key = page_of(client)
        for width in (30_000, 50_000):
            change(client, key, {"TrapWidth": width})
            texts.append(job.read_bytes())
        undone(client, key)
        wait_until_shown(client, key)
        second = view(client, key)
    with open_client(folder) as client:
        page = client.get(f"/api/pages/{key}").json()
        assert page["version"] == 4 and page["canUndo"] and page["canRedo"]
        assert [one["number"] for one in page["versions"]] == [1, 2, 3, 4]
        assert np.array_equal(view(client, key, other={"version": 2}), second)
        assert not undone(client, key, "redo")["canRedo"] and job.read_bytes() == texts[2]
        assert undone(client, key)["canUndo"] and not undone(client, key)["canUndo"]
        assert job.read_bytes() == texts[0]
    with open_client(folder) as client:
        undone(client, key, "redo")
        assert undone(client, key, "redo")["settings"]["TrapWidth"] == 50_000 and job.read_bytes() == texts[2]


def test_a_job_that_was_changed_meanwhile_keeps_its_versions_if_it_is_the_same_one(folder):
    """The editor's blocks by another hand are a version that can be undone. Another job begins anew."""
    job = folder / "made" / "page-001" / "page.job"
    first = job.read_bytes()
    with open_client(folder) as client:
        key = page_of(client)
        change(client, key, {"TrapWidth": 30_000})
    changed = job.read_bytes()
    job.write_bytes(changed.replace(b"/TrapWidth 3 ", b"/TrapWidth 4 "))
    with open_client(folder) as client:
        page = client.get(f"/api/pages/{key}").json()
        assert page["version"] == 3 and page["settings"]["TrapWidth"] == 40_000
        undone(client, key)
        assert job.read_bytes() == changed
    job.write_bytes(first.replace(b"/TrapWidth 2 ", b"/TrapWidth 5 "))
    with open_client(folder) as client:
        page = client.get(f"/api/pages/{key}").json()
        assert page["version"] == 1 and not page["canUndo"] and not page["canRedo"]
