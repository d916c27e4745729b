# SPDX-License-Identifier: Apache-2.0
"""The trap editor's server under load, with hostile files, and on jobs as random as those of check/."""
import itertools
import json
import os
import random
import shutil
import signal
import subprocess
import sys
import threading
import time
import urllib.error
import urllib.request
from pathlib import Path

import pytest

np = pytest.importorskip("numpy")
pytest.importorskip("PIL.Image")
pytest.importorskip("starlette")

import worst_files  # noqa: E402
from press import engine, tools  # noqa: E402
from press.errors import PressError  # noqa: E402
from press.folder import PageFolder, PageSource, write_table  # noqa: E402
from press.inks import Ink  # noqa: E402
from press.job import write_job  # noqa: E402
from press.job_language import JobSyntaxError, read_job  # noqa: E402
from press.plates import write_pgm  # noqa: E402
from press.settings import Settings  # noqa: E402
from test_desk_server import (LIBRARY, SECONDS, files_of, free_port, make_page, open_client,  # noqa: E402
                              trapped_by_command, view, wait_for_job, wait_until_shown)

sys.path.append(str(Path(tools.TOP) / "check"))
from maker import jobs, pictures  # noqa: E402

pytestmark = [pytest.mark.plain, pytest.mark.skipif(
    LIBRARY is None or not tools.has_program("trap"), reason="libtrap or the program trap is not built")]
CLIENTS = 8
BURST, LONG = 6, 120
"""Seconds of load: of each run of the tests, and with the mark `worst`."""


class Served:
    """A server of a folder as a process, and requests to it."""

    def __init__(self, folder):
        self.port = free_port()
        self.base = f"http://127.0.0.1:{self.port}"
        command = [str(Path(tools.PRESS) / "desk"), str(folder), "--no-open", "--port", str(self.port)]
        # pylint: disable-next=consider-using-with
        self.process = subprocess.Popen(command, stdout=subprocess.PIPE, stderr=subprocess.PIPE, text=True)
        assert self.process.stdout.readline()

    def ask(self, path, body=None):
        """A request; its status and its bytes."""
        data = None if body is None else json.dumps(body).encode()
        request = urllib.request.Request(self.base + path, data, {"origin": self.base})
        try:
            with urllib.request.urlopen(request, timeout=SECONDS) as answer:
                return answer.status, answer.read()
        except urllib.error.HTTPError as refused:
            return refused.code, refused.read()

    def memory(self):
        """The private memory of the server, in megabytes."""
        text = Path(f"/proc/{self.process.pid}/status").read_text()
        return int(text.partition("RssAnon:")[2].split()[0]) / 1024


@pytest.fixture(name="served")
def fixture_served(tmp_path):
    """A server of three pages."""
    for number in (1, 2, 3):
        make_page(tmp_path / "jobs" / "made" / f"page-{number:03d}", number=number)
    found = Served(tmp_path / "jobs")
    yield found
    found.process.kill()
    found.process.communicate()


def client_of(served, keys, number, end, faults):
    """One client: views, tiles, questions and changes until the end. A conflict with another client is no fault."""
    rng, count = random.Random(number), 0
    while time.monotonic() < end:
        key = rng.choice(keys)
        page = json.loads(served.ask(f"/api/pages/{key}")[1])
        edits = {**page["edits"], "settings": {"TrapWidth": rng.randrange(5_000, 60_000, 500)}}
        at = {"left": 0, "top": 0, "width": page["width"], "height": page["height"], "inks": 15}
        for path, body, allowed in (
                (f"/api/pages/{key}/view", {**at, "mode": "after"}, (200,)),
                (f"/api/pages/{key}/tiles/traps/{rng.random()}/15/0/0/0", None, (200,)),
                (f"/api/pages/{key}/why/{rng.randrange(160)}/{rng.randrange(120)}", None, (200,)),
                (f"/api/pages/{key}/edits", {"version": page["version"], "edits": edits}, (200, 409)),
                ("/api/jobs", None, (200,))):
            status, said = served.ask(path, body)
            count += 1
            if status not in allowed:
                faults.append((path, status, said[:200]))
    return count


def load(served, seconds):
    """Eight clients for so long: their faults, the requests, and the server's memory early and late."""
    jobs = json.loads(served.ask("/api/jobs")[1])
    keys, faults, counts = [page["id"] for page in jobs[0]["pages"]], [], []
    end = time.monotonic() + seconds
    threads = [threading.Thread(target=lambda k=k: counts.append(client_of(served, keys, k, end, faults)))
               for k in range(CLIENTS)]
    for thread in threads:
        thread.start()
    time.sleep(seconds / 2)
    early = served.memory()
    for thread in threads:
        thread.join()
    return faults, sum(counts), early, served.memory()


def test_eight_clients_meet_no_fault(served):
    """For some seconds; then the server ends within two seconds of SIGTERM."""
    faults, count, _, _ = load(served, BURST)
    assert faults == [] and count > CLIENTS
    served.process.send_signal(signal.SIGTERM)
    start = time.monotonic()
    assert served.process.wait(SECONDS) == 0
    assert time.monotonic() - start < 2 + os.getloadavg()[0] / (os.cpu_count() or 1)


@pytest.mark.worst
def test_eight_clients_for_two_minutes_take_no_more_memory(served):
    """No fault, and no growth of the server's memory from the first minute to the second one."""
    faults, count, early, late = load(served, LONG)
    print(f"{count} requests; {early:.0f} MB after a minute, {late:.0f} MB after two; load {os.getloadavg()[0]:.1f}")
    assert faults == [] and late < early * 1.15 + 10


def test_memory_does_not_grow_with_the_threads_that_draw(tmp_path):
    """Views of three million pixels, four at once and again and again, and then a change: once the page is trapped the
    server has given back what they took."""
    make_large_page(tmp_path / "jobs" / "large" / "page-001")
    found = Served(tmp_path / "jobs")
    try:
        key = json.loads(found.ask("/api/jobs")[1])[0]["pages"][0]["id"]
        asked = {"left": 0, "top": 0, "width": 2000, "height": 1500, "mode": "after", "inks": 15}

        def draw():
            for _ in range(4):
                assert found.ask(f"/api/pages/{key}/view", asked)[0] == 200
        for _ in range(3):
            threads = [threading.Thread(target=draw) for _ in range(4)]
            for thread in threads:
                thread.start()
            for thread in threads:
                thread.join()
        page = json.loads(found.ask(f"/api/pages/{key}")[1])
        edits = {**page["edits"], "settings": {"TrapWidth": 4_000}}
        assert found.ask(f"/api/pages/{key}/edits", {"version": page["version"], "edits": edits})[0] == 200
        end = time.monotonic() + SECONDS
        while found.memory() > 120 and time.monotonic() < end:
            time.sleep(0.2)
        assert found.memory() <= 120
    finally:
        found.process.kill()
        found.process.communicate()


def test_bands_of_a_view_are_those_of_the_page(tmp_path):
    """A part that several threads trap: its changed pixels over the picture before are the picture after, at once and
    when the page is done."""
    make_large_page(tmp_path / "jobs" / "large" / "page-001")
    with open_client(tmp_path / "jobs") as client:
        key = client.get("/api/jobs").json()[0]["pages"][0]["id"]
        page = client.get(f"/api/pages/{key}").json()
        edits = {**page["edits"], "settings": {"TrapWidth": 4_000}}
        assert client.post(f"/api/pages/{key}/edits", json={"version": 1, "edits": edits}).status_code == 200
        part = {"left": 100, "top": 301, "width": 700, "height": 601, "inks": 13}
        live, drawn = view(client, key, **part), over_before(client, key, part)
        wait_until_shown(client, key)
        shown = view(client, key, **part)
    assert np.array_equal(live, drawn) and np.array_equal(live, shown)


def over_before(client, key, part):
    """The pixels of a part that traps change, over the picture before."""
    found, changes = view(client, key, **part, mode="before").copy(), view(client, key, **part, delta=True)
    places, colours = np.split(changes, 2)
    assert np.all(places[1:] > places[:-1])
    found[places] = colours
    return found


def make_large_page(folder):
    """A page of 2,000 by 1,500 pixels in four inks, a photograph of noise."""
    folder.mkdir(parents=True)
    inks = tuple(Ink(name, name.encode(), name.encode(), "0.6") for name in ("Cyan", "Magenta", "Yellow", "Black"))
    for number, ink in enumerate(inks):
        noise = np.random.default_rng(number).integers(0, 256, (1500, 2000), dtype="u1")
        write_pgm(str(folder / f"{ink.name}.pgm"), noise, 255)
    source = PageSource(b"large.pdf", 1, 300)
    (folder / "page.job").write_bytes(write_job(source, inks, []).text)
    write_table(str(folder), source, inks)
    engine.trap(PageFolder.read(str(folder)), Settings())


# Hostile files

def hostile_files(folder):
    """Files that end in a refusal, by worst_files.py."""
    folder.mkdir()
    return {name: folder / name for name, status, _ in worst_files.write_files(str(folder)) if status in (1, 5)
            and name.endswith((".pdf", ".ps", ".eps"))}


def test_hostile_files_end_in_a_message(tmp_path):
    """Each one that press/all refuses becomes a job that failed, or pages that did, with a line; the server goes on,
    and nothing is left beside its folders."""
    if not shutil.which("gs"):
        pytest.skip("Ghostscript is not installed")
    files = hostile_files(tmp_path / "files")
    make_page(tmp_path / "jobs" / "made" / "page-001")
    chosen = dict(itertools.islice(sorted(files.items(), key=lambda one: one[1].stat().st_size), 6))
    assert len(chosen) == 6
    with open_client(tmp_path / "jobs") as client:
        for name, path in chosen.items():
            sent = client.post("/api/jobs", params={"name": name}, content=path.read_bytes())
            if sent.status_code == 413:
                assert sent.json()["error"], name
                continue
            job = wait_for_job(client, sent.json()["id"])
            messages = [job["message"], *(page["message"] for page in job["pages"])]
            assert job["state"] in ("failed", "done") and any(messages), name
            assert any(page["state"] == "failed" for page in job["pages"]) or job["state"] == "failed", name
            assert str(tmp_path) not in "".join(messages), name
        assert client.get("/api/jobs").status_code == 200
    assert not [one.name for one in (tmp_path / "jobs").iterdir() if one.name.startswith(".")]


# Jobs as random as those of check/

def random_page(folder, seed):
    """A page and its job as check/ makes them; False if the job is one that the programs refuse."""
    rng = random.Random(seed)
    picture = pictures.picture(rng)
    text, inks = jobs.job(rng, picture), tuple(Ink(name, name.encode(), name.encode(), "1") for name in picture.names)
    try:
        resolution = read_job(text).resolution
    except JobSyntaxError:
        return False
    if not resolution:
        return False
    folder.mkdir(parents=True)
    for ink, plane in zip(inks, picture.planes):
        tints = np.asarray(plane).reshape(picture.height, picture.width)
        write_pgm(str(folder / f"{ink.name}.pgm"), (picture.maxval - tints).astype("u1" if picture.maxval < 256 else ">u2"),
                  picture.maxval)
    (folder / "page.job").write_bytes(text)
    write_table(str(folder), PageSource(b"random.pdf", seed, resolution), inks)
    try:
        engine.trap(PageFolder.read(str(folder)), Settings())
    except PressError:
        shutil.rmtree(folder)
        return False
    return True


def test_random_jobs_of_check_are_those_of_the_command(tmp_path):
    """Pages and jobs as check/ makes them, with a new width and a zone: what is visible at once is what the page shows
    in the end, the files are those of the command, and the reasons have the tints of the plates."""
    made = tmp_path / "jobs" / "made"
    seeds = list(itertools.islice((seed for seed in range(1, 200) if random_page(made / f"page-{seed:03d}", seed)), 12))
    assert len(seeds) == 12
    with open_client(tmp_path / "jobs") as client:
        (job,), edited = client.get("/api/jobs").json(), 0
        for listed in job["pages"]:
            key, folder = listed["id"], made / f"page-{listed['number']:03d}"
            page = client.get(f"/api/pages/{key}").json()
            corner = [[0, 0], [page["width"], 0], [page["width"], max(1, page["height"] // 2)]]
            zone = {"name": "half", "points": corner, "settings": {"TrapWidth": 15_000}, "overImages": False}
            edits = {**page["edits"], "settings": {"TrapWidth": 30_000}, "zones": [zone]}
            answer = client.post(f"/api/pages/{key}/edits", json={"version": 1, "edits": edits})
            if answer.status_code == 422:
                # The engine does not take these settings for this page: its job stays.
                assert answer.json()["error"] and client.get(f"/api/pages/{key}").json()["version"] == 1
                continue
            assert answer.status_code == 200, (listed["number"], answer.text)
            edited += 1
            whole = {"left": 0, "top": 0, "width": page["width"], "height": page["height"], "inks": 65_535}
            live = view(client, key, **whole)
            assert np.array_equal(live, over_before(client, key, whole)), listed["number"]
            wait_until_shown(client, key)
            assert np.array_equal(live, view(client, key, **whole)), listed["number"]
            assert files_of(folder) == trapped_by_command(folder, tmp_path / f"again-{listed['number']}")
            plates = PageFolder.read(str(folder)).plates(True).arrays
            for x, y in itertools.product(range(min(4, page["width"])), range(min(4, page["height"]))):
                said = client.get(f"/api/pages/{key}/why/{x}/{y}").json()
                assert said["after"] == [page["maxval"] - int(plate[y, x]) for plate in plates], (listed["number"], x, y)
        assert edited >= 6
