#!/usr/bin/env python3
# SPDX-License-Identifier: Apache-2.0
"""Measures the trap editor, press/desk, in headless Chromium: each row of the table in docs/DESK.md, "How fast it is".

    bench/desk.py [--what bytes,upload,moves,change,page,why,memory,sheet] [--no-sheet] [--runs N] [--moves N] [--pages DIR]

The pages are A4 at 600 dpi in four inks: that of bench/shop_page.py, and one that is a photograph with noise all over. The sheet has
24,000 by 17,000 samples in four inks, and wants 6 GB of disk. The browser runs on the same machine, its view has 1,600 by 1,000 pixels.
--runs is how often a row is measured, 30 times if it is left out, and --moves how often the page is moved, 200 times. --pages names a
folder in which the pages are kept for the next time; without it all of them are made anew. Each row has what is wanted, the median and
the worst of its runs, and the load of the machine behind it. A row that fails says why, and the others go on. The last lines are the
table in Markdown. On four idle processors all of it takes some ten minutes, of which the pages take one and the sheet four: --no-sheet
leaves it out.
"""
import argparse
import contextlib
import os
import platform
import shutil
import signal
import socket
import statistics
import subprocess
import sys
import tempfile
import threading
import time

# This folder has a copy.py of its own, which must not be taken for Python's.
BENCH = sys.path.pop(0)
from dataclasses import dataclass  # noqa: E402

import numpy  # noqa: E402
from selenium import webdriver  # noqa: E402

sys.path.append(BENCH)
from photograph import photograph  # noqa: E402
from shop_page import INKS, make_plates  # noqa: E402
from timing import TOP  # noqa: E402

sys.path.insert(0, os.path.join(TOP, "python"))
from press import engine  # noqa: E402
from press.folder import TABLE, PageFolder, PageSource, read_table, write_table  # noqa: E402
from press.inks import Ink  # noqa: E402
from press.job import write_job  # noqa: E402
from press.plates import write_pgm  # noqa: E402
from press.settings import Settings  # noqa: E402

DPI, WIDTH, HEIGHT, SHEET = 600, 4960, 7016, (24_000, 17_000)
DENSITIES = ("0.61", "0.76", "0.16", "1.70")
HELP = """
window.until = (test) => new Promise((done) => { const look = () => test() ? done() : setTimeout(look, 2); look(); });
window.rest = (time) => new Promise((done) => setTimeout(done, time));
window.frame = () => new Promise((done) => requestAnimationFrame(() => { const c = new MessageChannel();
  c.port1.onmessage = () => done(performance.now()); c.port2.postMessage(0); }));
window.loaded = () => desk.view.tiles && !desk.view.tiles.isLoading() && [...document.querySelectorAll('#map .leaflet-tile')].every((one) => one.complete);
window.settled = () => until(() => desk.app.page.version === desk.app.page.shown && !desk.app.isSending && !desk.app.waiting);
window.set = (value) => { const box = document.getElementById('set-TrapWidth'); box.value = value; box.dispatchEvent(new Event('change')); };
window.go = async (zoom, x = 0.36, y = 0.36) => { desk.view.map.setView([desk.app.page.height * y, desk.app.page.width * x], zoom, {animate: false});
  await until(loaded); await settled(); await rest(400); };
"""


@dataclass(frozen=True)
class Row:
    """What is measured, in which unit, and what is wanted of the median and of the worst."""

    name: str
    times: list[float]
    median: float
    worst: float
    unit: str = "ms"

    def __str__(self):
        found, wanted = self.cells()
        return f"{self.name}: {found}; wanted {wanted}: {'yes' if self.holds else 'NO'}"

    @property
    def holds(self):
        """Whether it is as wanted."""
        return statistics.median(self.times) <= self.median and max(self.times) <= self.worst

    def cells(self):
        """What was found, and what is wanted."""
        count, middle, most = len(self.times), statistics.median(self.times), max(self.times)
        found = f"{middle:,.0f} {self.unit}" if count == 1 else f"median {middle:,.0f}, worst {most:,.0f} {self.unit} of {count}"
        wanted = f"{self.median:,.0f}" if self.median == self.worst else f"{self.median:,.0f}, worst {self.worst:,.0f}"
        return found, f"{wanted} {self.unit}"


class Rows:
    """The rows that were measured so far; each is printed at once."""

    def __init__(self):
        self.rows, self.failed = [], []

    def add(self, *of, **more):
        """Adds a row and prints it."""
        self.rows.append(Row(*of, **more))
        print(f"{self.rows[-1]} (load {os.getloadavg()[0]:.1f})", flush=True)

    @contextlib.contextmanager
    def may_fail(self, name):
        """Keeps what goes wrong in the block."""
        try:
            yield
        except Exception as fault:  # pylint: disable=broad-exception-caught
            self.failed.append(name)
            print(f"{name}: FAILED: {str(fault).strip().splitlines()[0] if str(fault).strip() else type(fault).__name__}", flush=True)

    def table(self):
        """The table in Markdown."""
        print("\n| What | Measured | Wanted | |\n|---|---|---|---|")
        for one in self.rows:
            print(f"| {one.name} | {' | '.join(one.cells())} | {'yes' if one.holds else 'no'} |")


def setting(browser):
    """The machine, as a line."""
    with open("/proc/cpuinfo", encoding="utf-8") as file:
        name = next((line.partition(":")[2].strip() for line in file if line.startswith("model name")), platform.machine())
    memory = os.sysconf("SC_PAGE_SIZE") * os.sysconf("SC_PHYS_PAGES") / 1e9
    about = browser.capabilities
    return (f"{os.cpu_count()} processors ({name}), {memory:.0f} GB of memory, {about['browserName']} {about['browserVersion']} on the same "
            f"machine, view of 1,600 by 1,000 pixels, A4 at {DPI} dpi and a sheet of {SHEET[0]:,} by {SHEET[1]:,} in {len(INKS)} inks")


# Pages

def finish_page(folder, name):
    """Writes job and table beside plates, and traps the page."""
    source = PageSource(name.encode() + b".pdf", 1, DPI)
    inks = tuple(Ink(ink, ink.encode(), ink.encode(), density) for ink, density in zip(INKS, DENSITIES))
    with open(os.path.join(folder, "page.job"), "wb") as file:
        file.write(write_job(source, inks, []).text)
    write_table(folder, source, inks)
    engine.trap(PageFolder.read(folder), Settings())


def make_page(folder, name):
    """A page that is measured, traps and all."""
    page = os.path.join(folder, name, "page-001")
    os.makedirs(page)
    if name == "shop":
        make_plates(page, WIDTH, HEIGHT, 1, 255)
    elif name == "photograph":
        for seed, ink in enumerate(INKS):
            write_pgm(os.path.join(page, ink + ".pgm"), photograph(WIDTH, HEIGHT, seed), 255)
    else:
        # A sheet is the shop page again and again.
        times = -(-SHEET[1] // HEIGHT), -(-SHEET[0] // WIDTH)
        for ink, plate in zip(INKS, PageFolder.read(os.path.join(folder, "shop", "page-001")).plates().arrays):
            write_pgm(os.path.join(page, ink + ".pgm"), numpy.tile(plate, times)[:SHEET[1], :SHEET[0]], 255)
    finish_page(page, name)


def take_pages(kept, folder, names):
    """Makes the pages that are not kept yet, and gives each a second name in the folder: the editor changes no file, it replaces them."""
    for name in names:
        if not os.path.isdir(os.path.join(kept, name, "page-001", "trapped")):
            shutil.rmtree(os.path.join(kept, name), ignore_errors=True)
            make_page(kept, name)
        shutil.copytree(os.path.join(kept, name), os.path.join(folder, name), copy_function=os.link)


# Server and browser

class Desk:
    """A server and a browser whose map has 1,600 by 1,000 pixels."""

    def __init__(self, folder):
        with socket.socket() as probe:
            probe.bind(("127.0.0.1", 0))
            self.port = probe.getsockname()[1]
        self.folder = folder
        self.start()
        options = webdriver.ChromeOptions()
        for word in ("--headless=new", "--no-sandbox", "--disable-dev-shm-usage", "--hide-scrollbars", "--window-size=2200,1210"):
            options.add_argument(word)
        self.browser = webdriver.Chrome(options=options)
        self.browser.set_script_timeout(1800)

    def start(self):
        """Starts the server."""
        words = [os.path.join(TOP, "press", "desk"), self.folder, "--no-open", "--port", str(self.port)]
        self.server = subprocess.Popen(words, stdout=subprocess.PIPE, text=True)
        self.server.stdout.readline()

    def stop(self):
        """Ends it."""
        self.server.terminate()
        self.server.wait()

    def open(self, name=None):
        """Opens the app, and the first page of a job."""
        self.browser.get(f"http://127.0.0.1:{self.port}/")
        self.run(HELP + "await until(() => window.desk?.app.ready);")
        if name:
            self.run(f"const page = desk.app.jobs.find((job) => job.name.startsWith('{name}')).pages[0].id;"
                     "const pick = document.getElementById('page'); pick.value = page; pick.dispatchEvent(new Event('change'));"
                     "await until(() => desk.app.page?.id === page); await until(loaded); await settled();")

    def run(self, text):
        """Runs a script, and returns what it does."""
        found = self.browser.execute_async_script(
            "const done = arguments[arguments.length - 1]; (async () => {" + text + "})().then(done, (fault) => done('fault ' + fault))")
        if isinstance(found, str) and found.startswith("fault "):
            raise RuntimeError(found)
        return found

    def close(self):
        """Ends both."""
        self.browser.quit()
        self.stop()


# Rows

def upload(desk, rows, _):
    """From the file to the first page's tiles, three times."""
    times = []
    for _ in range(3):
        desk.open()
        known = desk.run("return desk.app.jobs.map((job) => job.id)")
        start = time.monotonic()
        desk.browser.find_element("id", "file").send_keys(os.path.join(TOP, "examples", "label", "label.pdf"))
        desk.run(f"""const known = {known}, sent = () => desk.app.jobs.find((job) => !known.includes(job.id))?.pages.find((page) => page.number === 1 && page.id);
          await until(sent); const page = sent().id; const pick = document.getElementById('page'); pick.value = page;
          pick.dispatchEvent(new Event('change')); await until(() => desk.app.page?.id === page); await until(loaded); await frame();""")
        times.append(1000 * (time.monotonic() - start))
        # The second page is made before the next file is sent.
        desk.run(f"await until(() => desk.app.jobs.every((job) => {known}.includes(job.id) || job.state === 'done'))")
    rows.add("upload of the label to its first page, with plates and traps", times, 3000, 3000)


def moves(desk, rows, options):
    """200 moves, and those of them at 1:1; twice on each page, since a browser draws its first pictures slowly."""
    for name in ("shop", "photograph"):
        found = []
        for _ in range(2):
            desk.open(name)
            found.append(desk.run(f"""const out = [], random = (() => {{ let s = 7; return () => (s = s * 16807 % 2147483647) / 2147483647; }})(), p = desk.app.page;
              for (let k = 0; k < {options.moves}; k++) {{ const zoom = -Math.floor(random() * 5), at = [random() * p.height, random() * p.width]; await rest(15);
                const start = performance.now(); desk.view.map.setView(at, zoom, {{animate: false}}); await until(loaded); out.push([await frame() - start, zoom]); }}
              return out;"""))
        for number, one in enumerate(found, 1):
            rows.add(f"pan or zoom, {name}, run {number}", [time for time, _ in one], 80, 300)
        rows.add(f"pan at 1:1, {name}", [time for one in found for time, zoom in one if zoom == 0], 80, 300)


def change(desk, rows, options):
    """A change to new pixels at 1:1."""
    for name in ("shop", "photograph", *(["sheet"] if options.sheet else [])):
        with rows.may_fail(f"change, {name}"):
            desk.open(name)
            desk.run("await go(0); desk.view.times.length = 0;")
            for k in range(options.runs):
                desk.run(f"const n = desk.view.times.length; set({0.3 + 0.05 * (k % 13):.2f}); await until(() => desk.view.times.length > n);"
                         f"{'' if name == 'sheet' else 'await settled();'} await rest(500);")
            rows.add(f"change to new pixels at 1:1, {name}", [one["total"] for one in desk.run("return desk.view.times")], 150, 250)
            desk.run("await settled();")


def page(desk, rows, options):
    """A change to the whole page, seen as a whole; and to the new plates in the folder while one looks at 1:1."""
    for name in ("shop", "photograph"):
        desk.open(name)
        desk.run("desk.view.fit(); await until(loaded); await settled();")
        rows.add(f"change to the whole page, {name}", [desk.run(
            f"await rest(600); const start = performance.now(), old = desk.app.page.shown; set({0.32 + 0.05 * (k % 9):.2f});"
            "await until(() => desk.app.page.shown > old); await settled(); await until(loaded); return await frame() - start;")
            for k in range(max(3, options.runs // 3))], 1500, 1500)


def why(desk, rows, options):
    """A click to its reason, by the trap's reach."""
    for name in ("shop", "photograph"):
        for width, wanted in ((1, 30), (10, 100)):
            desk.open(name)
            desk.run(f"set({width}); await until(() => desk.app.page.settings.TrapWidth === {width}0000); await settled();")
            rows.add(f"a click to its why, traps of {width} pt, {name}", desk.run(f"""const out = [], p = desk.app.page;
              for (let k = 0; k < {options.runs}; k++) {{ const x = 300 + k * 139 % (p.width - 600), y = 300 + k * 211 % (p.height - 600), start = performance.now();
                await (await fetch(`/api/pages/${{p.id}}/why/${{x}}/${{y}}`)).json(); out.push(performance.now() - start); }} return out;"""), wanted, wanted)


class Memory(threading.Thread):
    """Looks at the private memory of a process and all below it, in megabytes, until it is stopped."""

    def __init__(self, process):
        super().__init__(daemon=True)
        self.process, self.most, self.own, self.below, self.ended = process, 0.0, 0.0, 0.0, threading.Event()

    def run(self):
        while not self.ended.wait(0.05):
            own, below = self.look()
            self.most, self.own, self.below = max(self.most, own + below), max(self.own, own), max(self.below, below)

    def look(self):
        """The memory of the process, and that of all below it."""
        parents, sizes = {}, {}
        for number in map(int, filter(str.isdigit, os.listdir("/proc"))):
            with contextlib.suppress(OSError, ValueError), open(f"/proc/{number}/status", encoding="utf-8") as file:
                said = dict(line.split(":", 1) for line in file)
                parents[number], sizes[number] = int(said["PPid"]), int(said.get("RssAnon", "0 kB").split()[0]) / 1024
        below = {number for number in parents if self.process in ancestors(number, parents)}
        return sizes.get(self.process, 0.0), sum(sizes[number] for number in below)

    def stop(self):
        """Looks no more."""
        self.ended.set()
        self.join()


def ancestors(number, parents):
    """All processes above one."""
    found = set()
    while number in parents and parents[number] not in found:
        number = parents[number]
        found.add(number)
    return found


def memory(desk, rows, _):
    """Ten A4 pages open, each looked at from near and far and changed twice; the greatest that is seen while they are trapped."""
    first = os.path.join(desk.folder, "shop", "page-001")
    for number in range(2, 11):
        made = os.path.join(desk.folder, "shop", f"page-{number:03d}")
        shutil.copytree(first, made, copy_function=os.link, ignore=shutil.ignore_patterns(".desk"))
        source, inks = read_table(first)
        os.remove(os.path.join(made, TABLE))
        write_table(made, PageSource(source.pdf, number, source.resolution), inks)
        # The server writes into neither of them, and replaces files and folders as a whole.
    desk.stop()
    desk.start()
    desk.open()
    watch = Memory(desk.server.pid)
    watch.start()
    for number in range(10):
        desk.run(f"""const page = desk.app.jobs.find((job) => job.name.startsWith('shop')).pages[{number}].id, pick = document.getElementById('page');
          pick.value = page; pick.dispatchEvent(new Event('change')); await until(() => desk.app.page.id === page); await until(loaded); await settled();
          set({0.4 + 0.01 * number:.2f}); await settled(); await until(loaded); await go(0); set({0.5 + 0.01 * number:.2f}); await rest(300);""")
    desk.run("await settled();")
    watch.stop()
    rows.add("private memory of the server and its children, ten A4 pages open and edited", [watch.most], 300, 300, unit="MB")
    print(f"  the server at most {watch.own:.0f} MB, its children {watch.below:.0f} MB, the server at the end {watch.look()[0]:.0f} MB", flush=True)


def app_bytes(desk, rows, _):
    """What the browser loads before the first tile."""
    desk.browser.execute_cdp_cmd("Network.enable", {})
    desk.browser.execute_cdp_cmd("Network.setCacheDisabled", {"cacheDisabled": True})
    desk.open()
    found = desk.run("return [...performance.getEntriesByType('navigation'), ...performance.getEntriesByType('resource')]"
                     ".filter((one) => !one.name.includes('/tiles/')).map((one) => one.transferSize)")
    desk.browser.execute_cdp_cmd("Network.setCacheDisabled", {"cacheDisabled": False})
    rows.add("bytes of the app before the first tile", [sum(found) / 1000], 300, 300, unit="kB")


def sheet(desk, rows, options):
    """A sheet open again after a restart, its reduced copies kept in its folder."""
    if not options.sheet:
        print("a sheet open again after a restart: left out (--no-sheet)", flush=True)
        return
    desk.open("sheet")
    levels = [os.path.join(desk.folder, "sheet", "page-001", ".desk", name + ".levels") for name in ("before", "after")]
    end = time.monotonic() + 60
    while not all(has_header(one) for one in levels) and time.monotonic() < end:
        time.sleep(0.1)
    times = []
    for _ in range(3):
        desk.stop()
        desk.start()
        desk.open()
        times.append(desk.run(
            "const page = desk.app.jobs.find((job) => job.name.startsWith('sheet')).pages[0].id, pick = document.getElementById('page');"
            "const start = performance.now(); pick.value = page; pick.dispatchEvent(new Event('change'));"
            "await until(() => desk.app.page?.id === page); await until(loaded); return await frame() - start;"))
    rows.add("a sheet open again after a restart", times, 1000, 1000)


def has_header(path):
    """Whether the editor has kept reduced copies for good."""
    with open(path, "rb") as file:
        return file.read(1) == b"{"


ROWS = {"bytes": app_bytes, "upload": upload, "moves": moves, "change": change, "page": page, "why": why, "memory": memory, "sheet": sheet}


def main():
    """Measures what is asked for."""
    parser = argparse.ArgumentParser(usage=__doc__)
    parser.add_argument("--what", default=",".join(ROWS))
    parser.add_argument("--pages", default=None)
    parser.add_argument("--runs", type=int, default=30)
    parser.add_argument("--moves", type=int, default=200)
    parser.add_argument("--no-sheet", dest="sheet", action="store_false")
    options = parser.parse_args()
    options.what = options.what.split(",")
    options.sheet = options.sheet and bool({"sheet", "change"} & set(options.what))
    rows, start = Rows(), time.monotonic()
    # A signal ends the server and the browser too.
    signal.signal(signal.SIGTERM, lambda *_: sys.exit(1))
    with contextlib.ExitStack() as stack:
        kept = options.pages or stack.enter_context(tempfile.TemporaryDirectory(prefix="bench-desk-pages-"))
        os.makedirs(kept, exist_ok=True)
        folder = stack.enter_context(tempfile.TemporaryDirectory(prefix="bench-desk-", dir=os.path.dirname(os.path.abspath(kept))))
        take_pages(kept, folder, ["shop", "photograph"] + ["sheet"] * options.sheet)
        print(f"pages made in {time.monotonic() - start:.0f} s", flush=True)
        desk = Desk(folder)
        try:
            print(setting(desk.browser), flush=True)
            for name in options.what:
                with rows.may_fail(name):
                    ROWS[name](desk, rows, options)
        finally:
            desk.close()
        rows.table()
        print(f"\n{time.monotonic() - start:.0f} s; load {os.getloadavg()[0]:.1f}; failed: {', '.join(rows.failed) or 'none'}")


if __name__ == "__main__":
    main()
