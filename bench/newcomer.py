#!/usr/bin/env python3
# SPDX-License-Identifier: Apache-2.0
"""Times the first quarter of an hour of somebody new: from `git clone` to a zone that is trapped anew on the label, by README alone.

    bench/newcomer.py [--folder DIR]

It clones the repository, takes the commands from the README of the clone, and runs them there as they stand, without any setting of
the caller's. Then it does in headless Chromium, by mouse and keys, what README says: it draws a rectangle on the page and gives it
another trap width. Each step is printed with its time. The status is 1 if all of them take more than three minutes, or if the plates
do not change inside of the zone alone. The packages that README names have to be installed. If release/ is older than its sources,
the programs of TRAP_BIN and TRAP_LIBRARY are taken, and a line says so; if these are not set, the status is 77.
"""
import argparse
import os
import re
import shlex
import subprocess
import sys
import tempfile
import time

# This folder has a copy.py of its own, which must not be taken for Python's.
BENCH = sys.path.pop(0)
import numpy  # noqa: E402
from selenium import webdriver  # noqa: E402
from selenium.webdriver import ActionChains  # noqa: E402
from selenium.webdriver.common.by import By  # noqa: E402
from selenium.webdriver.common.keys import Keys  # noqa: E402

TOP = os.path.dirname(BENCH)
MOST_SECONDS, WAIT, SKIPPED = 180, 170, 77
WIDTH = "3"
REACH = 3 * 600 / 72 + 1
"""How far a trap of that width reaches, in pixels."""
KEPT = ("const done = arguments[0]; fetch(`/api/pages/${desk.app.page.id}`)"
        ".then((one) => one.json()).then((page) => done(page.kept))")
"""A script that answers whether the folder of the page has what is shown."""


class Steps:
    """Steps with their times."""

    def __init__(self):
        self.start = self.last = time.monotonic()

    def done(self, what):
        """Prints a step."""
        now = time.monotonic()
        print(f"{now - self.last:6.1f} s  {what}", flush=True)
        self.last = now

    @property
    def total(self):
        """All of it in seconds."""
        return self.last - self.start


def commands_of(readme):
    """The commands of README: what makes the label's pages, and what opens the editor."""
    made = re.search(r"^    (press/all \S+ \S+)$", readme, re.M)
    opened = made and re.search(f"`(press/desk {re.escape(made[1].split()[-1])})`", readme)
    if not made or not opened or "*Rectangle*" not in readme or "*Trap\nwidth*" not in readme and "*Trap width*" not in readme:
        raise SystemExit("README does not say how: press/all, press/desk, Rectangle and Trap width")
    return made[1], opened[1]


def packages_of(readme):
    """The packages that README has installed for these commands."""
    found = " ".join(re.findall(r"apt install ((?:[a-z0-9{},-]+|\\\n *| )+)", readme)).replace("\\\n", " ")
    several = re.compile(r"(\S*)\{([^}]*)\}")
    return {name for word in found.split() for name in
            ([several.match(word)[1] + one for one in several.match(word)[2].split(",")] if several.match(word) else [word])}


def environment(clone, folder):
    """The environment of somebody new: nothing that this project reads, and a browser that notes which address it is to open."""
    opener = os.path.join(folder, "browser")
    with open(opener, "w", encoding="utf-8") as file:
        file.write(f"#!/bin/sh\nprintf '%s\\n' \"$1\" >{shlex.quote(os.path.join(folder, 'address.new'))}\n"
                   f"mv {shlex.quote(os.path.join(folder, 'address.new'))} {shlex.quote(os.path.join(folder, 'address'))}\n")
    os.chmod(opener, 0o755)
    own = {name: value for name, value in os.environ.items() if not name.startswith(("TRAP_", "PRESS_", "PYTHON"))}
    own["BROWSER"] = opener + " %s"
    for name in ("trapsheet", "trapkeep", "trap_c"):
        checked = [os.path.join(clone, "tools", "release"), "--unpack", name]
        if subprocess.run(checked, env=own, capture_output=True, check=False).returncode:
            if not {"TRAP_BIN", "TRAP_LIBRARY"} <= set(os.environ):
                print("release/ is older than its sources, and TRAP_BIN and TRAP_LIBRARY are not set")
                sys.exit(SKIPPED)
            print("          release/ is older than its sources: the programs of TRAP_BIN and TRAP_LIBRARY are taken")
            return {**own, **{name: value for name, value in os.environ.items() if name in ("TRAP_BIN", "TRAP_LIBRARY")}}
    return own


def opened_browser():
    """A browser window of usual size."""
    options = webdriver.ChromeOptions()
    for word in ("--headless=new", "--no-sandbox", "--disable-dev-shm-usage", "--window-size=1500,950"):
        options.add_argument(word)
    return webdriver.Chrome(options=options)


def wait_for(test, what):
    """Waits until something is there."""
    end = time.monotonic() + WAIT
    while time.monotonic() < end:
        found = test()
        if found:
            return found
        time.sleep(0.05)
    raise SystemExit(f"this never came: {what}")


def address_in(folder):
    """The address that the editor had a browser open."""
    path = os.path.join(folder, "address")
    if not os.path.exists(path):
        return ""
    with open(path, encoding="utf-8") as file:
        return file.read().strip()


def plates_of(page):
    """The trapped plates of a page, rows by columns each."""
    found = {}
    for name in sorted(os.listdir(os.path.join(page, "trapped"))):
        if name.endswith(".pgm"):
            with open(os.path.join(page, "trapped", name), "rb") as file:
                width, height = (int(word) for word in (file.readline(), file.readline())[1].split())
                file.readline()
                found[name] = numpy.frombuffer(file.read(), "u1").reshape(height, width)
    return found


def draw_zone(browser):
    """Draws a rectangle over the middle of the page, by mouse."""
    page = browser.find_element(By.ID, "map")
    browser.find_element(By.XPATH, "//button[text()='Rectangle']").click()
    ActionChains(browser).move_to_element_with_offset(page, -160, -110).click().move_to_element_with_offset(page, 120, 90).click().perform()


def set_width(browser):
    """Types another trap width for the zone."""
    label = "//ul[@id='zones']//label[starts-with(text(), 'Trap width')]"
    wait_for(lambda: browser.find_elements(By.XPATH, label), "the zone's trap width")
    box = browser.find_element(By.ID, browser.find_element(By.XPATH, label).get_attribute("for"))
    box.send_keys(Keys.CONTROL, "a")
    box.send_keys(WIDTH, Keys.TAB)


def check(browser, page, before):
    """What the plates have: changes inside of the zone, and around it no farther than a trap reaches."""
    corners = browser.execute_script("return desk.app.page.edits.zones[0].points")
    (left, right), (top, bottom) = ((min(one[axis] for one in corners), max(one[axis] for one in corners)) for axis in (0, 1))
    after = plates_of(page)
    changed = numpy.any([before[name] != after[name] for name in before], axis=0)
    rows, columns = numpy.nonzero(changed)
    if not rows.size:
        raise SystemExit("no pixel of the zone was trapped anew")
    if not (left - REACH <= columns.min() and columns.max() <= right + REACH and top - REACH <= rows.min() and rows.max() <= bottom + REACH):
        raise SystemExit("pixels changed outside of the zone")
    return int(changed.sum())


def run(folder):
    """Does all of it in a folder."""
    clone, steps = os.path.join(folder, "trap"), Steps()
    subprocess.run(["git", "clone", "-q", "file://" + TOP, clone], check=True)
    steps.done("git clone")
    with open(os.path.join(clone, "README.md"), encoding="utf-8") as file:
        readme = file.read()
    made, opened = commands_of(readme)
    missing = [name for name in packages_of(readme) if subprocess.run(["dpkg", "-s", name], capture_output=True, check=False).returncode]
    print(f"          not installed, of the packages that README names: {', '.join(sorted(missing)) or 'none'}")
    own = environment(clone, folder)
    steps.done("the programs of release/ unpacked")
    subprocess.run(shlex.split(made), cwd=clone, env=own, check=True, stdout=subprocess.DEVNULL, stderr=subprocess.DEVNULL)
    steps.done(made)
    with subprocess.Popen(shlex.split(opened), cwd=clone, env=own, stdout=subprocess.DEVNULL) as server:
        browser = opened_browser()
        try:
            browser.get(wait_for(lambda: address_in(folder) or server.poll() is not None and sys.exit(f"{opened} ended"), "the address"))
            wait_for(lambda: browser.execute_script("return !!window.desk?.app.page"), "the page")
            steps.done(f"{opened}, and the page in the browser")
            page = os.path.join(clone, opened.split()[-1], "page-001")
            before = plates_of(page)
            draw_zone(browser)
            set_width(browser)
            wait_for(lambda: browser.execute_script(
                f"const p = desk.app.page; return p.edits.zones[0]?.settings.TrapWidth === {WIDTH}0000 && p.version === p.shown"), "the trapped zone")
            steps.done("a rectangle drawn, its trap width set, and the page trapped")
            # The plates are in memory at first.
            wait_for(lambda: browser.execute_async_script(KEPT), "the plates in the page's folder")
            print(f"          {check(browser, page, before):,} pixels of the zone are trapped anew")
        finally:
            browser.quit()
            server.terminate()
    print(f"{steps.total:6.1f} s  in all")
    return steps.total


def main():
    """Measures it once."""
    parser = argparse.ArgumentParser(usage=__doc__)
    parser.add_argument("--folder", default=None)
    options = parser.parse_args()
    with tempfile.TemporaryDirectory(prefix="newcomer-", dir=options.folder) as folder:
        sys.exit(run(folder) > MOST_SECONDS)


if __name__ == "__main__":
    main()
