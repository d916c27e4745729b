# SPDX-License-Identifier: Apache-2.0
"""The trap editor in a real browser: what its canvas shows is what the plates have. Run by -m browser."""
import base64
import io
import shutil
import subprocess
import time
from pathlib import Path

import pytest

np = pytest.importorskip("numpy")
image = pytest.importorskip("PIL.Image")
selenium = pytest.importorskip("selenium.webdriver")
pytest.importorskip("starlette")

from press import engine, tools  # noqa: E402
from press.folder import PageFolder  # noqa: E402
from press.settings import Settings  # noqa: E402
from selenium.webdriver import ActionChains  # noqa: E402
from selenium.webdriver.common.by import By  # noqa: E402
from selenium.webdriver.common.keys import Keys  # noqa: E402
from test_desk_server import HEIGHT, LIBRARY, WIDTH, free_port, make_page, trapped_by_command, files_of  # noqa: E402

pytestmark = [pytest.mark.browser, pytest.mark.skipif(
    LIBRARY is None or not shutil.which("chromedriver"), reason="libtrap or chromium-driver is not there")]
SECONDS = 60
LABEL = Path(__file__).resolve().parents[2] / "examples" / "label" / "label.pdf"


class Desk:
    """A server of a folder, and the browser that looks at it."""

    def __init__(self, folder, size=(1500, 950)):
        self.folder, self.port, self.server = folder, free_port(), None
        self.start()
        options = selenium.ChromeOptions()
        for word in ("--headless=new", "--no-sandbox", "--disable-dev-shm-usage", "--hide-scrollbars",
                     f"--window-size={size[0]},{size[1]}"):
            options.add_argument(word)
        self.browser = selenium.Chrome(options=options)
        self.browser.set_script_timeout(SECONDS)

    def start(self):
        """Starts the server; the line that it prints says that it answers."""
        command = [str(Path(tools.PRESS) / "desk"), str(self.folder), "--no-open", "--port", str(self.port)]
        self.server = subprocess.Popen(command, stdout=subprocess.PIPE, text=True)
        assert self.server.stdout.readline()

    def stop(self):
        """Ends the server."""
        self.server.terminate()
        assert self.server.wait(SECONDS) == 0
        self.server.stdout.close()

    def open(self):
        """Opens the app, and waits until it has what it shows."""
        self.browser.get(f"http://127.0.0.1:{self.port}/")
        self.wait("return !!(window.desk && desk.app.ready)")

    def wait(self, script):
        """Waits until a script says yes."""
        end = time.monotonic() + SECONDS
        while time.monotonic() < end:
            if self.browser.execute_script(script):
                return
            time.sleep(0.05)
        raise AssertionError(f"never true: {script}; the app says: {self.status()}")

    def status(self):
        """The line that the app shows."""
        return self.browser.find_element(By.ID, "status").text

    def settle(self):
        """Waits until the page is trapped and its tiles are there."""
        self.wait("return desk.app.page.version === desk.app.page.shown && !desk.app.isSending && !desk.app.waiting")
        self.wait("return [...document.querySelectorAll('#map .leaflet-tile')].every((one) => one.complete)")

    def close_up(self):
        """The whole page at 1:1."""
        self.browser.execute_script(
            "desk.view.map.setView([desk.app.page.height / 2, desk.app.page.width / 2], 0, {animate: false})")

    def set(self, box, value):
        """Types a value into a box."""
        script = ("const box = document.getElementById(arguments[0]); box.value = arguments[1];"
                  "box.dispatchEvent(new Event('change', {bubbles: true}))")
        self.browser.execute_script(script, box, str(value))

    def click(self, where):
        """Clicks what a selector finds."""
        self.browser.execute_script("document.querySelector(arguments[0]).click()", where)

    def picture(self):
        """The page's picture as red, green and blue, from the tiles or the live canvas."""
        script = """
          const done = arguments[arguments.length - 1], canvas = document.createElement('canvas'), {page} = desk.app;
          Object.assign(canvas, {width: page.width, height: page.height});
          const context = canvas.getContext('2d'), live = document.querySelector('.live-picture');
          if (live) context.drawImage(live, 0, 0);
          else for (const {el, coords} of Object.values(desk.view.tiles._tiles))
            if (coords.z === 0) context.drawImage(el, coords.x * 512, coords.y * 512);
          done(canvas.toDataURL());"""
        data = self.browser.execute_async_script(script).partition(",")[2]
        return np.asarray(image.open(io.BytesIO(base64.b64decode(data))).convert("RGB"))

    def live_picture(self):
        """The live canvas that was drawn last, with its place on the page."""
        data, left, top = self.browser.execute_script(
            "const {canvas, part} = desk.view.picture; return [canvas.toDataURL(), ...JSON.parse(part).slice(1, 3)]")
        found = image.open(io.BytesIO(base64.b64decode(data.partition(",")[2]))).convert("RGB")
        return np.asarray(found), left, top

    def close(self):
        """Ends both."""
        self.browser.quit()
        if self.server.poll() is None:
            self.stop()


@pytest.fixture(name="desk")
def fixture_desk(tmp_path):
    """A desk with one page."""
    make_page(tmp_path / "jobs" / "made" / "page-001")
    found = Desk(tmp_path / "jobs")
    yield found
    found.close()


def wait_for_folder(page):
    """Waits until a page's folder has the traps of its job, which are in memory at first."""
    from press.desk.kept import Kept
    kept, end = Kept(Path(page)), time.monotonic() + SECONDS
    while kept.is_behind((Path(page) / "page.job").read_bytes()) and time.monotonic() < end:
        time.sleep(0.1)


def kept_files(page):
    """The trapped plates and reports that a page's folder has then."""
    wait_for_folder(page)
    return files_of(page)


def colours_of(folder, trapped=True):
    """The picture of a page's plates, as the editor paints it."""
    from press.desk.page import DeskPage
    wait_for_folder(folder)
    page = DeskPage(str(folder))
    pyramid = page.after if trapped else page.before
    pixels = page.inks.paint([np.asarray(plane) for plane in pyramid.planes], 0xFFFF)
    return pixels.view("u1").reshape(HEIGHT, WIDTH, 4)[:, :, :3]


def test_the_picture_is_that_of_the_plates(desk):
    """Before and after, every pixel; and with plates switched off."""
    desk.open()
    desk.close_up()
    page = desk.folder / "made" / "page-001"
    for mode in ("after", "before"):
        desk.click(f"[data-mode={mode}]")
        desk.settle()
        assert np.array_equal(desk.picture(), colours_of(page, mode == "after"))
    desk.click("#ink-1")
    desk.wait("return desk.view.shownInks !== 65535")
    desk.settle()
    assert not np.array_equal(desk.picture(), colours_of(page, False))


def test_a_new_width_is_seen_at_once_and_is_that_of_the_command(desk, tmp_path):
    """The live picture, then the tiles, then the files."""
    desk.open()
    desk.close_up()
    desk.settle()
    before = desk.picture()
    desk.set("set-TrapWidth", 3.5)
    desk.wait("return desk.app.page.version === 2")
    desk.settle()
    desk.wait("return !document.querySelector('.live-picture')")
    desk.settle()
    page = desk.folder / "made" / "page-001"
    assert np.array_equal(desk.picture(), colours_of(page)) and not np.array_equal(desk.picture(), before)
    assert kept_files(page) == trapped_by_command(page, tmp_path / "again")


def test_changes_at_one_to_one_take_a_request_each_and_are_exact(desk):
    """The answer to a change has the pixels. Each live picture is that of the plates which follow: the first one, and
    those that are drawn over it."""
    desk.open()
    desk.close_up()
    desk.settle()
    desk.wait("return desk.view.base.key !== ''")
    page = desk.folder / "made" / "page-001"
    for version, width in enumerate((3.5, 1, 5), 2):
        desk.browser.execute_script("performance.clearResourceTimings()")
        desk.set("set-TrapWidth", width)
        desk.wait(f"return desk.app.page.shown === {version}")
        desk.settle()
        asked = desk.browser.execute_script("return performance.getEntriesByType('resource').map((one) => one.name)")
        assert [one.rpartition("/")[2] for one in asked if one.endswith(("/edits", "/view"))] == ["edits"]
        pixels, left, top = desk.live_picture()
        height, width = pixels.shape[:2]
        assert np.array_equal(pixels, colours_of(page)[top:top + height, left:left + width])


def test_a_slider_is_pulled(desk):
    """The page follows a slider as long as it is held, and the slider stays under the hand."""
    desk.open()
    desk.close_up()
    desk.settle()
    slider, widths = desk.browser.find_element(By.ID, "set-TrapWidth-slider"), []
    ActionChains(desk.browser).click_and_hold(slider).perform()
    for _ in range(4):
        before = desk.browser.execute_script("return desk.app.page.version")
        # Headless Chromium takes longer steps for no pull, on any page.
        ActionChains(desk.browser).move_by_offset(4, 0).perform()
        desk.wait(f"return desk.app.page.version > {before} && !desk.app.isSending && !desk.app.waiting")
        widths.append(desk.browser.execute_script("return desk.app.page.settings.TrapWidth"))
    ActionChains(desk.browser).release().perform()
    assert widths == sorted(set(widths))
    desk.settle()
    has_last = f"return Math.round(1e4 * document.getElementById('set-TrapWidth%s').value) === {widths[-1]}"
    desk.wait(has_last % "-slider")
    desk.set("set-TrapWidth", 5_000)
    desk.wait("return document.getElementById('status').classList.contains('alert')")
    desk.wait(has_last % "")


def test_gaps_are_marked_by_a_tick_and_counted(desk):
    """A plate is moved by its slider: green pixels, as many as the line below says; none once the tick is off."""
    desk.open()
    desk.close_up()
    desk.click("[data-mode=before]")
    desk.settle()
    move = ("const slider = document.getElementById('shift-0-0'); slider.value = 0.36;"
            "slider.dispatchEvent(new Event('input', {bubbles: true}))")
    desk.browser.execute_script(move)
    desk.wait("return !!document.querySelector('.live-picture') && !desk.view.busy")
    green = [0, 0xE6, 0x3C]
    assert not (desk.live_picture()[0] == green).all(axis=2).any()
    assert not desk.browser.find_element(By.ID, "gaplegend").is_displayed()
    desk.click("#gaps")
    desk.wait("return document.getElementById('gapcount').textContent.includes('in view') && !desk.view.busy")
    marked = int((desk.live_picture()[0] == green).all(axis=2).sum())
    said = desk.browser.find_element(By.ID, "gapcount").text
    assert marked > 40 and f"{marked} pixels in view" in said
    desk.click("[data-mode=after]")
    desk.wait("return document.getElementById('gapcount').textContent.includes(' 0 pixels in view')")
    desk.browser.find_element(By.TAG_NAME, "body").send_keys("g")
    desk.wait("return document.getElementById('gaplegend').hidden && !desk.view.busy")


def test_a_zone_is_drawn_changed_undone_and_kept(desk, tmp_path):
    """By mouse; traps off inside; undo; and all of it after a restart of the server."""
    desk.open()
    desk.close_up()
    desk.settle()
    before = desk.picture()
    page_map = desk.browser.find_element(By.ID, "map")
    desk.click("#rectangle")
    ActionChains(desk.browser).move_to_element_with_offset(page_map, -50, -40).click().move_to_element_with_offset(
        page_map, 20, 30).click().perform()
    desk.wait("return desk.app.page.edits.zones.length === 1")
    desk.click("#zone-0-on")
    desk.wait("return desk.app.page.edits.zones[0].settings.Enabled === false")
    desk.settle()
    desk.wait("return !document.querySelector('.live-picture')")
    desk.settle()
    changed = np.any(desk.picture() != before, axis=2)
    (left, top), _, (right, bottom), _ = desk.browser.execute_script("return desk.app.page.edits.zones[0].points")
    rows, columns = np.nonzero(changed)
    reach = int(2 * 72 / 72 + 0.5)
    assert changed.any()
    assert left - reach <= columns.min() and columns.max() < right + reach
    assert top - reach <= rows.min() and rows.max() < bottom + reach
    desk.stop()
    desk.start()
    desk.open()
    assert desk.browser.execute_script("return desk.app.page.edits.zones.length") == 1
    page = desk.folder / "made" / "page-001"
    desk.settle()
    assert kept_files(page) == trapped_by_command(page, tmp_path / "again")


def test_a_zone_has_all_settings_of_its_own(desk, tmp_path):
    """The width is shown, the others as soon as somebody wants them; the page's own stay."""
    desk.open()
    desk.browser.execute_script("desk.view.fit()")
    corners = [[20, 20], [100, 20], [100, 80], [20, 80]]
    desk.browser.execute_script("desk.drawing.done(arguments[0])", corners)
    desk.wait("return !!document.querySelector('#zones details')")
    desk.click("#zones details summary")
    wanted = {"width": ("TrapWidth", 3.5), "BlackWidth": ("BlackWidth", 1.5), "StepLimit": ("StepLimit", 0.5),
              "SlidingTrapLimit": ("SlidingTrapLimit", 0.9), "TrapColorScaling": ("TrapColorScaling", 0.6)}
    before = desk.browser.execute_script("return desk.app.page.settings")
    for box, (name, value) in wanted.items():
        desk.set(f"zone-0-{box}", value)
        desk.wait(f"return desk.app.page.edits.zones[0].settings.{name} === {round(value * 10_000)}")
    desk.settle()
    assert desk.browser.find_element(By.ID, "zone-0-StepLimit").is_displayed()
    assert desk.browser.execute_script("return desk.app.page.settings") == before
    page = desk.folder / "made" / "page-001"
    assert kept_files(page) == trapped_by_command(page, tmp_path / "again")


def test_undo_by_key_gives_the_picture_back(desk):
    """Ctrl+Z, and Ctrl+Shift+Z."""
    desk.open()
    desk.close_up()
    desk.settle()
    before = desk.picture()
    desk.set("set-TrapWidth", 4)
    desk.wait("return desk.app.page.version === 2")
    desk.settle()
    after = desk.picture()
    body = desk.browser.find_element(By.TAG_NAME, "body")
    body.send_keys(Keys.CONTROL, "z")
    desk.wait("return desk.app.page.version === 3")
    desk.settle()
    assert np.array_equal(desk.picture(), before)
    body.send_keys(Keys.CONTROL, Keys.SHIFT, "z")
    desk.wait("return desk.app.page.version === 4")
    desk.settle()
    assert np.array_equal(desk.picture(), after)


def test_why_says_what_the_plates_have(desk):
    """A click on a trapped pixel: tints, and the reason."""
    desk.open()
    desk.close_up()
    desk.settle()
    page = PageFolder.read(str(desk.folder / "made" / "page-001"))
    before, after = page.plates().arrays, page.plates(True).arrays
    rows, columns = np.nonzero(np.any([old != new for old, new in zip(before, after)], axis=0))
    row, column = int(rows[len(rows) // 2]), int(columns[len(rows) // 2])
    place = desk.browser.execute_script(
        "const p = desk.view.map.latLngToContainerPoint([arguments[1] + 0.5, arguments[0] + 0.5]),"
        "b = document.getElementById('map').getBoundingClientRect(); return [p.x - b.width / 2, p.y - b.height / 2]",
        column, row)
    page_map = desk.browser.find_element(By.ID, "map")
    ActionChains(desk.browser).move_to_element_with_offset(page_map, round(place[0]), round(place[1])).click().perform()
    desk.wait("return document.getElementById('why').textContent.includes('Pixel')")
    text = desk.browser.find_element(By.ID, "why").text
    assert "trapped" in text and "Magenta" in text and "pixels away" in text
    assert desk.browser.execute_script(
        "const one = document.getElementById('why').getBoundingClientRect(), all = document.getElementById('panels')"
        ".getBoundingClientRect(); return one.top >= all.top && one.bottom <= all.bottom + 1")


def test_two_windows_lose_no_change(desk):
    """The second of two changes on one version is offered again, and both windows show the newest."""
    desk.open()
    first = desk.browser.current_window_handle
    desk.browser.switch_to.new_window("tab")
    desk.open()
    desk.browser.execute_script("desk.app.page.version = 1")
    desk.set("set-TrapWidth", 3)
    desk.wait("return desk.app.page.version === 2")
    desk.browser.switch_to.window(first)
    desk.wait("return desk.app.page.version === 2 && desk.app.page.settings.TrapWidth === 30000")


def test_ten_tabs_on_one_server_work(desk):
    """Each of them shows a change that one of them makes."""
    desk.open()
    for _ in range(9):
        desk.browser.switch_to.new_window("tab")
        desk.open()
    desk.set("set-TrapWidth", 3)
    for handle in desk.browser.window_handles:
        desk.browser.switch_to.window(handle)
        desk.wait("return desk.app.page.settings.TrapWidth === 30000")


def test_a_page_is_approved_and_the_approval_lapses(desk):
    """By name; any change makes it out of date."""
    desk.open()
    desk.browser.execute_script("document.querySelectorAll('details').forEach((one) => { one.open = true; })")
    desk.browser.find_element(By.ID, "approver").send_keys("Ada")
    desk.browser.execute_script(
        "[...document.querySelectorAll('#approval button')].find((one) => one.textContent === 'Approve').click()")
    desk.wait("return document.getElementById('approval').textContent.includes('approved by Ada')")
    desk.set("set-TrapWidth", 3)
    desk.wait("return desk.app.page.version === 2")
    desk.settle()
    desk.wait("return document.getElementById('approval').textContent.includes('out of date')")


def test_a_dropped_file_becomes_pages(desk):
    """The label: uploaded, separated, trapped, and shown, with the plates of the command."""
    if not shutil.which("gs"):
        pytest.skip("Ghostscript is not installed")
    desk.open()
    desk.browser.find_element(By.ID, "file").send_keys(str(LABEL))
    desk.wait("return desk.app.jobs.some((one) => one.name === 'label.pdf' && one.pages.length === 2"
              " && one.state === 'done')")
    folder = next(one for one in desk.folder.iterdir() if one.name.startswith("job-"))
    page = folder / "page-001"
    made = kept_files(page)
    engine.trap(PageFolder.read(str(page)), Settings())
    assert kept_files(page) == made


@pytest.mark.parametrize("size", [(1500, 950), (1000, 760), (420, 900)])
def test_nothing_is_cut_off_at_any_size(tmp_path, size):
    """No control lies outside the window's width."""
    make_page(tmp_path / "jobs" / "made" / "page-001")
    desk = Desk(tmp_path / "jobs", size)
    try:
        desk.open()
        beyond = desk.browser.execute_script(
            "return [...document.querySelectorAll('button, input, select')].filter((one) => one.offsetParent)"
            ".filter((one) => one.getBoundingClientRect().right > innerWidth + 1)"
            ".map((one) => one.id || one.textContent)")
        assert beyond == []
        assert desk.browser.execute_script("return document.documentElement.scrollWidth <= innerWidth")
    finally:
        desk.close()


def test_the_second_picture_shows_an_earlier_version_and_other_settings(desk):
    """Its pixels are those of the plates of that version; both pictures keep one place."""
    desk.open()
    desk.close_up()
    desk.settle()
    first = desk.picture()
    desk.set("set-TrapWidth", 4)
    desk.wait("return desk.app.page.version === 2")
    desk.settle()
    where = "const {lat, lng} = desk.view.map.getCenter(); return [lat, lng, desk.view.map.getZoom()]"
    place = desk.browser.execute_script(where)
    desk.click("#compare")
    desk.wait("return !!desk.other.page")
    assert desk.browser.execute_script(where) == pytest.approx(place, abs=1) and place[2] == 0
    desk.set("compared", "version 1")
    desk.wait("return !!document.querySelector('#other .live-picture')")
    desk.settle()
    found = desk.browser.execute_script(
        "const live = document.querySelector('#other .live-picture'), c = document.createElement('canvas');"
        "Object.assign(c, {width: live.width, height: live.height}); c.getContext('2d').drawImage(live, 0, 0);"
        "return c.toDataURL()").partition(",")[2]
    pixels = np.asarray(image.open(io.BytesIO(base64.b64decode(found))).convert("RGB"))
    assert pixels.shape == first.shape and np.array_equal(pixels, first)
    desk.browser.execute_script("desk.other.map.panBy([17, 9], {animate: false})")
    desk.wait("const one = desk.view.map.getCenter(), two = desk.other.map.getCenter();"
              f"return Math.abs(one.lng - {place[1]} - 17) <= 1 && one.lng === two.lng && one.lat === two.lat")


def test_a_finding_leads_to_its_place(desk):
    """Its link shows the place in the middle of the view."""
    (desk.folder / "made" / "page-001" / "warnings.txt").write_text("warning: total-ink: 320% at 20, 10 mm\n")
    desk.open()
    desk.click("#finding-0-0")
    x, y = desk.browser.execute_script("const {lng, lat} = desk.view.map.getCenter(); return [lng, lat]")
    assert abs(x - 20 * 72 / 25.4) < 8 and abs(HEIGHT - y - 10 * 72 / 25.4) < 8


def test_a_zone_is_drawn_and_changed_by_keys_alone(desk):
    """Draw at the middle of the view by Enter, then set a corner and the width by numbers; and ask why."""
    desk.open()
    desk.close_up()
    desk.settle()
    desk.browser.execute_script("desk.view.map.setZoom(4, {animate: false})")
    body = desk.browser.find_element(By.TAG_NAME, "body")
    body.send_keys("r")
    page_map = desk.browser.find_element(By.ID, "map")
    page_map.send_keys(Keys.ENTER)
    desk.wait("return desk.drawing.points.length === 1")
    for key in (Keys.ARROW_RIGHT, Keys.ARROW_DOWN):
        page_map.send_keys(key)
        desk.wait("return !desk.view.map._panAnim?._inProgress")
    desk.wait("const {lng, lat} = desk.view.map.getCenter(), [x, y] = desk.drawing.points[0];"
              "return lng > x + 5 && lat > y + 5")
    page_map.send_keys(Keys.ENTER)
    desk.wait("return desk.app.page.edits.zones.length === 1")
    desk.browser.execute_script("const box = document.getElementById('zone-0-0-0'); box.focus(); box.select()")
    ActionChains(desk.browser).send_keys("10", Keys.ENTER).perform()
    desk.wait("return Math.abs(desk.app.page.edits.zones[0].points[0][0] - 10 * 72 / 25.4) < 1")
    desk.settle()
    desk.browser.find_element(By.ID, "map").send_keys(Keys.ENTER)
    desk.wait("return document.getElementById('why').textContent.includes('Pixel')")


CONTRAST = """
  const light = (rgb) => { const [r, g, b] = rgb.map((c) => { c /= 255; return c <= 0.03928 ? c / 12.92 : ((c + 0.055) / 1.055) ** 2.4; });
    return 0.2126 * r + 0.7152 * g + 0.0722 * b; };
  const parts = (text) => (text.match(/[\\d.]+/g) || []).map(Number);
  const below = (one) => { for (let at = one; at; at = at.parentElement) { const c = parts(getComputedStyle(at).backgroundColor);
    if (c.length === 3 || c[3] === 1) return c.slice(0, 3); } return [255, 255, 255]; };
  document.querySelectorAll('details').forEach((one) => { one.open = true; });
  return [...document.querySelectorAll('header *, nav *, aside *, footer *')].filter((one) => one.offsetParent && !one.disabled
      && [...one.childNodes].some((node) => node.nodeType === 3 && node.textContent.trim()))
    .map((one) => { const [a, b] = [light(parts(getComputedStyle(one).color).slice(0, 3)), light(below(one))].sort((x, y) => y - x);
      return [(a + 0.05) / (b + 0.05), one.tagName + ' ' + one.textContent.trim().slice(0, 40)]; })
    .filter(([ratio]) => ratio < 4.5);"""


@pytest.mark.parametrize("scheme", ["light", "dark"])
def test_text_has_contrast_and_controls_have_names(desk, scheme):
    """WCAG AA, in both colour schemes: 4.5 to 1; and no control without a name for screen readers."""
    desk.browser.execute_cdp_cmd("Emulation.setEmulatedMedia",
                                 {"features": [{"name": "prefers-color-scheme", "value": scheme}]})
    (desk.folder / "made" / "page-001" / "warnings.txt").write_text("warning: total-ink: 320% at 20, 10 mm\n")
    desk.open()
    assert desk.browser.execute_script(f"return matchMedia('(prefers-color-scheme: {scheme})').matches")
    assert desk.browser.execute_script(CONTRAST) == []
    nodes = desk.browser.execute_cdp_cmd("Accessibility.getFullAXTree", {})["nodes"]
    roles = {"button", "checkbox", "slider", "spinbutton", "textbox", "combobox", "link"}
    unnamed = [node["role"]["value"] for node in nodes if not node.get("ignored")
               and node.get("role", {}).get("value") in roles and not node.get("name", {}).get("value")]
    assert unnamed == []


def separations(page, folder):
    """The plates of a page as gray TIFF files in a folder, and their names."""
    subprocess.run([str(Path(tools.PRESS) / "tiff"), "-u", str(page), str(folder)], check=True)
    return [f"made-1({name}).tif" for name in ("Cyan", "Magenta", "Yellow", "Black")]


def become_one_page(desk, page):
    """Waits until four separations are a page, whose plates are those of another one."""
    desk.wait("return desk.app.jobs.some((one) => one.name.includes('4 separations') && one.state === 'done')")
    made = next(one for one in desk.folder.iterdir() if one.name.startswith("job-")) / "page-001"
    return all((made / f"{ink}.pgm").read_bytes() == (page / f"{ink}.pgm").read_bytes() for ink in ("Cyan", "Black"))


def test_separations_are_dropped_together(desk, tmp_path):
    """TIFF files that are chosen at once become one page."""
    page = desk.folder / "made" / "page-001"
    names = separations(page, tmp_path / "tiff")
    desk.open()
    desk.browser.find_element(By.ID, "file").send_keys("\n".join(str(tmp_path / "tiff" / name) for name in names))
    assert become_one_page(desk, page)


@pytest.mark.parametrize("is_dropped", [False, True])
def test_separations_come_as_a_folder(desk, tmp_path, is_dropped):
    """One that is chosen, and one that is dropped onto the window. What is no TIFF file in it is left out."""
    page, folder = desk.folder / "made" / "page-001", tmp_path / "tiff"
    separations(page, folder)
    (folder / "notes.txt").write_text("for the plant")
    desk.open()
    if is_dropped:
        data = {"items": [], "files": [str(folder)], "dragOperationsMask": 1}
        for kind in ("dragEnter", "dragOver", "drop"):
            desk.browser.execute_cdp_cmd("Input.dispatchDragEvent", {"type": kind, "x": 80, "y": 200, "data": data})
    else:
        desk.browser.execute_script("document.getElementById('folder').closest('details').open = true")
        desk.browser.find_element(By.ID, "folder").send_keys(str(folder))
    desk.wait("return document.getElementById('status').textContent.includes('1 other files were left out')"
              " || desk.app.jobs.some((one) => one.name.includes('4 separations'))")
    assert become_one_page(desk, page)


def test_keepaway_is_set_in_its_panel(tmp_path):
    """Off, on, as wide as somebody says, and as wide as traps again. A change is marked as a preview, and the page that
    follows is that of the command."""
    from test_desk_keepaway import cyan_of, make_rich_page
    page = make_rich_page(tmp_path / "jobs" / "made" / "page-001")
    desk, first = Desk(tmp_path / "jobs"), cyan_of(page)
    try:
        desk.open()
        desk.close_up()
        desk.settle()
        assert "Drawn back by 0.50 pt under rich black: Cyan on" in desk.browser.find_element(By.ID, "keepawaybox").text
        seen = ("window.seen = []; new MutationObserver(() => { const one = document.getElementById('preview');"
                "if (!one.hidden) seen.push(one.textContent); }).observe(document.querySelector('footer'),"
                "{subtree: true, childList: true, attributes: true})")
        desk.browser.execute_script(seen)
        for act, said in ((lambda: desk.click("#keepaway"), 0), (lambda: desk.click("#keepaway"), None),
                          (lambda: desk.set("keepawaywidth", 1.25), 12_500), (lambda: desk.click("#keepawayusual"), None)):
            act()
            desk.wait(f"return desk.app.page.edits.keepaway === {'null' if said is None else said}")
            desk.settle()
            wait_for_folder(page)
            assert np.array_equal(cyan_of(page), first) == (said is None)
        assert "preview: keepaway follows" in desk.browser.execute_script("return seen")
        desk.wait("return document.getElementById('preview').hidden")
        assert kept_files(page) == trapped_by_command(page, tmp_path / "again")
    finally:
        desk.close()
