# SPDX-License-Identifier: Apache-2.0
"""Files like the worst that a shop is sent, each with the status that worst_files.py tells of it: run by -m worst alone. The proof sheets
and the pictures of them stand in press/out/worst, to be looked at."""
import os
import shutil
import subprocess
import tempfile
from pathlib import Path

import pytest
import worst_files
from room import TOP, Room, there

pytestmark = [pytest.mark.worst, pytest.mark.usefixtures("built")]
OUT = TOP / "press" / "out" / "worst"
CHROMIUM = ("chromium", "--headless", "--no-sandbox", "--disable-gpu", "--hide-scrollbars", "--virtual-time-budget=6000",
            "--window-size=1130,5000")
NAMES = {**{name: status for name, (_, status, _) in worst_files.FILES.items()},
         **{stem + ".pdf": status for stem, (_, _, status, _) in worst_files.BESIDE.items()}, "password.pdf": 5, "owner-password.pdf": 0}
BROWSER_SECONDS = 300


@pytest.fixture(scope="session", name="hostile")
def fixture_hostile(tmp_path_factory: pytest.TempPathFactory) -> Path:
    """A folder with all hostile files."""
    folder = tmp_path_factory.mktemp("hostile")
    assert {name: status for name, status, _ in worst_files.write_files(str(folder))} == NAMES
    return folder


def draw_sheet(sheet: Path, picture: Path) -> None:
    """A picture of a proof sheet, where there is a browser."""
    with tempfile.TemporaryDirectory(prefix="browser-", ignore_cleanup_errors=True) as home:
        words = [*CHROMIUM, f"--user-data-dir={home}/data", f"--screenshot={picture}", f"file://{sheet}"]
        subprocess.run(words, env={**os.environ, "HOME": home, "TMPDIR": home}, capture_output=True, timeout=BROWSER_SECONDS, check=False)


@pytest.mark.parametrize("name", NAMES)
def test_hostile_file(room: Room, hostile: Path, request: pytest.FixtureRequest, name: str) -> None:
    """The file goes the whole way, or is refused with its status, and never with a traceback."""
    out = OUT / name
    shutil.rmtree(out, ignore_errors=True)
    out.mkdir(parents=True)
    done = room.run("all", "--quiet", "--dpi", request.config.getoption("--worst-dpi"), name, out / "all", cwd=hostile)
    assert done.status == NAMES[name] and "Traceback" not in done.out + done.err, done
    if there("chromium") and (out / "all/proof.html").exists():
        draw_sheet(out / "all/proof.html", out / "proof.png")
