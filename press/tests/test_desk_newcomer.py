# SPDX-License-Identifier: Apache-2.0
"""From `git clone` to a zone that is trapped anew on the label, by README alone, in under three minutes: bench/newcomer.py does it.
Run by -m browser."""
import shutil
import subprocess
import sys
from pathlib import Path

import pytest

pytest.importorskip("selenium.webdriver")
pytest.importorskip("starlette")

TOP = Path(__file__).resolve().parents[2]
OLD_RELEASE = 77

pytestmark = [pytest.mark.browser, pytest.mark.skipif(
    not shutil.which("chromedriver") or not shutil.which("gs") or not (TOP / ".git").exists(),
    reason="chromium-driver, Ghostscript or the history of the repository is not there")]


def test_a_newcomer_traps_a_zone_anew_in_three_minutes(tmp_path):
    """Each step is one that README names; it prints their times."""
    words = [sys.executable, "-B", str(TOP / "bench" / "newcomer.py"), "--folder", str(tmp_path)]
    done = subprocess.run(words, capture_output=True, text=True, check=False)
    if done.returncode == OLD_RELEASE:
        pytest.skip(done.stdout.strip().splitlines()[-1])
    assert done.returncode == 0, done.stdout + done.stderr
    assert "trapped anew" in done.stdout
