# SPDX-License-Identifier: Apache-2.0
"""What compare_commits.py --asked leaves aside, and what it does not."""
import pytest
from asked_changes import respelled, rewritten, why_added, without_added

pytestmark = [pytest.mark.quick, pytest.mark.plain]
SLICE = "{} {} moveto 40.000 0 rlineto 0 1.000 rlineto -40.000 0 rlineto\n"


def test_lines_and_files() -> None:
    """A plate, a trap or a status that differs is never left aside."""
    assert rewritten("printed: press-check: a.pdf: no page") == "printed: press-preflight: a.pdf: no page"
    assert rewritten("page-001/colorants.txt: colorant\tBlack\t1.70\tNormal\t0 0 0 100\tink\tBlack\tBlack\tprocess").endswith("\tBlack\tBlack")
    assert why_added("page-001/zones.json") and why_added("job.json")
    assert why_added("page-001/warnings.txt: note: hairline: a line of 0.05 pt at 1, 2 mm may not print: 0.25 pt is the least")
    for line in ("page-001/Cyan.pgm", "page-001/trapped/Cyan.pgm", "page-001/trapped/report: edges 658", "printed: page 1: failed: why",
                 "page-001/trapped/report.json: inks.0.density: 0.61", "page-001/warnings.txt: warning: size: too large"):
        assert why_added(rewritten(line)) is None, line


def test_jobs_and_sheets() -> None:
    """Slices of an image that touch are one rectangle, and others are not; what was added to a sheet is cut out of it."""
    assert respelled(SLICE.format(10, 20) + SLICE.format(10, 21)) == "10.000 20.000 40.000 2.000 rectangle\n"
    assert respelled(SLICE.format(10, 20) + SLICE.format(10, 22)).count("rectangle") == 2
    sheet = "<h3>Ink coverage</h3><p>At most 290% in one place.</p><table><tr></tr></table>\n<h3>The job</h3>"
    assert without_added(sheet) == "<h3>The job</h3>"
