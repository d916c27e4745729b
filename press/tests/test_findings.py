# SPDX-License-Identifier: Apache-2.0
"""Findings: their lines, the pages that they share, and what refuses."""
import pickle

import pytest

from press.errors import PressError, Status, UsageError
from press.findings import FAULT, NOTE, WARNING, Finding, lines_of, page_ranges, percent, refusal_for, remedy

pytestmark = pytest.mark.quick
FONT = "the PDF lacks the font"


@pytest.mark.parametrize("pages, text", [([1], "1"), ([3, 1, 2], "1-3"), ([1, 2, 4, 7, 8], "1-2, 4, 7-8")])
def test_ranges_of_pages(pages: list[int], text: str) -> None:
    """Pages that follow each other are one range."""
    assert page_ranges(pages) == text


def test_lines_of_several_pages() -> None:
    """A finding of several pages is one line; one of the whole file names no page."""
    found = [Finding("font", WARNING, page, FONT) for page in (1, 2, 4)] + [Finding("blank", NOTE, 3, "blank"), Finding("box", NOTE, None, "x")]
    assert list(lines_of("a.pdf", found)) == [f"a.pdf: pages 1-2, 4: warning: font: {FONT}", "a.pdf: page 3: note: blank: blank", "a.pdf: note: box: x"]


def test_figures_of_texts() -> None:
    """A share that rounds to nothing, and a resolution above a platesetter's, are no help to an operator."""
    assert [percent(share) for share in (0.0009, 0.01, 0.256)] == ["less than 1%", "1%", "26%"]
    assert [remedy(dpi) for dpi in (2500, 2600)] == ["2500 dpi would do", "thicken them, or let them overprint"]


def test_refusals() -> None:
    """A fault refuses, a warning only strictly, a note never; the first fault counts before any warning."""
    note, warning = Finding("blank", NOTE, 1, "n"), Finding("font", WARNING, 2, "w")
    fault = Finding("size", FAULT, 3, "f", Status.PLATES)
    assert refusal_for("a", [note, warning], False) is None and refusal_for("a", [note], True) is None
    strict, hard = refusal_for("a", [warning], True), refusal_for("a", [warning, fault], True)
    assert strict and (strict.status, str(strict)) == (Status.WARNED, "a: page 2: w (--strict)")
    assert hard and (hard.status, str(hard)) == (Status.PLATES, "a: page 3: f")


def test_text_that_names_its_file() -> None:
    """A finding of a zones file of all pages begins with that file's name alone."""
    refusal = refusal_for("a.pdf", [Finding("zones", FAULT, None, "b.zones: line 1: no", Status.PROGRAM)], False)
    assert str(refusal) == "b.zones: line 1: no"


def test_errors_go_through_a_pipe() -> None:
    """A refusal comes back from a worker process as it was."""

    for error in (PressError(Status.PDF, "no", "a.pdf"), UsageError("--dpi needs a value")):
        back = pickle.loads(pickle.dumps(error))
        assert (type(back), back.status, back.message, back.place) == (type(error), error.status, error.message, error.place)
