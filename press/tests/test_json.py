# SPDX-License-Identifier: Apache-2.0
"""JSON for programs: docs/JSON.md names each event and key that is printed or written, and the events of a farm's pages are complete."""
import dataclasses
import json
import re
from typing import Any

import pytest
from press.errors import PressError, Status
from press.farm_json import FarmJson
from press.findings import Finding
from press.json_lines import NAMES, refusal_record
from room import TOP, Room
from small_pdf import page, pdf

pytestmark = pytest.mark.plain
DOCUMENT = (TOP / "docs/JSON.md").read_text(encoding="utf-8")


def words_of(row: str) -> set[str]:
    """What stands in code in a row of a table."""
    return set(re.findall(r"`([\w-]+)`", row))


def rows_of(heading: str) -> dict[str, set[str]]:
    """The rows of the tables below a heading: the words of each by those of its first cell."""
    part = DOCUMENT.partition(f"\n## {heading}\n")[2].partition("\n## ")[0]
    rows: dict[str, set[str]] = {}
    for row in re.findall(r"^\|.*\|$", part, re.M):
        for name in words_of(row.split("|")[1]):
            rows.setdefault(name, set()).update(words_of(row))
    return rows


def keys_of(found: Any) -> set[str]:
    """The keys of an object, and those of the objects in its lists."""
    return {*found, *(key for value in found.values() if isinstance(value, list) for one in value if isinstance(one, dict) for key in one)}


def test_events_are_documented() -> None:
    """Each event has a row with all its keys."""
    rows = rows_of("JSON Lines")
    for kind, name in NAMES.items():
        assert {one.name for one in dataclasses.fields(kind)} <= rows[name] | {"page"}, name
    assert set(Finding("a", "note", 1, "b", place=(0, 0)).as_data()) <= rows["finding"]
    assert set(refusal_record(PressError(Status.INPUT, "none"))) - {"event"} <= rows["refused"]
    others = {"finding", "refused", "host-dropped", "taken", "done", "failed", "changed", "stopped", "command", "gone", "lost"}
    assert {*NAMES.values(), *others} == set(rows) - {"event"}


@pytest.mark.usefixtures("built")
def test_objects_are_documented(room: Room) -> None:
    """The object of preflight, and the report of a page, have the keys of the document and no other."""
    pdf(str(room / "job.pdf"), [page([], "0 1 1 0 k 10 10 40 28 re f 1 0 0 0 k 50 10 40 28 re f 1 .6 0 .2 k 14 20 30 .5 re f")])
    found = json.loads(room.run("preflight", "--json", "--dpi", "300", "job.pdf").out)
    rows = rows_of("Preflight")
    documented = {word for row in rows.values() for word in row}
    assert {*found} == {*rows} and keys_of(found) <= documented, found
    made = room.goes("all", "--json", "--dpi", "300", "--width", "0.2mm", "--check", "1", "job.pdf", "out")
    events = [json.loads(line) for line in made.out.splitlines()]
    report = json.loads((room / "out/page-001/trapped/report.json").read_text(encoding="utf-8"))
    rows = rows_of("The report of a page")
    assert {*report} == {*rows}, report
    for key in ("check", "misregister", "layout"):
        assert {*report[key]} <= rows[key], report[key]
    assert {*report["inks"][0]} <= rows["inks"], report["inks"]
    thin, done = report["layout"]["thin"], next(one for one in events if one["event"] == "page-done")
    assert {*thin} <= rows["layout"] and thin["parts"] == 1 and thin["own_before"] < thin["own_after"], thin
    assert done["thin"] == {name: thin[name] for name in ("parts", "lines", "zones", "own_before", "own_after")}, done


def test_findings_of_a_farm(capsys: pytest.CaptureFixture[str]) -> None:
    """A finding of each page is an event of its own, also if the texts are the same; one of the whole file comes once."""
    farm = FarmJson("job.pdf")
    for number in (1, 2):
        for whose in (number, None):
            farm.page(json.dumps({"event": "finding", "page": whose, "kind": "blank", "level": "note", "text": "the page is blank"}))
    assert [json.loads(line)["page"] for line in capsys.readouterr().out.splitlines()] == [1, None, 2]
