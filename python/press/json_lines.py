# SPDX-License-Identifier: Apache-2.0
"""Events as JSON Lines: a JSON object in ASCII on a line of its own for each. docs/JSON.md has their keys."""
import dataclasses
import json
from typing import Any

from .errors import PressError
from .events import Event, FindingMade, PageDone, PageFailed, RunDone, RunStarted, StepDone, StepStarted, Warned
from .printing import put

NAMES: dict[type, str] = {
    RunStarted: "run-started", StepStarted: "step-started", StepDone: "step-done", Warned: "warning",
    PageDone: "page-done", PageFailed: "page-failed", RunDone: "run-done"}


def event_record(event: Event) -> dict[str, Any]:
    """An event as an object."""
    if isinstance(event, FindingMade):
        one = event.finding
        return {"event": "finding", **one.as_data()}
    record: dict[str, Any] = {"event": NAMES[type(event)], **dataclasses.asdict(event)}
    if "seconds" in record:
        record["seconds"] = round(record["seconds"], 3)
    return record


def refusal_record(refusal: PressError) -> dict[str, Any]:
    """A refusal of all that was asked for."""
    return {"event": "refused", "status": int(refusal.status), "place": refusal.place, "text": refusal.message}


def put_record(record: dict[str, Any]) -> None:
    """Prints an object."""
    put(json.dumps(record))


def put_event(event: Event) -> None:
    """An observer that prints each event."""
    put_record(event_record(event))
