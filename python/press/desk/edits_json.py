# SPDX-License-Identifier: Apache-2.0
"""Edits as browsers send them, checked."""
from __future__ import annotations

from collections.abc import Mapping
from typing import Any

from press.job_language import KEYS, SCALE, Job
from press.keepaway import page_parameters
from press.settings import MOST_KEEPAWAY

from .job_edits import EditedInk, EditedZone, Edits, polygon_of_pixels
from .job_sections import RULES

MOST_ZONES = 200
MOST_NAME = 80
KINDS = ("Normal", "Transparent", "Opaque", "OpaqueIgnore")


class BadRequest(ValueError):
    """A request that has not the form, or the values, that the page takes."""


def edits_of(said: Mapping[str, Any], own: Job, resolution: int, height: int) -> Edits:
    """Edits as a browser sends them. Settings that the job `own` has anyway are not edits."""
    try:
        zones = said["zones"]
        if len(zones) > MOST_ZONES:
            raise BadRequest(f"there are {len(zones)} zones, and at most {MOST_ZONES} can be edited")
        there = {key: getattr(page_parameters(own), name) for key, name in KEYS.items()}
        settings = {key: value for key, value in settings_of(said["settings"]).items() if value != there[key]}
        off = frozenset(said.get("off", ()))
        if not off <= set(RULES):
            raise BadRequest("no such rule")
        return Edits(settings, inks_of(said.get("inks", {}), own),
                     tuple(zone_of(zone, resolution, height) for zone in zones), off,
                     keepaway=keepaway_of(said.get("keepaway"), resolution))
    except (KeyError, TypeError, AttributeError, OverflowError) as fault:
        raise BadRequest(f"these are no edits: {fault}") from fault
    except BadRequest:
        raise
    except ValueError as fault:
        raise BadRequest(f"these are no edits: {fault}") from fault


def most_keepaway(resolution: int) -> int:
    """How far inks can be drawn back at most, in ten-thousandths of a point."""
    return MOST_KEEPAWAY * 72 * SCALE // resolution


def keepaway_of(said: Any, resolution: int) -> int | None:
    """How far inks are drawn back, in ten-thousandths of a point; None if the page decides."""
    if said is None:
        return None
    if isinstance(said, bool) or not isinstance(said, int) or not 0 <= said <= most_keepaway(resolution):
        raise BadRequest(f"inks are drawn back by 0 to {most_keepaway(resolution) / SCALE:g} points")
    return said


def inks_of(said: Mapping[str, Any], job: Job) -> dict[str, EditedInk]:
    """The details of all inks if a browser changes some: later details replace all earlier ones in a job."""
    own = {name: EditedInk(ink.density, ink.kind) for name, ink in job.inks.items()}
    changed = {name: EditedInk(int(one["density"]), str(one["kind"])) for name, one in said.items()}
    if not set(changed) <= set(own) or any(ink.kind not in KINDS for ink in changed.values()):
        raise BadRequest("no such ink, or kind of ink")
    made = {**own, **changed}
    return made if made != own else {}


def zone_of(said: Mapping[str, Any], resolution: int, height: int) -> EditedZone:
    """A zone, its corners in pixels from the page's top left corner."""
    points = [(float(x), float(y)) for x, y in said["points"]]
    if len(points) < 3:
        raise BadRequest("a zone has three corners at least")
    polygon = polygon_of_pixels(points, resolution, height)
    return EditedZone(str(said["name"])[:MOST_NAME], polygon, settings_of(said["settings"]), bool(said["overImages"]))


def settings_of(said: Mapping[str, Any]) -> dict[str, int | bool]:
    """Settings in ten-thousandths."""
    found: dict[str, int | bool] = {}
    for key, value in said.items():
        if key not in KEYS or isinstance(value, bool) != (key == "Enabled"):
            raise BadRequest(f"no setting {key}")
        found[key] = value if isinstance(value, bool) else int(value)
    return found
