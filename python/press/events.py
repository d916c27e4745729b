# SPDX-License-Identifier: Apache-2.0
"""What happens in a run, as its observer receives it. Pages count from 1, seconds are wall time."""
from collections.abc import Callable, Mapping
from dataclasses import dataclass

from .errors import Status
from .findings import Finding


class Event:
    """Something that happens in a run."""


@dataclass(frozen=True)
class RunStarted(Event):
    """The file was opened: the pages to do, of so many that it has; and whether it was PostScript."""

    path: str
    pages: tuple[int, ...]
    count: int
    converted: bool


@dataclass(frozen=True)
class FindingMade(Event):
    """Preflight found something."""

    finding: Finding


@dataclass(frozen=True)
class StepStarted(Event):
    """A step of a page begins: a look, plates, traps, TIFF files, pictures or proof. Without a page: the proof
    sheet of all."""

    page: int | None
    step: str


@dataclass(frozen=True)
class StepDone(Event):
    """A step of a page is done."""

    page: int | None
    step: str
    seconds: float


@dataclass(frozen=True)
class Warned(Event):
    """Something that the owner should know, and the command that it concerns."""

    page: int | None
    command: str
    text: str


@dataclass(frozen=True)
class PageDone(Event):
    """A page is in OUT: how many plates it has, how many samples changed, the bytes of disk that it takes, whether
    it has what an earlier run made, since its plates are the same, and what is known of its thin strokes, if any."""

    page: int
    plates: int
    changed: int
    seconds: float
    disk: int
    kept: bool = False
    thin: Mapping[str, float] | None = None


@dataclass(frozen=True)
class PageFailed(Event):
    """A page failed: the status of the step that failed, and the line that says why."""

    page: int
    status: Status
    why: str


@dataclass(frozen=True)
class RunDone(Event):
    """All pages are done or failed."""

    failed: tuple[int, ...]


Observer = Callable[[Event], None]


def silent(_: Event) -> None:
    """An observer that ignores every event."""
