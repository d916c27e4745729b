# SPDX-License-Identifier: Apache-2.0
"""The lines that runs and farms print."""
import os
import re
import sys
import time
from collections.abc import Callable

from .command import LOG, say
from .events import Event, FindingMade, PageDone, PageFailed, RunStarted, StepStarted, Warned
from .files import size_text
from .findings import FAULT, WARNING
from .names import clean

BAR_WIDTH, BAR_SECONDS = 30, 0.5


def complain(line: str) -> None:
    """A line on standard error."""
    print(line, file=sys.stderr, flush=True)


def put(line: str) -> None:
    """A line on standard output."""
    print(line, flush=True)


class RunLines:
    """An observer that prints the progress of a run: each finding once, and not once a page. `emit` takes a line."""

    def __init__(self, path: str, quiet: bool = False, emit: Callable[[str], None] = complain) -> None:
        self.path, self.quiet, self.emit = path, quiet, emit
        self.count = 0
        self.told: set[tuple[str, str]] = set()
        self.warnings: set[str] = set()

    def __call__(self, event: Event) -> None:
        if isinstance(event, RunStarted):
            self.count = event.count
            if event.converted:
                self.tell("note: PostScript: Ghostscript made a PDF of it")
        elif isinstance(event, FindingMade):
            self.finding(event)
        elif isinstance(event, StepStarted):
            self.tell(f"page {event.page} of {self.count}: {event.step}" if event.page else event.step)
        elif isinstance(event, Warned):
            self.warn(event.command, event.text)

    def tell(self, text: str) -> None:
        """A line of the progress of the run."""
        if not self.quiet:
            self.emit(clean(f"press-all: {self.path}: {text}"))

    def warn(self, command: str, text: str) -> None:
        """A warning, once."""
        line = clean(f"{command}: warning: {text}")
        if line not in self.warnings:
            self.warnings.add(line)
            self.emit(line)

    def finding(self, event: FindingMade) -> None:
        """A warning or a note of preflight."""
        one = event.finding
        if (one.kind, one.text) in self.told or one.level == FAULT:
            return
        self.told.add((one.kind, one.text))
        if one.level == WARNING:
            self.warn("press-all", f"{self.path}: {one.said}")
        else:
            self.tell(f"note: {one.said}")


class Warnings:
    """An observer that prints warnings, values that gave way to others, and that a file was PostScript."""

    def __init__(self, path: str) -> None:
        self.path = path

    def __call__(self, event: Event) -> None:
        if isinstance(event, RunStarted) and event.converted:
            say(f"note: {self.path}: PostScript: Ghostscript made a PDF of it")
        elif isinstance(event, FindingMade):
            line = f"{self.path}: {event.finding.said}"
            if event.finding.level == WARNING:
                LOG.warning(line)
            elif event.finding.kind == "overridden":
                say(f"note: {line}")


def end_line(end: PageDone | PageFailed) -> str:
    """How a page ended."""
    if isinstance(end, PageFailed):
        return f"page {end.page}: failed: {end.why}"
    what = f"{end.plates} plates, {end.changed} samples changed," if not end.kept else \
        "not changed, its results are kept;"
    return f"page {end.page}: done: {what} {end.seconds:.1f} s, {size_text(end.disk)} of disk"


class FarmLines:
    """What a farm prints while pages are at work: on a terminal a bar, elsewhere a line for each page; each
    warning once."""

    # Whether the pages are to print events as JSON Lines.
    is_json = False

    def __init__(self, path: str, quiet: bool) -> None:
        self.path, self.quiet, self.total = path, quiet, 0
        # The pages of which an end was printed, and those that failed.
        self.ended: set[int] = set()
        self.failed: set[int] = set()
        self.at_work: dict[int, str] = {}
        self.start, self.shown = time.monotonic(), 0.0
        self.warned: set[str] = set()
        self.has_bar = not quiet and sys.stderr.isatty()

    def left(self) -> str:
        """How long the rest will take."""
        if not self.ended:
            return "time left not known yet"
        seconds = (time.monotonic() - self.start) / len(self.ended) * (self.total - len(self.ended))
        hours, minutes = int(seconds // 3600), int(seconds // 60 % 60)
        if hours:
            return f"{hours} h {minutes} min left"
        return f"{minutes} min left" if minutes else f"{int(seconds)} s left"

    def text(self) -> str:
        """How far the farm is."""
        work = ", ".join(f"{page} {what}" for page, what in sorted(self.at_work.items()))
        failed = f", {len(self.failed)} failed" if self.failed else ""
        at_work = f"; at work: {work}" if work else ""
        return f"{len(self.ended)} of {self.total} pages{failed}, {self.left()}{at_work}"

    def draw(self, now: bool = False) -> None:
        """Draws the bar."""
        if self.has_bar and (now or time.monotonic() - self.shown > BAR_SECONDS):
            self.shown = time.monotonic()
            full = BAR_WIDTH * len(self.ended) // max(1, self.total)
            line = f"[{'#' * full}{'.' * (BAR_WIDTH - full)}] {self.text()}"
            self.erase()
            sys.stderr.write(line[:os.get_terminal_size(sys.stderr.fileno()).columns - 1])
            sys.stderr.flush()

    def erase(self) -> None:
        """Removes the bar."""
        if self.has_bar:
            sys.stderr.write("\r\033[K")
            sys.stderr.flush()

    def warn(self, text: str) -> None:
        """A warning of the farm's own, once."""
        if text not in self.warned:
            self.warned.add(text)
            complain(clean(f"press-farm: warning: {text}"))

    def begin(self, pages: list[int], count: int, converted: bool) -> None:
        """The pages to make, of so many that the file has, and whether it was PostScript."""

    def drop(self, host: str, why: str) -> None:
        """A machine that cannot work."""
        self.warn(f"{host} is left out: {why}")

    def end(self) -> None:
        """All pages are done or failed."""

    def page(self, line: str) -> None:
        """A line of a page that is done."""
        found = re.match(r"page (\d+): (done|failed)", line)
        if found:
            number = int(found.group(1))
            self.ended.add(number)
            self.at_work.pop(number, None)
            if found.group(2) == "failed":
                self.failed.add(number)
        self.erase()
        print(clean(line), flush=True)
        self.draw(True)
        if found and not self.quiet and not self.has_bar:
            complain(clean(f"press-farm: {self.path}: {self.text()}"))

    def work(self, line: str) -> None:
        """A line of a page that is at work: its progress; or a warning, which is printed once and not once a page."""
        if found := re.search(r": page (\d+) of \d+: (.*)$", line):
            self.at_work[int(found.group(1))] = found.group(2)
            self.draw()
        elif ": note: " not in line:
            key = re.sub(r"^press-\w+: warning: |page \d+: ", "", line)
            if key not in self.warned:
                self.warned.add(key)
                self.erase()
                complain(clean(line))
                self.draw(True)
