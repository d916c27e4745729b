# SPDX-License-Identifier: Apache-2.0
"""Applies the settings of one page to the other pages of its job, one after the other."""
from __future__ import annotations

import threading
from collections.abc import Callable, Mapping, Sequence
from typing import Any

from press.errors import PressError

from .edits_json import BadRequest
from .page import DeskPage, VersionConflict

SECONDS_OF_PAGE = 600.0


def edits_for(page: DeskPage, said: Mapping[str, Any], with_zones: bool) -> dict[str, Any]:
    """The edits of another page, as a browser would send them, with this one's own zones if those are not applied."""
    own = page.state()
    names = {ink["name"] for ink in own["inks"]}
    rules = [rule for rule in said["off"] if rule in own["rules"]]
    return {"settings": said["settings"], "inks": {name: one for name, one in said["inks"].items() if name in names},
            "zones": said["zones"] if with_zones else own["edits"]["zones"], "off": rules,
            "keepaway": said.get("keepaway")}


class Batch:
    """A thread that changes pages and waits until each is trapped. `begin` opens a page and starts its run; `notify`
    gets how far it is."""

    def __init__(self, changed: Callable[[str], None], opened: Callable[[str], DeskPage],
                 notify: Callable[..., None]) -> None:
        self.changed, self.opened, self.notify = changed, opened, notify
        self.lock = threading.Lock()
        self.stopped = threading.Event()
        self.thread: threading.Thread | None = None

    def begin(self, keys: Sequence[str], said: Mapping[str, Any], with_zones: bool) -> None:
        """Begins with pages. Raises BadRequest if some are at work."""
        with self.lock:
            if self.thread and self.thread.is_alive():
                raise BadRequest("settings are being applied to other pages: wait until that is done")
            self.thread = threading.Thread(target=self._work, args=(list(keys), said, with_zones), daemon=True,
                                           name="batch")
            self.thread.start()

    def _work(self, keys: Sequence[str], said: Mapping[str, Any], with_zones: bool) -> None:
        failed = 0
        for done, key in enumerate(keys):
            if self.stopped.is_set():
                return
            self.notify(kind="batch", done=done, total=len(keys), text=f"applied to {done} of {len(keys)} pages")
            try:
                self._apply(key, said, with_zones)
            except (BadRequest, VersionConflict, PressError, OSError, RuntimeError) as fault:
                failed += 1
                self.notify(kind="fault", text=f"not applied to a page: {fault}")
        text = f"applied to {len(keys) - failed} of {len(keys)} pages"
        self.notify(kind="batch", done=len(keys), total=len(keys), text=text)

    def _apply(self, key: str, said: Mapping[str, Any], with_zones: bool) -> None:
        page = self.opened(key)
        before = page.version
        page.change(before, edits_for(page, said, with_zones))
        if page.version == before:
            return
        self.changed(key)
        for _ in range(int(SECONDS_OF_PAGE * 10)):
            if self.stopped.wait(0.1):
                return
            if page.version == page.shown and not page.is_preview():
                return
        raise BadRequest("it was not trapped in time")

    def close(self) -> None:
        """Stops before the next page."""
        self.stopped.set()
        if self.thread:
            self.thread.join(2)
