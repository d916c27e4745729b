# SPDX-License-Identifier: Apache-2.0
"""Brings a page's traps from memory to its folder once nobody has changed the page for a while."""
from __future__ import annotations

import logging
import math
import threading
import time
from collections.abc import Callable

from press.errors import PressError

from .page import DeskPage

LOG = logging.getLogger("press.desk")
SECONDS = 2.0
"""So long after the last change."""


class Keeper:
    """A thread that waits for that. `notify` gets what went wrong."""

    def __init__(self, page: DeskPage, notify: Callable[..., None]) -> None:
        self.page, self.notify = page, notify
        self.wake = threading.Condition()
        self.due, self.until, self.is_open = math.inf, math.inf, True
        self.thread = threading.Thread(target=self._work, daemon=True, name="keeper")
        self.thread.start()

    def wait_again(self) -> None:
        """Begins to wait anew, since the page was changed, or other plates are shown."""
        with self.wake:
            self.due = time.monotonic() + SECONDS
            self.wake.notify()

    def close(self, until: float = math.inf) -> None:
        """Brings what is in memory, if that is done until then, and ends."""
        with self.wake:
            self.is_open, self.until = False, until
            self.wake.notify()
        self._bring(self._has_time)
        # What could not be brought is made again when the page is opened next.
        self.page.trapped.remove()

    def _work(self) -> None:
        while True:
            with self.wake:
                while self.is_open and time.monotonic() < self.due:
                    self.wake.wait(None if self.due == math.inf else self.due - time.monotonic())
                if not self.is_open:
                    return
                self.due = math.inf
            self._bring(lambda: self.due == math.inf and self._has_time())

    def _has_time(self) -> bool:
        return time.monotonic() < self.until

    def _bring(self, is_wanted: Callable[[], bool]) -> None:
        try:
            self.page.bring(is_wanted)
        except PressError as fault:
            LOG.warning("%s: %s", self.page.folder.path, fault)
            self.notify(kind="fault", text=str(fault))
