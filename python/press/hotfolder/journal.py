# SPDX-License-Identifier: Apache-2.0
"""The log of hot folders: lines for people or JSON Lines, on standard output or in a file that is renamed when it is
large."""
import datetime
import json
import logging
import logging.handlers
import os
import sys
import time
from typing import Any

from ..events import Event
from ..json_lines import event_record
from ..names import clean
from .config import LogFile


class Journal:
    """The log. A line has the time, the folder if there are several, the file's name, and what happened."""

    def __init__(self, is_json: bool = False, log: LogFile | None = None, has_folders: bool = False) -> None:
        self.is_json, self.has_folders = is_json, has_folders
        self.handler: logging.Handler = logging.StreamHandler(sys.stdout)
        if log:
            self.handler = logging.handlers.RotatingFileHandler(
                log.path, maxBytes=log.most_bytes, backupCount=log.keep, encoding="utf-8", errors="surrogateescape")

    def write(self, text: str) -> None:
        """Writes a line."""
        self.handler.handle(logging.LogRecord("watch", logging.INFO, "", 0, "%s", (text,), None))

    def __call__(self, event: str, folder: str, name: str | None = None, **more: Any) -> None:
        """Writes what happened: in words, or as an object whose keys docs/JSON.md lists."""
        if self.is_json:
            now = datetime.datetime.now().astimezone().isoformat(timespec="milliseconds")
            named = {} if name is None else {"name": name}
            self.write(json.dumps({"time": now, "event": event, "folder": folder, **named, **more}))
            return
        text = in_words(event, more)
        if text is not None:
            place = folder if name is None else os.path.join(folder, name) if self.has_folders else name
            self.write(time.strftime("%Y-%m-%d %H:%M:%S ") + clean(f"{place}: {text}"))

    def run_event(self, event: Event, folder: str, name: str) -> None:
        """Writes what happens in the run of a file, if the log is JSON Lines."""
        if self.is_json:
            record = event_record(event)
            self(record.pop("event"), folder, name, **record)


def in_words(event: str, more: dict[str, Any]) -> str | None:
    """What a line of the log says of an event; nothing of those that it leaves out."""
    if event == "taken":
        return "taken again" if more["again"] else "taken"
    if event == "done":
        return f"done: {more['place']}"
    if event == "failed":
        return f"failed: {more['why'].splitlines()[0]}"
    return {"changed": "changed while it was made: it is made again",
            "stopped": "its process was stopped: it is made again"}.get(event) or more.get("text")
