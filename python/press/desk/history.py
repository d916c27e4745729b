# SPDX-License-Identifier: Apache-2.0
"""The versions of a page's job, and what can be undone and redone. A file keeps them for the next server: a line of
JSON for each change, and now and then one line with everything in place of all lines."""
from __future__ import annotations

import json
import logging
import time
from dataclasses import dataclass
from pathlib import Path
from typing import Any

from press.files import write_text

LOG = logging.getLogger("press.desk")
FILE = "history.jsonl"
MOST_VERSIONS, MOST_BYTES = 100, 16 << 20
"""So many versions of a page can be shown again, and so many changes undone; fewer if its job has so many bytes."""
EDIT, UNDO, REDO, FOLLOW, EVERYTHING = "edit", "undo", "redo", "follow", "everything"
"""What a line is: a change, one that goes back or forth, one that follows from another (thin strokes), or all that is
kept."""


@dataclass(frozen=True)
class Version:
    """A version of a page's job: its number, when it was made, and its text."""

    number: int
    time: str
    text: bytes


class History:
    """The versions of one page. Whoever calls it holds the page's lock."""

    def __init__(self, folder: Path, text: bytes) -> None:
        self.path = folder / FILE
        self.versions: list[Version] = []
        self.undo: list[bytes] = []
        self.redo: list[bytes] = []
        self.lines = 0
        if not self._read():
            self._begin(text)

    @property
    def newest(self) -> Version:
        """The version that the page has."""
        return self.versions[-1]

    def begin_again(self, text: bytes) -> None:
        """Forgets all versions but this one: they are those of another page."""
        self._begin(text)

    def add(self, kind: str, text: bytes) -> None:
        """Adds a version and keeps it."""
        version = Version(self.newest.number + 1, now(), text)
        self._take(kind, version)
        try:
            self._append({"is": kind, "number": version.number, "time": version.time, "text": text.decode("latin-1")})
        except OSError as fault:
            # The next change writes everything.
            self.lines = 0
            LOG.warning("%s: %s", self.path, fault)

    def _begin(self, text: bytes) -> None:
        self.versions, self.undo, self.redo, self.lines = [Version(1, now(), text)], [], [], 0

    def _take(self, kind: str, version: Version) -> None:
        most = max(1, min(MOST_VERSIONS, MOST_BYTES // max(1, len(version.text))))
        before = self.newest.text
        if kind == EDIT:
            self.undo.append(before)
            self.redo.clear()
        elif kind == UNDO:
            self.undo.pop()
            self.redo.append(before)
        elif kind == REDO:
            self.redo.pop()
            self.undo.append(before)
        self.versions = [*self.versions, version][-most:]
        self.undo, self.redo = self.undo[-most:], self.redo[-most:]

    # The file

    def _append(self, line: dict[str, Any]) -> None:
        """Adds a line, or writes everything if there are many lines or none that can be followed by this one."""
        if not 0 < self.lines <= 2 * MOST_VERSIONS or self.path.stat().st_size > 4 * MOST_BYTES:
            self.path.parent.mkdir(exist_ok=True)
            write_text(str(self.path), json.dumps(self._everything()) + "\n")
            self.lines = 1
            return
        with open(self.path, "a", encoding="ascii") as file:
            file.write(json.dumps(line) + "\n")
        self.lines += 1

    def _everything(self) -> dict[str, Any]:
        """All that is kept, each text once."""
        texts = list(dict.fromkeys([*(one.text for one in self.versions), *self.undo, *self.redo]))
        at = {text: k for k, text in enumerate(texts)}
        return {"is": EVERYTHING, "texts": [text.decode("latin-1") for text in texts],
                "versions": [[one.number, one.time, at[one.text]] for one in self.versions],
                "undo": [at[text] for text in self.undo], "redo": [at[text] for text in self.redo]}

    def _read(self) -> bool:
        """Reads the file; False if there is none, or one that cannot be read. A last line that is not whole does not
        count."""
        try:
            whole = self.path.read_text(encoding="ascii").splitlines(keepends=True)
            for line in whole:
                if not line.endswith("\n"):
                    self.lines = -1
                    break
                self._heard(json.loads(line))
                self.lines += 1
        except (OSError, ValueError, KeyError, TypeError, IndexError):
            return False
        return bool(self.versions)

    def _heard(self, line: dict[str, Any]) -> None:
        """Takes a line of the file."""
        if line["is"] == EVERYTHING:
            texts = [text.encode("latin-1") for text in line["texts"]]
            self.versions = [Version(int(number), str(when), texts[k]) for number, when, k in line["versions"]]
            self.undo, self.redo = ([texts[k] for k in line[name]] for name in ("undo", "redo"))
        else:
            self._take(line["is"], Version(int(line["number"]), str(line["time"]), line["text"].encode("latin-1")))


def now() -> str:
    """The time, as people and programs read it."""
    return time.strftime("%Y-%m-%d %H:%M:%S%z")
