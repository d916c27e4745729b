# SPDX-License-Identifier: Apache-2.0
"""What the editor keeps in a page's folder: reduced copies of the plates, by which job the plates were trapped, and
the places of thin strokes that it found."""
from __future__ import annotations

import hashlib
from pathlib import Path

from press.files import write_text
from press.zones_anew import Strokes

FOLDER, RECORD, STROKES = ".desk", "trapped.sha256", "strokes.json"


class Kept:
    """The editor's folder in a page's folder."""

    def __init__(self, page: Path) -> None:
        self.folder = page / FOLDER

    def levels(self, trapped: bool) -> Path:
        """The file of reduced copies."""
        return self.folder / ("after.levels" if trapped else "before.levels")

    def has_record(self) -> bool:
        """Whether it is known by which job the plates were trapped."""
        return (self.folder / RECORD).exists()

    def record_trapped(self, text: bytes) -> None:
        """Notes by which job the trapped plates in the folder were made."""
        self._write(RECORD, hashlib.sha256(text).hexdigest() + "\n")

    def is_behind(self, text: bytes) -> bool:
        """Whether the trapped plates are known to be those of another job."""
        try:
            return (self.folder / RECORD).read_text().strip() != hashlib.sha256(text).hexdigest()
        except OSError:
            return False

    def strokes(self) -> Strokes | None:
        """The places of thin strokes that were found last."""
        try:
            return Strokes.of_json((self.folder / STROKES).read_text())
        except (OSError, ValueError):
            return None

    def keep_strokes(self, strokes: Strokes) -> None:
        """Keeps the places of thin strokes."""
        self._write(STROKES, strokes.as_json())

    def _write(self, name: str, text: str) -> None:
        self.folder.mkdir(exist_ok=True)
        write_text(str(self.folder / name), text)
