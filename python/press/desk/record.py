# SPDX-License-Identifier: Apache-2.0
"""The editor's part of a job's record, job.json: what people said of its pages, and how far a file got that a browser
sent."""
from __future__ import annotations

import contextlib
from collections.abc import Iterator
from pathlib import Path
from typing import Any

from press.errors import PressError
from press.folder import PageFolder
from press.job_record import DESK, InputFile, changing_record, file_of, options_of, page_of, read_record

UPLOAD = "upload"


def part_of(job: Path) -> dict[str, Any]:
    """The editor's part of a record; empty if there is none, or if the record is damaged."""
    found = _read(job).get(DESK, {})
    return dict(found) if isinstance(found, dict) else {}


@contextlib.contextmanager
def changing(job: Path) -> Iterator[dict[str, Any]]:
    """The editor's part of a record, to change; it is written when the block ends well."""
    with changing_record(str(job)) as record:
        part = record.setdefault(DESK, {})
        yield part


def said_of(job: Path, number: int) -> dict[str, Any]:
    """What was said of a page."""
    found = part_of(job).get(str(number), {})
    return dict(found) if isinstance(found, dict) else {}


def file_in(job: Path) -> InputFile | None:
    """The file that a job was made of."""
    return file_of(_read(job))


def options_for(page: PageFolder) -> dict[str, Any]:
    """The options that a page was made with, as its record has them."""
    own = Path(page.path)
    records = [found for found in map(_read, (own, own.parent)) if page_of(found, page.source.page)]
    record = records[0] if records else {}
    return options_of(record, page.source.page)


def _read(folder: Path) -> dict[str, Any]:
    try:
        return read_record(str(folder))
    except PressError:
        return {}
