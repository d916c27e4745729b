# SPDX-License-Identifier: Apache-2.0
"""The record of a job, job.json: the file that it was made of, the options, and for each page its box, resolution and
inks. It is in the folder OUT of a run for all pages, and in the folder of each page for that page; docs/RECORD.md has
its keys. A key that is not known here stays as it is when the file is written again."""
import contextlib
import hashlib
import json
import os
import re
from collections.abc import Iterator, Mapping
from dataclasses import dataclass
from typing import Any

from .command import version
from .errors import PressError, Status, reason
from .files import head_of, locked, refusing, write_text

RECORD, SCHEMA = "job.json", 1
FILE, OPTIONS, PAGES, DESK = "file", "options", "pages", "desk"
HEAD = ("schema", "version")
DONE, FAILED = "done", "failed"
LOCK = ".press-record-lock"
# How long a process waits for another one that writes the record.
WAIT_SECONDS = 30
SHORT = 12
LONE = re.compile("[\ud800-\udfff]")
Record = dict[str, Any]


@dataclass(frozen=True)
class InputFile:
    """A file that pages are made of: its name without folders, its size in bytes, and its SHA-256."""

    name: str
    bytes: int
    sha256: str

    @property
    def short(self) -> str:
        """The first digits of the digest, as lines have them."""
        return self.sha256[:SHORT]


def digest_of(path: str) -> str:
    """The SHA-256 of a file, in hexadecimal digits."""
    with open(path, "rb") as file:
        return hashlib.file_digest(file, "sha256").hexdigest()


def input_file(path: str) -> InputFile:
    """What a record keeps of a file. Refuses one that cannot be read."""
    head_of(path)
    with refusing(path):
        return InputFile(os.path.basename(path), os.path.getsize(path), digest_of(path))


# The file

def read_record(folder: str) -> Record:
    """The record in the folder of a run or of a page; empty if there is none."""
    path = os.path.join(folder, RECORD)
    try:
        with open(path, encoding="utf-8") as file:
            found = json.load(file)
    except (FileNotFoundError, NotADirectoryError):
        return {}
    except OSError as fault:
        raise PressError(Status.INPUT, reason(fault), path) from fault
    except ValueError as fault:
        raise PressError(Status.INPUT, "no record of a job: it is damaged", path) from fault
    if not isinstance(found, dict) or not all(isinstance(found.get(key, {}), dict) for key in (FILE, PAGES, OPTIONS)):
        raise PressError(Status.INPUT, "no record of a job", path)
    return found


def write_record(folder: str, record: Mapping[str, Any]) -> None:
    """Writes a record as a whole. A name that is no UTF-8 has its bytes as Python's surrogateescape gives them."""
    rest = {key: value for key, value in record.items() if key not in HEAD}
    text = json.dumps({"schema": SCHEMA, "version": version(), **rest}, indent=1, ensure_ascii=False)
    write_text(os.path.join(folder, RECORD), LONE.sub(lambda found: f"\\u{ord(found[0]):04x}", text) + "\n")


@contextlib.contextmanager
def changing_record(folder: str) -> Iterator[Record]:
    """The record of a folder, to be changed in the block, at whose end it is written. Other processes wait."""
    with locked(os.path.join(folder, LOCK), os.path.join(folder, RECORD), "press", seconds=WAIT_SECONDS):
        record = read_record(folder)
        yield record
        write_record(folder, record)


# What is in it

def file_of(record: Mapping[str, Any]) -> InputFile | None:
    """The file that a job was made of."""
    found = record.get(FILE, {})
    try:
        return InputFile(str(found["name"]), int(found["bytes"]), str(found["sha256"]))
    except (KeyError, TypeError, ValueError):
        return None


def page_of(record: Mapping[str, Any], number: int) -> Record:
    """What is recorded of a page; empty if nothing is."""
    found = record.get(PAGES, {}).get(str(number), {})
    return dict(found) if isinstance(found, dict) else {}


def options_of(record: Mapping[str, Any], number: int | None = None) -> dict[str, Any]:
    """The options that a page was made with, or those of the job."""
    found = page_of(record, number).get(OPTIONS) if number else None
    return dict(found if isinstance(found, dict) else record.get(OPTIONS, {}))


def part_of(file: InputFile, number: int, options: Mapping[str, Any], page: Mapping[str, Any]) -> Record:
    """The record of one page, for its own folder: `page` is what is said of it beside its file and its options."""
    own = {**page, "sha256": file.sha256, OPTIONS: dict(options)}
    return {FILE: vars(file).copy(), OPTIONS: dict(options), PAGES: {str(number): own}}


def sorted_pages(pages: Mapping[str, Any]) -> dict[str, Any]:
    """The pages of a record in the order of their numbers."""
    return {key: pages[key] for key in sorted(pages, key=lambda key: (len(key), key))}
