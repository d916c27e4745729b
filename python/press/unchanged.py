# SPDX-License-Identifier: Apache-2.0
"""Pages whose plates a new version of a file has not changed: they keep their results."""
import contextlib
import filecmp
import hashlib
import os
from collections.abc import Sequence

from .command import version
from .errors import PressError
from .folder import TRAPPED, WARNINGS, PageFolder, read_table
from .inks import Ink
from .job_record import DONE, OPTIONS, PAGES, Record, digest_of, page_of, read_record, write_record
from .settings import KEEPAWAY


def digest_of_plates(folder: str, inks: Sequence[Ink]) -> str:
    """One SHA-256 of all plates of a page, in their order."""
    found = hashlib.sha256()
    for ink in inks:
        found.update(f"{digest_of(os.path.join(folder, ink.name + '.pgm'))} {ink.name}\n".encode())
    return found.hexdigest()


def is_unchanged(old: str, made: PageFolder, part: Record) -> bool:
    """Whether the page that is done in a folder has the plates, the job, the inks and the options of one that was just
    rendered, whose record is `part`. The job in the old folder may have been edited since. What another version of the
    press commands made is made anew."""
    number = made.source.page
    try:
        record, inks = read_record(old), read_table(old)[1]
    except PressError:
        return False
    if os.path.islink(old) or record.get("version") != version():
        return False
    before = page_of(record, number)
    now, digests = page_of(part, number), before.get("digests", {})
    if before.get("state") != DONE or before.get(OPTIONS) != now[OPTIONS]:
        return False
    if not os.path.isdir(os.path.join(old, TRAPPED)):
        return False
    if any(digests.get(key) != now["digests"][key] for key in ("job", "table")):
        return False
    if "plates" in digests:
        return bool(digests["plates"] == digest_of_plates(made.path, made.inks))
    with contextlib.suppress(OSError):
        return all(filecmp.cmp(os.path.join(old, ink.name + ".pgm"), made.plate(ink), shallow=False) for ink in inks)
    return False


def keep(old: str, made: PageFolder, part: Record) -> None:
    """Makes the folder of an unchanged page one of the new file: its record, and what was found in the file."""
    record, number = read_record(old), made.source.page
    before = page_of(record, number)
    page_of(part, number)["digests"].update(before["digests"])
    record.update(part)
    if KEEPAWAY in before:
        record[PAGES][str(number)][KEEPAWAY] = before[KEEPAWAY]
    os.replace(made.file(WARNINGS), os.path.join(old, WARNINGS))
    write_record(old, record)


def record_plates(folder: str, number: int) -> None:
    """Adds the digest of the plates to the record of a page that does not keep them."""
    record = read_record(folder)
    page_of(record, number)["digests"]["plates"] = digest_of_plates(folder, read_table(folder)[1])
    write_record(folder, record)
