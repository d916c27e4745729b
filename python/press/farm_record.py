# SPDX-License-Identifier: Apache-2.0
"""What the record of a job keeps of a farm, by which `press/farm --again` goes on."""
from collections.abc import Sequence
from typing import Any

from .errors import PressError, Status, UsageError
from .job_record import OPTIONS, file_of, input_file, options_of, read_record
from .recorded import options_from, settings_from, without_run_only, words_from
from .settings import Settings

# The part of the record, with the pages that --page asked for; none for all.
PART = "farm"


def recorded(path: str, out: str) -> tuple[dict[str, Any], tuple[int, ...]]:
    """The options and the pages of the last farm in OUT. Refuses a folder without one, and a file of other bytes."""
    record = read_record(out)
    part, old, now = record.get(PART), file_of(record), input_file(path)
    if not isinstance(part, dict) or not isinstance(record.get(OPTIONS), dict) or old is None:
        raise PressError(Status.INPUT, "no run was here that could be gone on with", out)
    if old.sha256 != now.sha256:
        raise PressError(Status.OUTPUT, f"it has other bytes than in the last run (SHA-256 {old.short}.. then, "
                         f"{now.short}.. now): without --again all pages are made anew", path)
    return options_of(record), tuple(part.get("pages", ()))


def need_no_other(given: Settings, words: Sequence[str], pages: Sequence[int], out: str, options: dict[str, Any],
                  old_pages: Sequence[int]) -> None:
    """Refuses options or pages that are given anew and are not those of the last run."""
    is_other = words and without_run_only(options_from(given, out)) != without_run_only(options)
    if is_other or pages and tuple(pages) != tuple(old_pages):
        old = [*words_from(options, out), *[f"--page={','.join(map(str, old_pages))}"] * bool(old_pages)]
        raise UsageError(f"--again takes the options of the last run, which were {' '.join(old) or 'none'}")


def settings_of_last(given: Settings, options: dict[str, Any], out: str, usual_seconds: int) -> Settings:
    """The settings of the last run. A time limit and --lenient that are given anew hold for the pages that are left."""
    old = settings_from(options, out)
    seconds = given.time if given.time != usual_seconds else old.time or usual_seconds
    return old.but(time=seconds, strict=old.strict and given.strict, jobs=1)
