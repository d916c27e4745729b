# SPDX-License-Identifier: Apache-2.0
"""The report in JSON beside each output: its inks and their coverage, what trapping changed, and digests."""
import contextlib
import json
import os
from collections.abc import Iterator, Mapping
from typing import Any

import numpy as np

from .command import version
from .files import need_room, write_text
from .folder import PageFolder
from .job_record import digest_of
from .names import readable
from .plates import Array, Plates, release

ROWS = 1024


@contextlib.contextmanager
def full_disk_refused(folder: str, what: str) -> Iterator[None]:
    """Gives the system's own reason if a library says of a full disk something else."""
    try:
        yield
    except (OSError, RuntimeError):
        need_room(folder, what)
        raise


def coverage(plate: Array, maxval: int = 255) -> float:
    """The mean tint of a plate, in per cent."""
    total = sum(int((maxval - plate[top:top + ROWS].astype(np.int64)).sum()) for top in range(0, plate.shape[0], ROWS))
    release(plate)
    return round(total * 100 / maxval / max(1, plate.size), 3)


def changed(before: Array, after: Array) -> int:
    """How many pixels of a plate trapping changed."""
    count = sum(int(np.count_nonzero(before[top:top + ROWS] != after[top:top + ROWS]))
                for top in range(0, after.shape[0], ROWS))
    release(before, after)
    return count


def page_figures(page: PageFolder, plates: Plates, before: Plates | None = None) -> dict[str, Any]:
    """What is said of a page: its size, and for each ink its names, its coverage in per cent, and how many pixels of
    its plate trapping changed, if the plates before are given."""
    inks = [{"name": readable(ink.colorant), "job_name": ink.name, "coverage": coverage(array, plates.maxval),
             **({"changed": changed(before[ink.name], array)} if before else {})}
            for ink, array in zip(page.inks, plates.arrays)]
    return {"page": page.source.page, "resolution": page.source.resolution, "width": plates.width,
            "height": plates.height, "inks": inks}


def file_figures(path: str, name: str) -> dict[str, Any]:
    """What is said of a file, under its final name."""
    return {"file": name, "bytes": os.path.getsize(path), "sha256": digest_of(path)}


def write_report(path: str, command: str, figures: Mapping[str, Any]) -> None:
    """Writes a report as a whole."""
    told = {"command": command, "version": version(), **figures}
    write_text(path, json.dumps(told, indent=1, ensure_ascii=False) + "\n", errors="surrogateescape")


def report_name(path: str) -> str:
    """The name of the report beside a file."""
    return os.path.splitext(path)[0] + ".json"
