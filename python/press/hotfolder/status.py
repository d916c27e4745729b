# SPDX-License-Identifier: Apache-2.0
"""What a hot folder has: waiting files, files at work, and what came of the others. Nothing in it is changed."""
import contextlib
import fcntl
import os
import time
from typing import Any

from ..errors import PressError, Status
from ..files import LOCK, need_folder
from ..names import clean
from .arrivals import Arrivals
from .claims import WHY, claims
from .config import HotFolder


def holder_of(path: str) -> str | None:
    """The process that holds a lock, or None if none does."""
    with contextlib.suppress(OSError), open(path, "rb") as file:
        try:
            fcntl.flock(file, fcntl.LOCK_SH | fcntl.LOCK_NB)
        except BlockingIOError:
            return file.read(1000).decode("utf-8", "replace").strip()
    return None


def folders_in(path: str) -> list[str]:
    """The folders in a folder, those last that were changed last."""
    with contextlib.suppress(OSError), os.scandir(path) as entries:
        found = [(entry.stat(follow_symlinks=False).st_mtime, entry.path) for entry in entries
                 if entry.is_dir(follow_symlinks=False) and not entry.name.startswith(".")]
        return [place for _, place in sorted(found)]
    return []


def last_failure(places: list[str]) -> dict[str, str] | None:
    """The last file that failed, and the first line of its reason."""
    for place in reversed(places):
        with contextlib.suppress(OSError), open(os.path.join(place, WHY), encoding="utf-8",
                                                errors="surrogateescape") as file:
            return {"place": place, "why": file.readline().strip()}
    return None


def status_of(hot: HotFolder) -> dict[str, Any]:
    """What is in a hot folder, as --status --json prints it."""
    if not os.path.lexists(hot.path):
        raise PressError(Status.INPUT, "No such directory", hot.path)
    need_folder(hot.path)
    work = []
    for one in claims(hot):
        # It may be filed meanwhile.
        with contextlib.suppress(FileNotFoundError):
            work += [{"name": one.name, "state": one.state, "since": round(one.since, 3)}] if one.name else []
    failed = folders_in(hot.failed)
    return {"folder": hot.path, "watched_by": holder_of(os.path.join(hot.path, LOCK)),
            "waiting": Arrivals(hot).look(), "claimed": work, "done": len(folders_in(hot.done)),
            "failed": len(failed), "last_failure": last_failure(failed)}


def status_lines(found: dict[str, Any]) -> list[str]:
    """The same for people."""
    lines = [f"{found['folder']}: {'watched by ' + found['watched_by'] if found['watched_by'] else 'not watched'}",
             f"  {len(found['waiting'])} waiting, {len(found['claimed'])} claimed, {found['done']} done, "
             f"{found['failed']} failed"]
    for one in found["claimed"]:
        since = time.strftime("%Y-%m-%d %H:%M:%S", time.localtime(one["since"]))
        lines.append(f"  {one['name']}: {one['state']}, since {since}")
    if found["last_failure"]:
        lines.append(f"  last failure: {found['last_failure']['place']}: {found['last_failure']['why']}")
    return [clean(line) for line in lines]
