# SPDX-License-Identifier: Apache-2.0
"""Which files of a hot folder are ready to be claimed: nobody writes to them, they have not changed for some seconds,
and they are complete. The folder is listed again and again, so that changes by other machines are seen too."""
import contextlib
import fcntl
import os
import re
import stat
import time
from collections.abc import Callable, Iterator
from dataclasses import dataclass

from .claims import Signature, is_left, signature
from .config import HotFolder

PAGES = (".pdf", ".ps", ".eps", ".ai")
# How far from its end a file may have its end mark, and how far from its beginning a PDF says that it is linearized.
TAIL_BYTES, HEAD_BYTES = 1024, 2048
END_MARK, DOS_EPS = b"%%EOF", b"\xc5\xd0\xd3\xc6"
# Some EPS files end with their page, and with no mark.
LAST_PAGE = re.compile(rb"\bshowpage\b[\s\w%:]*$")


@dataclass
class Seen:
    """A file as it was seen first since its last change: what changes with it, and when that was, in seconds."""

    sign: Signature
    since: float


@dataclass(frozen=True)
class Ready:
    """A file that is ready to be claimed, and why it is no page, if it is none."""

    name: str
    fault: str | None = None


class Arrivals:
    """The files that lie in a hot folder. `clock` counts seconds."""

    def __init__(self, hot: HotFolder, clock: Callable[[], float] = time.monotonic) -> None:
        self.hot, self.clock = hot, clock
        self.seen: dict[str, Seen] = {}
        here = os.path.realpath(hot.path)
        self.own = {os.path.basename(place) for place in (hot.done, hot.failed)
                    if os.path.realpath(os.path.dirname(place)) == here}

    def look(self) -> list[str]:
        """Looks at the folder. Answers the names of all files that may be taken some day, those first that have been
        unchanged for longest."""
        found: dict[str, Seen] = {}
        for name in os.listdir(self.hot.path):
            path = os.path.join(self.hot.path, name)
            if not is_left(name) and name not in self.own:
                with contextlib.suppress(FileNotFoundError):
                    sign, old = signature(path), self.seen.get(name)
                    found[name] = old if old and old.sign == sign else Seen(sign, self.clock())
        self.seen = found
        return sorted(found, key=lambda name: (found[name].since, name))

    def ready(self) -> Iterator[Ready]:
        """The files that are ready."""
        for name in self.look():
            still = self.clock() - self.seen[name].since
            if still >= self.hot.settle:
                with contextlib.suppress(FileNotFoundError):
                    if one := self.check(name, os.path.join(self.hot.path, name), still):
                        yield one

    def check(self, name: str, path: str, still: float) -> Ready | None:
        """A file that has been unchanged for so many seconds, if it is ready."""
        if fault := fault_of(path):
            return Ready(name, fault)
        held = is_held(path)
        if held is not False and is_open(path):
            return None
        # A writer that is not seen from here may hold it, or may have paused.
        is_in_doubt = held or fault_in(path) is not None
        return None if is_in_doubt and still < max(self.hot.wait, self.hot.settle) else Ready(name)


def fault_of(path: str) -> str | None:
    """Why what lies there is no page, or None."""
    mode = os.lstat(path).st_mode
    if stat.S_ISLNK(mode):
        return "a link: move or copy the file itself"
    if stat.S_ISDIR(mode):
        return "a folder"
    if not stat.S_ISREG(mode):
        return "no regular file"
    if not path.lower().endswith(PAGES):
        return "no page: PDF, PostScript, EPS and Illustrator files are, by their names"
    return None


# Whether somebody writes

def is_held(path: str) -> bool | None:
    """Whether the system knows that some process has the file open to write: it then gives no lease to read it. None
    for a file of another user, or on a file system without leases, which do not say."""
    try:
        handle = os.open(path, os.O_RDONLY | os.O_CLOEXEC)
    except OSError:
        return None
    try:
        fcntl.fcntl(handle, fcntl.F_SETLEASE, fcntl.F_RDLCK)
        fcntl.fcntl(handle, fcntl.F_SETLEASE, fcntl.F_UNLCK)
        return False
    except BlockingIOError:
        return True
    except OSError:
        return None
    finally:
        os.close(handle)


def is_written(path: str) -> bool:
    """Whether a process is seen to have the file open to write."""
    return is_held(path) is not False and is_open(path)


def is_open(path: str) -> bool:
    """Whether some process that may be looked at has the file open to write."""
    try:
        found = os.stat(path)
    except OSError:
        return False
    for process in os.listdir("/proc"):
        if not process.isdigit():
            continue
        try:
            for number in os.listdir(f"/proc/{process}/fd"):
                if os.path.samestat(os.stat(f"/proc/{process}/fd/{number}"), found):
                    with open(f"/proc/{process}/fdinfo/{number}", encoding="ascii") as file:
                        if re.search(r"^flags:\s*\d*[12]$", file.read(), re.MULTILINE):
                            return True
        except OSError:
            continue
    return False


# Whether it is complete

def fault_in(path: str) -> str | None:
    """Why the bytes of a file are no page, as far as that is seen before it is opened; or None."""
    if not os.access(path, os.R_OK):
        return "it cannot be read: Permission denied"
    lack = lacks_end(path)
    return f"incomplete: {lack}" if lack else None


def lacks_end(path: str) -> str | None:
    """Why a file is incomplete, as far as its first and last bytes say; or None. PostScript without comments has no
    mark at its end, and counts as complete."""
    with open(path, "rb") as file:
        head = file.read(HEAD_BYTES)
        size = file.seek(0, os.SEEK_END)
        file.seek(max(0, size - TAIL_BYTES))
        tail = file.read()
    if not head:
        return "it is empty"
    if head.startswith(DOS_EPS):
        ends = [int.from_bytes(head[at:at + 4], "little") + int.from_bytes(head[at + 4:at + 8], "little")
                for at in (4, 12, 20)]
        return f"its header promises {max(ends)} bytes, and it has {size}" if max(ends) > size else None
    if b"%PDF-" in head[:TAIL_BYTES]:
        return lacks_end_of_pdf(head, tail, size)
    if head.startswith(b"%!PS-Adobe") and END_MARK not in tail and not LAST_PAGE.search(tail):
        return "there is neither %%EOF nor showpage at its end"
    return None


def lacks_end_of_pdf(head: bytes, tail: bytes, size: int) -> str | None:
    """The same of a PDF of so many bytes."""
    length = re.search(rb"/Linearized\b[^>]*/L\s+(\d+)", head) or re.search(rb"/L\s+(\d+)[^>]*/Linearized\b", head)
    if length and int(length[1]) > size:
        return f"its first object promises {int(length[1])} bytes, and it has {size}"
    _, mark, after = tail.rpartition(END_MARK)
    if not mark:
        return "there is no %%EOF at its end"
    return "an update at its end is cut off" if re.search(rb"\d+\s+\d+\s+obj\b", after) else None
