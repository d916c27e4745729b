# SPDX-License-Identifier: Apache-2.0
"""The queue of a hot folder on disk. Each step is one rename within a file system, so that whatever is killed, and
whenever, the next start finds out from the names alone how far a file was.

    DIR/NAME                    incoming: whoever put it there may still change it
    DIR/.claimed/ID/in/NAME     claimed: it is ours, and nobody finds it by its old name; ID/name keeps that
    DIR/.claimed/ID/work-*      working: removed at the next start, and the file is made anew
    DIR/.claimed/ID/done        decided, or "failed": what was made is whole, and the file moves into it
    DIR/done/NAME               filed, or "failed/NAME"; ID/filed names it until the command has run
"""
import contextlib
import errno
import os
import shutil
import tempfile
import time
from collections.abc import Iterator
from dataclasses import dataclass

from ..errors import PressError
from ..files import write_text
from .config import HotFolder

CLAIMED, NAME, FILED, WORK, WHY = ".claimed", "name", "filed", "work-", "why.txt"
STATES = ("done", "failed")
# What belongs to a page and stays; names of files that are still being written.
BELONG = (".inks", ".zones", ".pairs")
UNFINISHED = (".part", ".tmp", ".crdownload", ".filepart", "~")
TAKEN = (errno.EEXIST, errno.ENOTEMPTY, errno.ENOTDIR)
Signature = tuple[int, int, int]


def free_path(path: str) -> str:
    """A path that is free: the path itself, or with -2, -3 and so on after it."""
    count, free = 1, path
    while os.path.lexists(free):
        count += 1
        free = f"{path}-{count}"
    return free


def is_left(name: str) -> bool:
    """Whether a name is none of the files that are taken or moved away."""
    return name.startswith(".") or name.lower().endswith(BELONG + UNFINISHED)


def signature(path: str) -> Signature:
    """What changes if a file is replaced or written to: its number, its size in bytes, the time of its last change."""
    found = os.lstat(path)
    return found.st_ino, found.st_size, found.st_mtime_ns


@dataclass(frozen=True)
class Claim:
    """A file that was claimed: the folder of the claim, and the file's name."""

    hot: HotFolder
    path: str
    name: str

    def place(self, *names: str) -> str:
        """A path in the folder of the claim."""
        return os.path.join(self.path, *names)

    @property
    def file(self) -> str:
        """The path of the file itself."""
        return self.place("in", self.name)

    @property
    def stem(self) -> str:
        """The name without its ending."""
        return os.path.splitext(self.name)[0]

    @property
    def since(self) -> float:
        """When the file was claimed, in seconds since 1970."""
        return os.stat(self.place(NAME)).st_mtime

    @property
    def state(self) -> str:
        """How far the file is: claimed, working, done or failed, or filed."""
        for state in STATES:
            if os.path.lexists(self.place(state)):
                return state
        if os.path.lexists(self.place(FILED)):
            return FILED
        return "working" if any(name.startswith(WORK) for name in os.listdir(self.path)) else "claimed"

    def begin(self) -> str:
        """Makes the folder of an attempt, and copies the tables that lie beside the incoming file."""
        for name in os.listdir(self.hot.path):
            if name.lower().endswith(BELONG) and name.startswith(self.stem + "."):
                with contextlib.suppress(OSError):
                    shutil.copyfile(os.path.join(self.hot.path, name), self.place("in", name))
        return tempfile.mkdtemp(prefix=WORK, dir=self.path)

    def give_up(self) -> None:
        """Removes all attempts: the file is claimed, and no more."""
        for name in os.listdir(self.path):
            if name.startswith(WORK):
                shutil.rmtree(self.place(name), ignore_errors=True)

    def decide(self, made: str, state: str) -> None:
        """Says how the file ended: what was made, and is whole, becomes the folder of this state."""
        os.rename(made, self.place(state))

    def file_away(self) -> str:
        """Moves what was decided to its final place, the file within it. Answers that place."""
        state = self.state
        made, parent = self.place(state), self.hot.done if state == "done" else self.hot.failed
        if os.path.lexists(self.file):
            os.rename(self.file, free_path(os.path.join(made, self.name)))
        os.makedirs(parent, exist_ok=True)
        while True:
            place = free_path(os.path.join(parent, self.stem))
            # The next start knows by this where the folder went, if this process is killed after the rename.
            write_text(self.place(FILED), f"{state}\n{place}", "surrogateescape")
            try:
                os.rename(made, place)
                return place
            except OSError as fault:
                if fault.errno not in TAKEN:
                    raise

    def filed(self) -> tuple[str, str]:
        """How a file that was filed ended, and its place."""
        with open(self.place(FILED), encoding="utf-8", errors="surrogateescape", newline="") as file:
            state, _, place = file.read().partition("\n")
        return state, place

    def close(self) -> None:
        """Removes the claim, whose file is filed."""
        with contextlib.suppress(FileNotFoundError):
            os.remove(self.place(FILED))
        shutil.rmtree(self.path, ignore_errors=True)


def claim(hot: HotFolder, name: str) -> Claim | None:
    """Claims a file by renaming it. Nothing, if it is not there any more. Refuses one that cannot be renamed, with the
    system's reason."""
    made = Claim(hot, new_folder(os.path.join(hot.path, CLAIMED)), name)
    try:
        write_text(made.place(NAME), name, "surrogateescape")
        os.mkdir(made.place("in"))
        os.rename(os.path.join(hot.path, name), made.file)
    except (OSError, PressError) as fault:
        made.close()
        if isinstance(fault, FileNotFoundError):
            return None
        raise
    return made


def new_folder(parent: str) -> str:
    """A new folder; names of later ones come later."""
    stamp = time.strftime("%Y%m%d-%H%M%S-", time.gmtime())
    number = 0
    while True:
        path = os.path.join(parent, f"{stamp}{number:04d}")
        with contextlib.suppress(FileExistsError):
            os.mkdir(path)
            return path
        number += 1


def claims(hot: HotFolder) -> Iterator[Claim]:
    """The claims of a hot folder, oldest first. One that was opened or closed, and no more, has no name."""
    place = os.path.join(hot.path, CLAIMED)
    for number in sorted(os.listdir(place)) if os.path.isdir(place) else []:
        path = os.path.join(place, number)
        if os.path.isdir(path):
            yield Claim(hot, path, claimed_name(path))


def claimed_name(path: str) -> str:
    """The name of the file of a claim; empty if there is no file in it and none was filed."""
    with contextlib.suppress(OSError), open(os.path.join(path, NAME), encoding="utf-8", errors="surrogateescape",
                                            newline="") as file:
        name = file.read()
        ends = [os.path.join("in", name), *STATES, FILED]
        return name if name and any(os.path.lexists(os.path.join(path, end)) for end in ends) else ""
    return ""
