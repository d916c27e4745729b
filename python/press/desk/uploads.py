# SPDX-License-Identifier: Apache-2.0
"""Files that browsers send, streamed to disk within limits: one file is a job, and the separations of a page, which
come as several TIFF files, are one job together."""
from __future__ import annotations

import os
import re
import secrets
import shutil
import tempfile
import time
from collections.abc import Mapping
from dataclasses import dataclass
from pathlib import Path

from press.names import MOST_PLATES, PROCESS

from .job_queue import SEPARATIONS, Job, Queue, TooMuch

MOST_BYTES = 1 << 30
MOST_UPLOADS = 4
MOST_WAITING = 100
MOST_NAME = 100
MOST_DPI = 10_000
SECONDS_OF_SET = 3600.0
LEFT = ".press-upload-"


def plain_name(name: str) -> str:
    """A file name that is safe in a folder, and still shows people which file it is."""
    base = re.sub(r"[^\w .()+,-]", "_", name.replace("\\", "/").rpartition("/")[2]).strip(" .")
    stem, dot, ending = base.rpartition(".")
    if not dot:
        stem, ending = base, "pdf"
    return f"{stem[:MOST_NAME] or 'upload'}.{ending[:8]}"


def colorants_of(names: list[str]) -> list[str]:
    """The colorant of each of a page's separations, by their files' names: what is in brackets, as tiffsep has it; else
    a process ink that the name ends with; else what the names do not have in common."""
    stems = [name.rpartition(".")[0] for name in names]
    common = os.path.commonprefix(stems) if len(stems) > 1 else ""
    common = common[:max((common.rfind(one) for one in " _-."), default=-1) + 1]
    found = []
    for stem in stems:
        bracketed = re.search(r"\(([^()]+)\)$", stem)
        process = next((name for name in PROCESS if stem.lower().endswith(name.lower())), None)
        found.append(bracketed[1] if bracketed else process or stem.removeprefix(common).strip(" _-.") or stem)
    return found


@dataclass(frozen=True)
class SetOf:
    """Which set of separations a file belongs to: the browser's key for it, and how many files it has; the resolution
    in dpi, for files that do not say theirs; and whether white is full ink."""

    key: str
    count: int
    dpi: int | None = None
    inverted: bool = False

    @classmethod
    def of_query(cls, query: Mapping[str, str]) -> SetOf | None:
        """The set that an address names; None for a file alone. Raises TooMuch if it is none."""
        if "set" not in query:
            return None
        key, count, dpi = query["set"], query.get("of", ""), query.get("dpi", "")
        if not re.fullmatch(r"[0-9a-f]{8,64}", key) or not re.fullmatch(r"\d{1,3}", count):
            raise TooMuch("no set of separations")
        if not 1 <= int(count) <= MOST_PLATES:
            raise TooMuch(f"{count} separations, and a page has 1 to {MOST_PLATES}")
        if dpi and not (re.fullmatch(r"\d{1,5}", dpi) and 1 <= int(dpi) <= MOST_DPI):
            raise TooMuch(f"a resolution is a whole number of dpi to {MOST_DPI}")
        return cls(key, int(count), int(dpi) if dpi else None, query.get("inverted") == "1")


@dataclass
class Gathered:
    """The separations of a set that have arrived."""

    folder: Path
    begun: float
    names: list[str]


class Uploads:
    """Takes files, and makes jobs of them."""

    def __init__(self, folder: Path, queue: Queue) -> None:
        self.folder, self.queue = folder, queue
        self.arriving = 0
        self.sets: dict[str, Gathered] = {}
        sweep(folder)

    def begin(self, name: str, of: SetOf | None = None) -> Upload:
        """Begins an upload, unless too many arrive or wait."""
        with self.queue.wake:
            if self.arriving >= MOST_UPLOADS or self.queue.count_waiting() >= MOST_WAITING:
                raise TooMuch("too many uploads at once: try again later")
            self.arriving += 1
        try:
            return Upload(self, name, of)
        except BaseException:
            self.arrived()
            raise

    def arrived(self) -> None:
        """An upload has ended in some way. Sets of which nothing came for long are cleared away."""
        with self.queue.wake:
            self.arriving -= 1
            for key, one in list(self.sets.items()):
                if time.monotonic() - one.begun > SECONDS_OF_SET:
                    shutil.rmtree(self.sets.pop(key).folder, ignore_errors=True)

    def take(self, folder: Path, name: str, of: SetOf | None) -> str:
        """Makes a job of a file that is whole; its id, or an empty one if more files of its set are to come."""
        if of is None:
            return self.queue.add(Job.of_file(self._named(folder), name))
        with self.queue.wake:
            one = self.sets.setdefault(of.key, Gathered(folder, time.monotonic(), []))
            if name in one.names or len(one.names) >= of.count:
                raise TooMuch(f"{name}: the set has this file already")
            if one.folder != folder:
                os.rename(folder / name, one.folder / name)
                shutil.rmtree(folder, ignore_errors=True)
            one.names.append(name)
            if len(one.names) < of.count:
                return ""
            del self.sets[of.key]
        options = {"colorants": dict(zip(one.names, colorants_of(one.names))), "dpi": of.dpi, "inverted": of.inverted}
        title = f"{os.path.commonprefix(one.names).rstrip(' _-(.') or one.names[0]} ({len(one.names)} separations)"
        return self.queue.add(Job.of_file(self._named(one.folder), one.names[0], SEPARATIONS, title, options))

    def _named(self, folder: Path) -> Path:
        final = self.folder / f"job-{secrets.token_hex(6)}"
        os.rename(folder, final)
        return final


class Upload:
    """A file that is arriving. It becomes a job, or part of one, when it is whole, and leaves nothing behind
    otherwise."""

    def __init__(self, uploads: Uploads, name: str, of: SetOf | None) -> None:
        self.uploads, self.name, self.of, self.count = uploads, plain_name(name), of, 0
        self.folder: Path | None = Path(tempfile.mkdtemp(prefix=LEFT, dir=uploads.folder))
        # pylint: disable-next=consider-using-with
        self.file = open(self.folder / self.name, "xb")

    def write(self, part: bytes) -> None:
        """Takes some more of the file."""
        self.count += len(part)
        if self.count > MOST_BYTES:
            raise TooMuch(f"{self.name}: more than {MOST_BYTES >> 20} MB")
        self.file.write(part)

    def finish(self) -> str:
        """Makes a job of the file; its id."""
        self.file.close()
        if not self.count:
            raise TooMuch(f"{self.name}: the file is empty")
        assert self.folder is not None
        key = self.uploads.take(self.folder, self.name, self.of)
        self.folder = None
        return key

    def close(self) -> None:
        """Clears away what did not become a job."""
        self.file.close()
        if self.folder is not None:
            shutil.rmtree(self.folder, ignore_errors=True)
            self.folder = None
        self.uploads.arrived()


def sweep(folder: Path) -> None:
    """Clears away uploads that an earlier server left unfinished."""
    for left in folder.glob(f"{LEFT}*"):
        shutil.rmtree(left, ignore_errors=True)
