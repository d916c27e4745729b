#!/usr/bin/env python3
# SPDX-License-Identifier: Apache-2.0
"""A soak of press/watch: watch_soak.py [--files 300] [--kills 30] [--seed N] [--folder DIR].

Three writers put files into three hot folders, and replace, rename, truncate, overwrite and withdraw some of them while they are made; the
watch is killed at random moments and started again. Every version is a file of its own with a colour of its own: it is found again by its
number in the file system, of which a second link is kept, so that neither a version that is lost nor one that is filed twice goes unseen.
"""
import argparse
import contextlib
import ctypes
import os
import random
import signal
import subprocess
import sys
import tempfile
import threading
import time
from collections.abc import Callable, Iterator
from dataclasses import dataclass, field
from pathlib import Path

sys.dont_write_bytecode = True
from pdf_writer import Pdf

TOP = Path(__file__).resolve().parents[2]
SIDE = 24
# What Python does not have of the system's calls for files.
LIBRARY, HERE, FOLLOW, NO_REPLACE, EXCHANGE = ctypes.CDLL(None, use_errno=True), -100, 0x400, 1, 2
FIRST_BYTES = 300
# The longest that a soak may take, and the longest between two kills, in seconds. Most kills come when so many lines were written since the
# start, and a moment later; some at any time.
LONGEST, LONGEST_LIFE, MOST_LINES, AT_ANY_TIME = 3600, 60, 16, 0.2
# How long a truncated file is waited for.
WAIT = 2
REFUSED = 8
CONFIG = """
[log]
file = "{top}/log/watch.log"
megabytes = 0.05
keep = 100
""" + "".join(f"""
[[folder]]
path = "{{top}}/{name}"
dpi = 72
lenient = true
outputs = ["plates", "tiff"]
files = {files}
settle = {settle}
wait = {WAIT}
command = ["{{top}}/tell", "{name}"]
""" for name, files, settle in (("one", 1, 0), ("two", 2, 0), ("three", 1, 1)))
FOLDERS = ("one", "two", "three")
TELL = '#!/bin/sh\n[ -s "$2" ] && echo "$1 $PRESS_STATE $2" >>"{top}/told"\n'


def version(number: int, padding: int) -> bytes:
    """A PDF of one page, all of a colour that is the number's own, with so many bytes of nothing in it."""
    file = Pdf()
    tints = [(number >> shift & 255) / 255 for shift in (16, 8, 0)]
    file.page(f"{tints[0]:.6f} {tints[1]:.6f} {tints[2]:.6f} 0 k 0 0 {SIDE} {SIDE} re f", (SIDE, SIDE))
    file.stream("", b"." * padding)
    return file.bytes()


def colour(page: Path) -> int:
    """The number of the version that a page was made of, by the trapped plates."""
    number = 0
    for ink in ("Cyan", "Magenta", "Yellow"):
        data = (page / "trapped" / f"{ink}.pgm").read_bytes()
        number = number << 8 | 255 - data[-(SIDE * SIDE // 2 + SIDE // 2)]
    return number


@dataclass
class Book:
    """What was put in: of each file, by its number in the file system, the bytes that it has at last and whether these are a whole version.
    The bytes of a version give its number."""

    keep: Path
    files: dict[int, tuple[bytes, bool]] = field(default_factory=dict)
    numbers: dict[bytes, int] = field(default_factory=dict)
    lock: threading.Lock = field(default_factory=threading.Lock)

    def version(self, dice: random.Random) -> bytes:
        """A new version."""
        with self.lock:
            number = len(self.numbers) * 7919 + 1
            data = version(number, dice.choice((0, 2_000, 60_000)))
            self.numbers[data] = number
            return data

    def note(self, handle: int, data: bytes, is_whole: bool = True) -> None:
        """Notes the bytes of an open file."""
        with self.lock:
            number = os.fstat(handle).st_ino
            if number not in self.files:
                source, end = f"/proc/self/fd/{handle}".encode(), os.fsencode(self.keep / str(number))
                assert LIBRARY.linkat(HERE, source, HERE, end, FOLLOW) == 0, os.strerror(ctypes.get_errno())
            self.files[number] = data, is_whole


@dataclass
class Writer:
    """A writer: what it does with one file is chosen by its dice."""

    hot: Path
    place: Path
    book: Book
    dice: random.Random
    count: int = 0

    def path(self) -> Path:
        """The path of a new file in a folder beside the hot one."""
        self.count += 1
        return self.place / f"{self.hot.name}-{self.count}"

    def made(self, data: bytes) -> Path:
        """A new file beside the hot folder."""
        path = self.path()
        with open(path, "wb", buffering=0) as file:
            file.write(data)
            self.book.note(file.fileno(), data)
        return path

    def rest(self, most: float = 0.8) -> None:
        """Waits a moment."""
        time.sleep(self.dice.uniform(0, most))

    def put(self, name: str) -> None:
        """Moves a whole file into the hot folder. A name that is there gets its new version by an exchange, so that what was replaced is known."""
        exchange(self.made(self.book.version(self.dice)), self.hot / name)

    def write(self, name: str) -> None:
        """Writes a file slowly in the hot folder itself."""
        data = self.book.version(self.dice)
        cut = self.dice.randrange(1, len(data))
        with contextlib.suppress(FileExistsError), open(self.hot / name, "xb", buffering=0) as file:
            self.book.note(file.fileno(), b"", False)
            file.write(data[:cut])
            self.rest()
            file.write(data[cut:])
            self.book.note(file.fileno(), data)

    def pause(self, name: str) -> None:
        """Writes the first bytes of a file, and the rest after a while, if the file is still there."""
        data = self.book.version(self.dice)
        with contextlib.suppress(FileExistsError), open(self.hot / name, "xb", buffering=0) as file:
            file.write(data[:FIRST_BYTES])
            self.book.note(file.fileno(), data[:FIRST_BYTES], False)
        self.rest(1.5 * WAIT)
        self.change(name, lambda handle: os.pwrite(handle, data[FIRST_BYTES:], FIRST_BYTES) and data, data[:FIRST_BYTES])

    def change(self, name: str, how: Callable[[int], bytes], only: bytes | None = None) -> None:
        """Changes a file in place, if it is still there and is the one that is meant."""
        with contextlib.suppress(FileNotFoundError):
            handle = os.open(self.hot / name, os.O_RDWR)
            try:
                if only is None or os.pread(handle, 1 << 20, 0) == only:
                    self.rest(0.2)
                    data = how(handle)
                    self.book.note(handle, data, data in self.book.numbers)
            finally:
                os.close(handle)

    def truncate(self, name: str) -> None:
        """Cuts a file that may be made already."""
        self.put(name)
        self.rest()

        def cut(handle: int) -> bytes:
            data = os.pread(handle, self.dice.randrange(0, os.fstat(handle).st_size), 0)
            os.ftruncate(handle, len(data))
            return data

        self.change(name, cut)

    def overwrite(self, name: str) -> None:
        """Writes another version into a file that may be made already."""
        self.put(name)
        self.rest()

        def write(handle: int) -> bytes:
            data = self.book.version(self.dice)
            os.ftruncate(handle, 0)
            self.rest(0.3)
            os.pwrite(handle, data, 0)
            return data

        self.change(name, write)

    def replace(self, name: str) -> None:
        """Puts a second version in place of a first one."""
        self.put(name)
        self.rest(3)
        self.put(name)

    def rename(self, name: str) -> None:
        """Gives a file another name, if it is still there."""
        self.put(name)
        self.rest()
        with contextlib.suppress(FileNotFoundError):
            os.rename(self.hot / name, self.hot / f"renamed-{self.count}-{name}")

    def withdraw(self, name: str) -> None:
        """Takes a file away, if it is still there."""
        self.put(name)
        self.rest()
        with contextlib.suppress(FileNotFoundError):
            os.rename(self.hot / name, self.path())

    def work(self, files: int) -> None:
        """Puts in so many files, some of them under a name that another one had."""
        for number in range(files):
            name = f"{self.hot.name} {self.dice.randrange(max(1, files // 2)) if self.dice.random() < 0.2 else number}.pdf"
            self.dice.choice((self.put, self.put, self.write, self.write, self.pause, self.truncate, self.overwrite, self.replace, self.rename,
                              self.withdraw))(name)
            self.rest(0.3)


def exchange(new: Path, final: Path) -> None:
    """Gives a file its final name. What had that name before gets the other one."""
    while True:
        for flag in (EXCHANGE, NO_REPLACE):
            if LIBRARY.renameat2(HERE, os.fsencode(new), HERE, os.fsencode(final), flag) == 0:
                return


# The watch

@dataclass
class Watch:
    """The watch of all folders, that is started again and again."""

    top: Path
    child: subprocess.Popen[bytes] | None = None
    kills: int = 0
    before: int = 0

    def starts(self) -> int:
        """How often a watch has printed that it watches the last folder."""
        path = self.top / "errors"
        return path.read_bytes().count(f"/{FOLDERS[-1]}\n".encode()) if path.exists() else 0

    def ready(self) -> None:
        """Waits until the watch watches all folders."""
        self.run()
        while self.starts() <= self.before:
            time.sleep(0.1)
            self.run()

    def start(self) -> None:
        """Starts the watch. While processes of a killed one still end, it is refused, and started again."""
        self.before = self.starts()
        with open(self.top / "errors", "ab") as errors:
            self.child = subprocess.Popen([TOP / "press" / "watch", "--config", self.top / "watch.toml"], stdin=subprocess.DEVNULL,
                                          stdout=errors, stderr=errors, env={**os.environ, "TMPDIR": str(self.top / "temporary")})

    def run(self) -> None:
        """Starts the watch if it does not run."""
        if self.child is None or self.child.poll() is not None:
            status = self.child.returncode if self.child else 0
            assert status in (0, REFUSED, -signal.SIGKILL, -signal.SIGTERM), f"the watch ended with {status}: {(self.top / 'errors').read_text()}"
            self.start()

    def end(self, number: signal.Signals) -> None:
        """Kills or stops the watch."""
        assert self.child is not None
        self.child.send_signal(number)
        self.child.wait()
        self.kills += number == signal.SIGKILL

    def lines(self) -> int:
        """How many lines all logs have."""
        return sum(path.read_bytes().count(b"\n") for path in (self.top / "log").iterdir())

    def live(self, dice: random.Random) -> None:
        """Waits for the moment of a kill."""
        if dice.random() < AT_ANY_TIME:
            time.sleep(dice.uniform(0, 8))
            return
        enough, end = self.lines() + dice.randrange(1, MOST_LINES), time.monotonic() + LONGEST_LIFE
        while self.lines() < enough and time.monotonic() < end:
            time.sleep(0.02)
        time.sleep(dice.uniform(0, 1) ** 2)


def is_empty(hot: Path) -> bool:
    """Whether nothing waits in a hot folder, and nothing is at work."""
    claimed = hot / ".claimed"
    return not list(hot.glob("*.pdf")) and not (claimed.is_dir() and any(claimed.iterdir()))


def soak(top: Path, files: int, kills: int, seed: int) -> dict[str, int]:
    """Runs the soak in a folder, checks what came of each version, and answers how many there were of which kind."""
    for name in (*FOLDERS, "beside", "keep", "log", "temporary"):
        (top / name).mkdir()
    (top / "watch.toml").write_text(CONFIG.format(top=top))
    (top / "tell").write_text(TELL.format(top=top))
    (top / "tell").chmod(0o755)
    dice, book, watch = random.Random(seed), Book(top / "keep"), Watch(top)
    writers = [Writer(top / name, top / "beside", book, random.Random(dice.random())) for name in FOLDERS]
    threads = [threading.Thread(target=one.work, args=(files // len(writers),), daemon=True) for one in writers]
    for thread in threads:
        thread.start()
    end = time.monotonic() + LONGEST
    try:
        while any(thread.is_alive() for thread in threads) or not all(is_empty(top / name) for name in FOLDERS) or watch.kills < kills:
            assert time.monotonic() < end, f"not all is done in {LONGEST} s: {(top / 'errors').read_text()}"
            watch.run()
            if watch.kills < kills:
                watch.live(dice)
                watch.end(dice.choice((signal.SIGKILL, signal.SIGKILL, signal.SIGTERM)))
            time.sleep(0.2)
        watch.ready()
        assert watch.child is not None and watch.child.poll() is None
    finally:
        if watch.child is not None and watch.child.poll() is None:
            watch.end(signal.SIGTERM)
    assert watch.child.returncode == 0, watch.child.returncode
    return {**check(top, book), "kills": watch.kills}


# What came of it

def places(top: Path) -> Iterator[tuple[int, Path]]:
    """Every PDF outside the kept links, by its number."""
    for folder in (*FOLDERS, "beside"):
        for place, _, names in os.walk(top / folder):
            for name in names:
                if name.endswith(".pdf") or folder == "beside":
                    yield os.stat(os.path.join(place, name)).st_ino, Path(place, name)


def check(top: Path, book: Book) -> dict[str, int]:
    """Checks that each version is in one place, and as it has to be there."""
    found: dict[int, list[Path]] = {}
    for number, path in places(top):
        found.setdefault(number, []).append(path)
    assert set(found) <= set(book.files), f"nobody put these in: {[found[one] for one in set(found) - set(book.files)]}"
    counts = {"versions": len(book.files), "done": 0, "failed": 0, "withdrawn": 0}
    folders = set()
    for number, (data, is_whole) in book.files.items():
        assert len(found.get(number, [])) == 1, f"{'lost' if number not in found else found[number]}: {data[:40]!r}, {len(data)} bytes"
        path = found[number][0]
        assert path.read_bytes() == data, f"{path}: not the bytes that were put in"
        state = path.parent.parent.name if path.parent.parent.name in ("done", "failed") else "withdrawn"
        assert state in ("done", "failed") or path.parent.name == "beside", f"{path}: neither done nor failed"
        counts[state] += 1
        if state == "done":
            assert is_whole and colour(path.parent / "page-001") == book.numbers[data], f"{path}: not the plates of its bytes"
        elif state == "failed":
            why = (path.parent / "why.txt").read_text()
            assert why.startswith("incomplete: ") and not is_whole, f"{path}: {why}"
        folders.add(path.parent)
    for name in FOLDERS:
        assert sorted(os.listdir(top / name)) == [".claimed", "done", "failed"], os.listdir(top / name)
        left = [one for state in ("done", "failed") for one in (top / name / state).iterdir() if one not in folders]
        assert not left, f"{left}: of no file"
    told = {Path(line.split(" ", 2)[2]).parent for line in (top / "told").read_text().splitlines()}
    assert told == folders - {top / "beside"}, f"the command did not run for {folders - told}"
    return counts


def main() -> None:
    """Runs one soak in a temporary folder, or in a new one that stays."""
    parser = argparse.ArgumentParser(description="A soak of press/watch.")
    parser.add_argument("--files", type=int, default=300)
    parser.add_argument("--kills", type=int, default=30)
    parser.add_argument("--seed", type=int, default=int(time.time()))
    parser.add_argument("--folder", type=Path)
    asked = parser.parse_args()
    start = time.monotonic()
    with contextlib.ExitStack() as stack:
        top = asked.folder or Path(stack.enter_context(tempfile.TemporaryDirectory(prefix="soak-")))
        top.mkdir(exist_ok=True)
        counts = soak(top.resolve(), asked.files, asked.kills, asked.seed)
    print(f"watch_soak: seed {asked.seed}: right: {counts}, {time.monotonic() - start:.0f} s")


if __name__ == "__main__":
    main()
