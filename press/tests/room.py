# SPDX-License-Identifier: Apache-2.0
"""What the tests of the press commands share: a folder of its own for each test, and the ways in which a command is expected to end."""
import contextlib
import io
import logging
import os
import re
import runpy
import shutil
import signal
import subprocess
import sys
import tempfile
import time
from dataclasses import dataclass, field
from pathlib import Path
from typing import Callable, Iterator, Mapping

import pytest

TOP = Path(__file__).resolve().parents[2]
LABEL = TOP / "examples" / "label" / "label.pdf"
# The commands under test. Another commit's commands are tested by naming their folder.
COMMANDS = Path(os.environ.get("PRESS_COMMANDS", TOP / "press"))
# How long a command may take before the test gives up on it: much longer than any takes on a busy machine.
LONGEST = 900
# How often a condition is looked for while a test waits.
PAUSE = 0.05
TEMPORARY = re.compile(r"\.press-")


def there(tool: str) -> bool:
    """Whether a tool is on the PATH, or where Debian keeps the administrator's tools."""
    return shutil.which(tool, path=os.environ["PATH"] + ":/usr/sbin:/sbin") is not None


def needs(*tools: str) -> pytest.MarkDecorator:
    """Skips a test unless all of these tools are installed, and names the first one that is missing."""
    missing = [tool for tool in tools if not there(tool)]
    return pytest.mark.skipif(bool(missing), reason=f"{missing[0]} is not installed" if missing else "")


@dataclass(frozen=True)
class Result:
    """How a command ended: its exit status, and what it printed."""

    words: list[str]
    status: int
    out: str
    err: str

    def __str__(self) -> str:
        return f"{' '.join(self.words)} ended with {self.status}\nstdout: {self.out}\nstderr: {self.err}"


@contextlib.contextmanager
def inside(words: list[str], environment: dict[str, str], folder: Path) -> Iterator[tuple[io.BytesIO, io.BytesIO]]:
    """Makes this process look like one that runs a command, and gives the bytes that it prints."""
    log, out, err = logging.getLogger("press"), io.BytesIO(), io.BytesIO()
    saved = dict(os.environ), os.getcwd(), sys.argv, sys.path[:], sys.stdout, sys.stderr, log.handlers[:], tempfile.tempdir
    signals = {number: signal.getsignal(number) for number in (signal.SIGINT, signal.SIGTERM, signal.SIGHUP)}
    try:
        os.environ.clear()
        os.environ.update(environment)
        os.chdir(folder)
        sys.argv, tempfile.tempdir = words, None
        sys.stdout, sys.stderr = (io.TextIOWrapper(stream, "utf-8", write_through=True) for stream in (out, err))
        yield out, err
    finally:
        for stream in (sys.stdout, sys.stderr):
            stream.flush()
            stream.detach()
        sys.stdout, sys.stderr = saved[4:6]
        os.environ.clear()
        os.environ.update(saved[0])
        os.chdir(saved[1])
        sys.argv, sys.path[:], log.handlers[:], tempfile.tempdir = saved[2], saved[3], saved[6], saved[7]
        for number, handler in signals.items():
            signal.signal(number, handler)


@dataclass
class Room:
    """The folder of a test. Commands run in `folder`, with temporary files in a folder beside it that has to be empty at the end. With
    `is_quick` the commands that are written in Python run in this process, since Python's start takes longer than most refusals."""

    folder: Path
    beside: Path
    samples: Path
    programs: Path
    environment: dict[str, str]
    is_quick: bool = False
    children: list[subprocess.Popen[str]] = field(default_factory=list)

    def __truediv__(self, name: str) -> Path:
        return self.folder / name

    @property
    def temporary(self) -> Path:
        """The folder of temporary files."""
        return Path(self.environment["TMPDIR"])

    # Files

    def sample(self, *names: str) -> None:
        """Puts sample files into the folder."""
        for name in names:
            shutil.copyfile(self.samples / name, self.folder / name)

    def write(self, name: str, data: str | bytes) -> Path:
        """Writes a file into the folder."""
        path = self.folder / name
        path.write_bytes(data.encode() if isinstance(data, str) else data)
        return path

    def state(self) -> dict[str, tuple[int, ...]]:
        """Each file of the folder with its number, size and time of change; of a folder that it is there."""
        found = {}
        for place, folders, files in os.walk(self.folder):
            for name in folders:
                found[os.path.join(place, name)] = ()
            for name in files:
                told = os.lstat(os.path.join(place, name))
                found[os.path.join(place, name)] = (told.st_ino, told.st_size, told.st_mtime_ns)
        return found

    def left_over(self) -> list[str]:
        """Files and folders under temporary names."""
        return [os.path.join(place, name) for place, folders, files in os.walk(self.folder) for name in folders + files
                if TEMPORARY.match(name)]

    def clear_temporary(self) -> None:
        """Takes away the temporary files of a run that was killed outright: that is left to the system."""
        for entry in self.temporary.iterdir():
            if entry.is_dir() and not entry.is_symlink():
                shutil.rmtree(entry)
            else:
                entry.unlink()

    # Commands

    def words(self, command: str | Path, *arguments: str | Path) -> list[str]:
        """The words that start a command."""
        path = COMMANDS / command if isinstance(command, str) else command
        return [str(path), *(os.fspath(one) for one in arguments)]

    def surroundings(self, env: Mapping[str, str | None] | None) -> dict[str, str]:
        """The test's environment with some variables changed, or taken out where the value is None."""
        changed: dict[str, str | None] = {**self.environment, **(env or {})}
        return {name: value for name, value in changed.items() if value is not None}

    def run(self, command: str | Path, *arguments: str | Path, env: Mapping[str, str | None] | None = None,
            cwd: Path | None = None) -> Result:
        """Runs a command to its end."""
        words = self.words(command, *arguments)
        if self.is_quick and Path(words[0]).read_bytes().startswith(b"#!/usr/bin/env python3"):
            return self.run_inside(words, self.surroundings(env), cwd or self.folder)
        done = subprocess.run(words, cwd=cwd or self.folder, env=self.surroundings(env), stdin=subprocess.DEVNULL,
                              capture_output=True, timeout=LONGEST, check=False)
        return Result(words, done.returncode, *(text.decode("utf-8", "surrogateescape") for text in (done.stdout, done.stderr)))

    def run_inside(self, words: list[str], environment: dict[str, str], folder: Path) -> Result:
        """Runs a command that is written in Python in this process."""
        status: object = 0
        with inside(words, environment, folder) as (out, err):
            try:
                runpy.run_path(words[0], run_name="__main__")
            except SystemExit as end:
                status = end.code
        printed = (stream.getvalue().decode("utf-8", "surrogateescape") for stream in (out, err))
        return Result(words, int(status) if isinstance(status, int) else 0, *printed)

    def goes(self, command: str | Path, *arguments: str | Path, env: Mapping[str, str | None] | None = None,
             cwd: Path | None = None) -> Result:
        """Runs a command that ends well and prints nothing but warnings and notes on standard error."""
        done = self.run(command, *arguments, env=env, cwd=cwd)
        assert done.status == 0, done
        assert all(re.search(r": (warning|note): ", line) for line in done.err.splitlines()), done
        assert not self.left_over(), f"{done}\nleft over: {self.left_over()}"
        return done

    def refused(self, status: int, line: str, command: str | Path, *arguments: str | Path,
                env: Mapping[str, str | None] | None = None) -> None:
        """Runs a command that ends with this status, prints one line that matches, and changes nothing."""
        before = self.state()
        done = self.run(command, *arguments, env=env)
        assert done.status == status, done
        assert done.out == "", done
        assert re.fullmatch(line, done.err.removesuffix("\n")), f"{done}\nand not: {line}"
        assert done.err.count("\n") == 1, done
        assert self.state() == before, f"{done}\nthe folder was changed"

    def refused_after(self, status: int, line: str, command: str | Path, *arguments: str | Path,
                      env: Mapping[str, str | None] | None = None) -> Result:
        """Runs a command that ends with this status, the first line on standard output matching."""
        done = self.run(command, *arguments, env=env)
        assert done.status == status, done
        assert re.fullmatch(line, done.out.partition("\n")[0]), f"{done}\nand not: {line}"
        return done

    # Commands that are still at work

    def start(self, command: str | Path, *arguments: str | Path, env: Mapping[str, str | None] | None = None,
              log: str = "started") -> subprocess.Popen[str]:
        """Starts a command. What it prints goes into the files LOG.out and LOG.err beside the folder."""
        with open(self.beside / f"{log}.out", "w", encoding="utf-8") as out, open(self.beside / f"{log}.err", "w", encoding="utf-8") as err:
            child = subprocess.Popen(self.words(command, *arguments), cwd=self.folder, env=self.surroundings(env), stdin=subprocess.DEVNULL,
                                     stdout=out, stderr=err, text=True)
        self.children.append(child)
        return child

    def printed(self, log: str = "started") -> str:
        """What a command that was started has printed on standard output so far."""
        return (self.beside / f"{log}.out").read_text(errors="surrogateescape")

    def complained(self, log: str = "started") -> str:
        """What a command that was started has printed on standard error so far."""
        return (self.beside / f"{log}.err").read_text(errors="surrogateescape")

    def wait_until(self, condition: Callable[[], object], what: str, child: subprocess.Popen[str] | None = None) -> None:
        """Waits for a condition, as long as a command that has to bring it about is at work."""
        end = time.monotonic() + LONGEST
        while not condition():
            ended = child is not None and child.poll() is not None
            if ended and condition():
                return
            assert not ended, f"{what}: the command ended with {child.returncode if child else ''} before: {self.complained()}"
            assert time.monotonic() < end, f"{what}: not in {LONGEST} s: {self.printed()} {self.complained()}"
            time.sleep(PAUSE)

    def stop(self, child: subprocess.Popen[str], number: int = signal.SIGTERM) -> int:
        """Sends a signal to a command that is at work, and answers its exit status."""
        assert child.poll() is None, f"it ended with {child.returncode} before it was stopped: {self.complained()}"
        child.send_signal(number)
        return child.wait(LONGEST)

    def processes(self, name: str | None = None) -> Iterator[str]:
        """The command lines of processes at work in this folder or below it: of all, or of those with this name."""
        inside = os.fsencode(self.folder)
        for entry in Path("/proc").iterdir():
            try:
                place = os.fsencode(os.readlink(entry / "cwd")) if entry.name.isdigit() else b""
                if place == inside or place.startswith(inside + b"/"):
                    if name is None or (entry / "comm").read_text().strip() == name:
                        yield (entry / "cmdline").read_bytes().replace(b"\0", b" ").decode("utf-8", "replace")
            except OSError:
                continue

    def rests(self) -> None:
        """Waits until nothing is at work in the folder any more."""
        self.wait_until(lambda: not any(self.processes()), f"something goes on: {list(self.processes())}")

    # Stand-ins for tools

    def script(self, name: str, text: str) -> Path:
        """A script in the folder of stand-ins, which comes first on the PATH that `stand_ins` gives."""
        path = self.beside / "stand-ins" / name
        path.parent.mkdir(exist_ok=True)
        path.write_text(text)
        path.chmod(0o755)
        return path

    def stand_ins(self) -> dict[str, str]:
        """A PATH on which the stand-ins come first."""
        return {"PATH": f"{self.beside / 'stand-ins'}:{self.environment['PATH']}"}

    def slow_ghostscript(self, pattern: str = "*tiffsep*") -> dict[str, str]:
        """A PATH with a Ghostscript that never ends a page, its arguments being like the pattern, while the file `slow-now` is
        there; it then makes the file `slow-begun`."""
        now, begun = self.beside / "slow-now", self.beside / "slow-begun"
        self.script("gs", f'#!/bin/sh\ncase "$*" in {pattern}) if [ -e "{now}" ]; then : >"{begun}"; exec sleep 3600; fi ;; esac\n'
                          f'exec {shutil.which("gs")} "$@"\n')
        return self.stand_ins()

    def without(self, *tools: str) -> dict[str, str]:
        """A PATH with all of Debian's tools but these."""
        place = self.beside / ("without-" + "-".join(tools))
        if not place.exists():
            place.mkdir()
            for tool in os.listdir("/usr/bin"):
                if tool not in tools and tool != "python3":
                    (place / tool).symlink_to(f"/usr/bin/{tool}")
            python = shutil.which("python3", path=self.environment["PATH"])
            (place / "python3").symlink_to(python or "/usr/bin/python3")
        return {"PATH": str(place)}

    def close(self) -> None:
        """Ends what a failed test left at work."""
        for child in self.children:
            if child.poll() is None:
                child.send_signal(signal.SIGCONT)
                child.kill()
                child.wait(LONGEST)
