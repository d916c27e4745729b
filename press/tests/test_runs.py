# SPDX-License-Identifier: Apache-2.0
"""Runs from Python: events, pages at once, and pages whose process is lost."""
import os
import signal
from pathlib import Path

import pytest
from press import tools
from press.events import Event, PageDone, PageFailed, RunDone, RunStarted, StepDone
from press.runs import run
from press.settings import Settings
from room import Room

pytestmark = pytest.mark.usefixtures("built")
# A program that ends the process that calls it for page 2, and is the real one otherwise.
KILLS = """#!/bin/sh
case "$*" in *page.job*) if grep -q "Page 2 of" page.job; then kill -9 $PPID; sleep 600; fi ;; esac
exec "{program}" "$@"
"""


def files_of(folder: Path) -> dict[str, bytes]:
    """The files of a run but for the sheet of all, by their names."""
    return {str(path.relative_to(folder)): path.read_bytes() for path in sorted(folder.rglob("*")) if path.is_file()}


def test_events(room: Room, monkeypatch: pytest.MonkeyPatch) -> None:
    """A run tells its observer which step of which page is done, in order, and how each page ended."""
    monkeypatch.setenv("TRAP_BIN", str(room.programs))
    room.sample("three.pdf")
    events: list[Event] = []
    result = run(str(room / "three.pdf"), str(room / "out"), Settings(dpi=72, proof=False), [1, 3], events.append)
    assert isinstance(events[0], RunStarted) and events[0].pages == (1, 3) and events[0].count == 3
    steps = [(one.page, one.step) for one in events if isinstance(one, StepDone)]
    assert steps == [(page, step) for page in (1, 3) for step in ("a look", "plates", "traps", "TIFF files")]
    assert [one.page for one in events if isinstance(one, PageDone)] == [1, 3] == list(result.pages)
    assert events[-1] == RunDone(()) and result.failed == () and result.status == 0


def test_pages_at_once(room: Room) -> None:
    """Pages that are done at once have the bytes of pages that are done one after another, and are listed in their order."""
    room.sample("three.pdf")
    room.goes("all", "--quiet", "--no-proof", "--dpi", "72", "three.pdf", "one")
    done = room.goes("all", "--quiet", "--no-proof", "--dpi", "72", "--jobs", "3", "three.pdf", "three")
    assert [line.split(":")[0] for line in done.out.splitlines()] == ["page 1", "page 2", "page 3"], done
    assert files_of(room / "one") == files_of(room / "three")


@pytest.mark.parametrize("jobs", ["1", "3"])
def test_lost_page(room: Room, jobs: str) -> None:
    """A page whose process is killed fails with a line that says so; the other pages are done."""
    room.sample("three.pdf")
    room.script("trapsheet", KILLS.format(program=os.path.realpath(room.programs / "trapsheet")))
    done = room.run("all", "--quiet", "--no-proof", "--dpi", "72", "--jobs", jobs, "three.pdf", "out",
                    env={"TRAP_BIN": str(room.beside / "stand-ins")})
    assert done.status == 1, done
    failed = "page 2: failed: press-all: the page's process was ended by SIGKILL: was there not enough memory?"
    assert [line.partition(": done")[0] for line in done.out.splitlines()] == ["page 1", failed, "page 3"], done
    assert (room / "out/page-002.failed/why").read_text() == failed.removeprefix("page 2: failed: ") + "\n"
    assert (room / "out/page-003/tiff").is_dir() and not (room / "out/page-002").exists()
    assert not room.left_over()


def test_page_that_fails_is_in_the_result(room: Room, monkeypatch: pytest.MonkeyPatch) -> None:
    """From Python, a page that fails has its status and its line."""
    monkeypatch.setenv("TRAP_BIN", str(room.programs))
    monkeypatch.chdir(room.folder)
    room.sample("three.pdf")
    room.write("three.2.zones", "gsave\n")
    result = run("three.pdf", "out", Settings(dpi=72, proof=False))
    failed = result.pages[2]
    assert result.failed == (2,) and isinstance(failed, PageFailed) and failed.status == 9
    assert failed.why.startswith("press-preflight: three.pdf: page 2: three.2.zones: line 1: the program refuses it: ")


def test_signals_wait_while_a_process_is_forked() -> None:
    """A signal that arrives in the block is handled when the block is left."""
    handled: list[int] = []
    before = signal.signal(signal.SIGTERM, lambda number, _: handled.append(number))
    try:
        with tools.signals_wait():
            # To this thread: another one, which a parallel test run has, would take it at once.
            signal.raise_signal(signal.SIGTERM)
            assert not handled
        assert handled == [signal.SIGTERM]
    finally:
        signal.signal(signal.SIGTERM, before)
