# SPDX-License-Identifier: Apache-2.0
"""Commands that are stopped while a tool is at work: they end as stopped, and leave nothing behind."""
import pytest
from room import LABEL, Room, needs

# A parallel that ignores the first signal, as GNU parallel does until its jobs have begun.
DEAF = """#!/bin/sh
trap : TERM
: >"{begun}"
sleep 3600 &
wait
trap 'kill $!; exit 255' TERM
wait
"""


def stopped(room: Room, command: str, *arguments: str) -> None:
    """Stops a command while Ghostscript renders its page, which it would never end."""
    (room.beside / "slow-now").touch()
    child = room.start(command, *arguments, env=room.slow_ghostscript("*tiffsep*-r300*"))
    room.wait_until((room.beside / "slow-begun").exists, f"{command} renders nothing", child)
    assert room.stop(child) == 143, room.complained()
    room.rests()
    assert not room.left_over() and not list(room.folder.rglob("page-*")), list(room.folder.rglob("*"))


def test_plates_are_stopped(room: Room) -> None:
    """press/plates leaves no folder."""
    stopped(room, "plates", "--dpi", "300", str(LABEL), "out")
    assert not (room / "out").exists()


def test_all_is_stopped(room: Room, built: None) -> None:
    """press/all stops its pages."""
    stopped(room, "all", "--quiet", "--dpi", "300", str(LABEL), "out")


@needs("parallel", "mutool")
def test_farm_is_stopped(room: Room, built: None) -> None:
    """press/farm stops GNU parallel and the pages."""
    stopped(room, "farm", "--quiet", "--lenient", "--dpi", "300", str(LABEL), "out")


@needs("parallel")
def test_parallel_that_does_not_listen(room: Room, built: None) -> None:
    """press/farm sends its signal again to a parallel that ignored it."""
    room.sample("two.pdf")
    begun = room.beside / "begun"
    room.script("parallel", DEAF.format(begun=begun))
    child = room.start("farm", "--quiet", "--lenient", "two.pdf", "out", env=room.stand_ins())
    room.wait_until(begun.exists, "parallel is not begun", child)
    assert room.stop(child) == 143, room.complained()
    room.rests()


@pytest.mark.parametrize("command", ["plates", "preflight"])
def test_time_that_runs_out(room: Room, command: str) -> None:
    """A Ghostscript that takes too long is stopped with its page."""
    room.sample("two.pdf")
    (room.beside / "slow-now").touch()
    done = room.run(command, "--time", "3", "two.pdf", *(["out"] if command == "plates" else []), env=room.slow_ghostscript())
    assert done.status == 5 and "Ghostscript is at it for more than 3 s (--time)" in done.out + done.err, done
    room.rests()
