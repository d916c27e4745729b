# SPDX-License-Identifier: Apache-2.0
"""Processes beside a page's own: one budget of processors, parts of work in order, faults, and processes that are lost."""
import contextlib
import functools
import os
import signal
import time
from collections.abc import Iterator
from pathlib import Path

import pytest
from press import crew
from press.errors import PressError, Status
from press.runs import run
from press.settings import Settings
from room import Room

pytestmark = pytest.mark.quick


@contextlib.contextmanager
def crew_of(free: int) -> Iterator[crew.Crew]:
    """A crew with so many processors beside its own."""
    with contextlib.closing(crew.Budget(free)) as budget, crew.Crew(budget) as made:
        yield made


def left(made: crew.Crew) -> int:
    """How many processors are free; none after that."""
    return made.budget.take(1000) if made.budget else 0


def square(number: int) -> tuple[int, int]:
    """A part of the work, and the process that did it."""
    time.sleep(0.02)
    return number ** 2, os.getpid()


@pytest.mark.parametrize("free", [0, 1, 3])
def test_parts_are_done_once_and_in_order(free: int) -> None:
    """Each part is done, by no more processes than there are processors, which are free again at the end."""
    with crew_of(free) as made:
        found = made.each([functools.partial(square, number) for number in range(20)])
        assert [number for number, _ in found] == [number ** 2 for number in range(20)]
        assert len({process for _, process in found}) == 1 + free and left(made) == free


def test_without_a_budget() -> None:
    """A crew without a budget does all by itself."""
    assert {process for _, process in crew.ALONE.each([functools.partial(square, 1)] * 3)} == {os.getpid()}
    later = crew.ALONE.beside(functools.partial(square, 3))
    assert not later.is_started and later.result() == (9, os.getpid())


def test_beside() -> None:
    """A part is done beside what follows while a processor is free, and when it is asked for otherwise."""
    with crew_of(1) as made:
        first, second = (made.beside(functools.partial(square, number)) for number in (4, 5))
        assert first.is_started and not second.is_started and left(made) == 0
        assert first.result()[0] == 16 and second.result() == (25, os.getpid())
        assert left(made) == 1


def fail(fault: Exception) -> None:
    """A part that fails."""
    raise fault


@pytest.mark.parametrize("fault", [PressError(Status.PDF, "no page", "a.pdf"), OSError(28, "No space left on device", "x.tif"),
                                   MemoryError()])
@pytest.mark.parametrize("free", [0, 2])
def test_faults(fault: Exception, free: int) -> None:
    """A fault of another process is raised as it is, and no processor is lost."""
    with crew_of(free) as made:
        with pytest.raises(type(fault)) as caught:
            made.each([functools.partial(fail, fault)] * 3)
        assert str(caught.value) == str(fault) and left(made) == free


def test_a_process_that_is_killed() -> None:
    """A process that ends without a word is a refusal that says so."""
    with crew_of(1) as made:
        later = made.beside(lambda: os.kill(os.getpid(), signal.SIGKILL))
        with pytest.raises(PressError, match="was ended by SIGKILL: was there not enough memory"):
            later.result()
        assert left(made) == 1


def test_the_end_stops_what_is_at_work() -> None:
    """What is still at work when the page ends is stopped."""
    with contextlib.closing(crew.Budget(1)) as budget:
        start = time.monotonic()
        with crew.Crew(budget) as made:
            assert made.beside(lambda: time.sleep(60)).is_started
        assert time.monotonic() - start < 30 and budget.take(9) == 1


def test_threads() -> None:
    """A program gets the page's own processor and those that are free, and no more than it can use."""
    with crew_of(2) as made:
        with made.threads(2) as two, made.threads(4) as three, made.threads(4) as one:
            assert (two, three, one) == (2, 2, 1)
        assert left(made) == 2
    with crew.ALONE.threads(4) as threads:
        assert threads == 1


def test_shares(monkeypatch: pytest.MonkeyPatch) -> None:
    """Runs that are at work at once share the processors of the machine."""
    monkeypatch.setattr(crew, "processors", lambda: 8)
    assert [crew.share_of(text) for text in ("1", "3", "8", "20", "100%", "")] == [8, 2, 1, 1, 1, 1]


@pytest.mark.usefixtures("built")
def test_results_do_not_depend_on_processors(room: Room, monkeypatch: pytest.MonkeyPatch) -> None:
    """A page that several processes work on has the bytes of one that a single process made."""
    monkeypatch.setenv("TRAP_BIN", str(room.programs))
    room.sample("two.pdf")
    made = {}
    for count in (1, 4):
        monkeypatch.setattr(crew, "processors", lambda count=count: count)
        out: Path = room / f"out{count}"
        run(str(room / "two.pdf"), str(out), Settings(dpi=200), [1])
        made[count] = {str(path.relative_to(out)): path.read_bytes() for path in sorted(out.rglob("*"))
                       if path.is_file() and path.name != "job.json"}
    assert made[1] == made[4] and len(made[1]) > 10
