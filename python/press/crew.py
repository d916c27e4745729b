# SPDX-License-Identifier: Apache-2.0
"""Processes beside a page's own, which do parts of its work. All pages of a run have one budget of processors: what no
processor is free for, the page's own process does."""
from __future__ import annotations

import contextlib
import os
import signal
from collections.abc import Callable, Iterator, Sequence
from multiprocessing.connection import Connection
from multiprocessing.process import BaseProcess
from typing import Any, Generic, TypeVar

from . import tools
from .errors import PressError, Status

T = TypeVar("T")
# How many pages are made at once on a machine, as press/farm says it to their runs.
AT_ONCE = "PRESS_AT_ONCE"
NUMBER_BYTES = 4


def processors() -> int:
    """The processors that this process may use."""
    return len(os.sched_getaffinity(0))


def share_of(at_once: str) -> int:
    """The processors of one of the runs that are at work at once on this machine, so many or "100%", one for each."""
    return max(1, processors() // int(at_once)) if at_once.isdigit() and int(at_once) else 1


class Budget:
    """The processors of a run that no page holds, so many at first. The processes of all pages take from the same
    number, which is kept as bytes in a pipe."""

    def __init__(self, free: int) -> None:
        self.left, self.given = os.pipe()
        os.set_blocking(self.left, False)
        self.give(max(0, free))

    def take(self, most: int) -> int:
        """Takes processors, no more than so many. Answers how many were free."""
        try:
            return len(os.read(self.left, most)) if most > 0 else 0
        except BlockingIOError:
            return 0

    def give(self, count: int) -> None:
        """Gives processors back."""
        if count:
            os.write(self.given, b"." * count)

    def close(self) -> None:
        """Ends the budget."""
        os.close(self.left)
        os.close(self.given)


def lost_line(code: int | None, whose: str = "page") -> str:
    """Why the process of a page, or of what `whose` names, ended without a word."""
    if code is not None and code < 0:
        short = ": was there not enough memory?" if -code == signal.SIGKILL else ""
        return f"the {whose}'s process was ended by {signal.Signals(-code).name}{short}"
    return f"the {whose}'s process ended with {code}"


def do_beside(work: Callable[[], Any], end: Connection, parent: int) -> None:
    """Does a part of a page's work in a process of its own, and sends what came of it."""
    tools.begin_process(parent)
    try:
        end.send((True, work()))
    except Exception as fault:  # pylint: disable=broad-exception-caught
        end.send((False, fault))


class Later(Generic[T]):
    """A part of the work: another process does it, or, if none does, the one that asks for it."""

    def __init__(self, work: Callable[[], T], budget: Budget | None = None) -> None:
        self.work, self.budget = work, budget
        self.process: BaseProcess | None = None
        self.end: Connection | None = None

    def start(self) -> None:
        """Starts a process for it, with the one processor that it was given of the budget."""
        with tools.signals_wait():
            self.end, self.process = tools.forked(do_beside, self.work)

    @property
    def is_started(self) -> bool:
        """Whether another process does it."""
        return self.process is not None

    def result(self) -> T:
        """What came of it. A fault of the other process is raised here."""
        if self.process is None or self.end is None:
            return self.work()
        try:
            is_done, found = self.end.recv()
        except EOFError as fault:
            self.process.join()
            raise PressError(Status.OUTPUT, lost_line(self.process.exitcode)) from fault
        finally:
            self.stop()
        if not is_done:
            raise found
        answer: T = found
        return answer

    def stop(self) -> None:
        """Ends the process, if it is still at work, and gives its processor back."""
        budget, self.budget = self.budget, None
        if self.process and self.end:
            process, self.process = self.process, None
            self.end.close()
            process.terminate()
            process.join()
        if budget:
            budget.give(1)


class Crew:
    """The processes of one page, by the budget of its run; without one the page's own process does all."""

    def __init__(self, budget: Budget | None = None) -> None:
        self.budget = budget
        self.started: list[Later[Any]] = []

    def beside(self, work: Callable[[], T]) -> Later[T]:
        """Has a part of the work done beside what follows, if a processor is free."""
        if not self.budget or not self.budget.take(1):
            return Later(work)
        one = Later(work, self.budget)
        self.started.append(one)
        one.start()
        return one

    def each(self, works: Sequence[Callable[[], T]]) -> list[T]:
        """Does parts of the work by as many processes as are free, this one among them, each part by the next one that
        has nothing to do. Answers what came of them, in their order."""
        others = self.budget.take(len(works) - 1) if self.budget else 0
        if not others:
            return [work() for work in works]
        waiting, end = os.pipe()
        os.write(end, b"".join(at.to_bytes(NUMBER_BYTES, "little") for at in range(len(works))))
        os.close(end)

        def some() -> dict[int, T]:
            found = {}
            while number := os.read(waiting, NUMBER_BYTES):
                at = int.from_bytes(number, "little")
                found[at] = works[at]()
            return found
        helpers = [Later(some, self.budget) for _ in range(others)]
        try:
            for one in helpers:
                one.start()
            done = some()
            for one in helpers:
                done.update(one.result())
        finally:
            os.close(waiting)
            for one in helpers:
                one.stop()
        return [done[at] for at in range(len(works))]

    @contextlib.contextmanager
    def threads(self, most: int) -> Iterator[int]:
        """How many threads a program may have while the block runs: this page's processor and those that are free."""
        others = self.budget.take(most - 1) if self.budget else 0
        try:
            yield 1 + others
        finally:
            if self.budget:
                self.budget.give(others)

    def __enter__(self) -> Crew:
        return self

    def __exit__(self, *_: object) -> None:
        """Ends what is still at work."""
        for one in self.started:
            one.stop()


ALONE = Crew()
