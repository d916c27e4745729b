# SPDX-License-Identifier: Apache-2.0
"""Watches hot folders: claims what is ready, has it made, and files it."""
import contextlib
import multiprocessing.connection
import os
import time
from collections.abc import Callable, Sequence
from typing import Any

from .. import engine, tools
from ..errors import PressError, Status, reason
from ..files import LOCK, is_full, locked, need_folder, refusing, sweep
from ..folder import read_text
from .arrivals import Arrivals, is_written
from .claims import CLAIMED, FILED, STATES, WHY, Claim, claim, claimed_name, claims
from .config import HotFolder
from .jobs import Afterwards, Job
from .journal import Journal

# How often folders are looked at, and after what time what the system refused is tried again, in seconds.
TICK, AGAIN = 0.25, 30
LOCK_SECONDS = 10


class Station:
    """A hot folder with its files: those that were claimed and wait for a process, those at work, and those whose
    command runs."""

    def __init__(self, hot: HotFolder, journal: Journal) -> None:
        self.hot, self.journal = hot, journal
        self.arrivals = Arrivals(hot)
        self.waiting: list[Claim] = []
        self.jobs: list[Job] = []
        self.commands: list[Afterwards] = []
        self.later: list[tuple[float, Claim]] = []
        # Files that cannot be moved, and when each is tried again.
        self.stuck: dict[str, float] = {}
        self.is_lost = False

    def say(self, event: str, name: str | None = None, **more: Any) -> None:
        """A line of the log."""
        self.journal(event, self.hot.path, name, **more)

    # Claims

    def resume(self) -> None:
        """Goes on with what the last watch has left."""
        sweep(self.hot.path)
        for one in claims(self.hot):
            if not one.name:
                one.close()
            elif one.state in (*STATES, FILED):
                self.attempt(self.finish, one)
            else:
                one.give_up()
                self.say("taken", one.name, again=True, id=os.path.basename(one.path))
                self.waiting.append(one)

    def take(self) -> None:
        """Claims files while there are free places, and starts those that were claimed."""
        room = self.hot.files - len(self.jobs) - len(self.commands)
        free = room - len(self.waiting) - len(self.later)
        if free > 0:
            for ready in self.arrivals.ready():
                one = self.claim(ready.name)
                if one:
                    self.say("taken", one.name, again=False, id=os.path.basename(one.path))
                    self.waiting.append(one)
                    free -= 1
                if free <= 0:
                    break
        for one in [self.waiting.pop(0) for _ in range(min(room, len(self.waiting)))]:
            self.attempt(self.begin, one)

    def claim(self, name: str) -> Claim | None:
        """Claims a file, if it can be moved. One that cannot is tried again later, and holds up no other."""
        if self.stuck.get(name, 0) > time.monotonic():
            return None
        try:
            return claim(self.hot, name)
        except OSError as fault:
            if is_full(fault):
                raise
            self.stuck[name] = self.refused(name, fault)
            return None

    def begin(self, one: Claim) -> None:
        """Starts a file that was claimed, unless its writer still has it open."""
        if os.path.isfile(one.file) and not os.path.islink(one.file) and is_written(one.file):
            self.later.append((time.monotonic() + TICK, one))
            return
        job = Job(one, lambda event: self.journal.run_event(event, self.hot.path, one.name))
        if job.fault is not None:
            self.end(job)
            return
        job.start()
        self.jobs.append(job)

    def end(self, job: Job) -> None:
        """Files a file whose run has ended, or has it made again."""
        one = job.claim
        if void := job.void():
            one.give_up()
            self.say(void, one.name)
            self.later.append((time.monotonic() + max(TICK, self.hot.settle), one))
            return
        job.decide()
        self.finish(one)

    def finish(self, one: Claim) -> None:
        """Files what was decided, and runs the command."""
        with tools.signals_wait():
            if one.state != FILED:
                one.file_away()
            state, place = one.filed()
            why = read_text(place, WHY).strip()
            self.say(state, one.name, place=place, **({"why": why} if state == "failed" else {}))
            if not self.hot.command:
                one.close()
                return
        try:
            self.commands.append(Afterwards(one, state, place))
        except OSError as fault:
            self.after(one, f"{self.hot.command[0]}: {reason(fault)}")

    def after(self, one: Claim, ended: str) -> None:
        """The command of a file has ended."""
        if ended:
            self.say("command", one.name, text=f"command: {ended}")
        one.close()

    def attempt(self, step: Callable[[Claim], None], one: Claim) -> None:
        """A step of a claim. If the system refuses it, as with a full disk, it is tried again later."""
        try:
            step(one)
        except (OSError, PressError) as fault:
            self.later.append((self.refused(one.name, fault), one))

    def refused(self, name: str, fault: OSError | PressError) -> float:
        """Says what the system refused, and answers when it is tried again."""
        named = getattr(fault, "filename", None)
        place = f"{os.fsdecode(named)}: " if isinstance(named, (str, bytes)) else ""
        self.say("refused", name, text=f"{place}{reason(fault)}: tried again in {AGAIN} s")
        return time.monotonic() + AGAIN

    # One turn

    def turn(self) -> None:
        """Hears all runs and commands, and takes what is ready."""
        for job in list(self.jobs):
            if job.hear():
                self.jobs.remove(job)
                self.attempt(lambda _, job=job: self.end(job), job.claim)  # type: ignore[misc]
        for command in list(self.commands):
            ended = command.ended()
            if ended is not None:
                self.commands.remove(command)
                self.after(command.claim, ended)
        now = time.monotonic()
        for due, one in list(self.later):
            if due <= now:
                self.later.remove((due, one))
                self.again(one)
        try:
            self.take()
            self.is_lost = False
        except (OSError, PressError) as fault:
            if not self.is_lost:
                self.say("lost", text=f"{reason(fault)}: no file is taken until this is over")
            self.is_lost = True

    def again(self, one: Claim) -> None:
        """Goes on with a file after a while."""
        if not claimed_name(one.path):
            self.say("gone", one.name, text="it was taken away after it was claimed")
            one.close()
        elif one.state in (*STATES, FILED):
            self.attempt(self.finish, one)
        else:
            one.give_up()
            self.waiting.append(one)

    def stop(self) -> None:
        """Stops all runs and commands. Their files stay claimed."""
        for job in self.jobs:
            job.stop()
        for command in self.commands:
            command.exit.close()


def run_watch(folders: Sequence[HotFolder], journal: Journal, is_ready: Callable[[HotFolder], None]) -> None:
    """Watches hot folders until this is stopped, by SystemExit."""
    # Without these every file would fail.
    tools.tool("gs")
    for hot in folders:
        engine.trapping_program(hot.settings)
    with contextlib.ExitStack() as stack:
        stations = []
        for hot in folders:
            prepare(hot, stack)
            stations.append(Station(hot, journal))
            stack.callback(stations[-1].stop)
        for one in stations:
            one.resume()
            is_ready(one.hot)
        while True:
            for one in stations:
                one.turn()
            multiprocessing.connection.wait([job.connection for one in stations for job in one.jobs if job.connection],
                                            TICK)


def prepare(hot: HotFolder, stack: contextlib.ExitStack) -> None:
    """Makes the folders of a hot folder, and locks it. Refuses folders that a file could not be renamed into."""
    if not os.path.lexists(hot.path):
        raise PressError(Status.INPUT, "No such directory", hot.path)
    need_folder(hot.path)
    for place in (hot.done, hot.failed, os.path.join(hot.path, CLAIMED)):
        with refusing(place, Status.OUTPUT):
            os.makedirs(place, exist_ok=True)
        if os.stat(place).st_dev != os.stat(hot.path).st_dev:
            raise PressError(Status.OUTPUT, f"on another file system than {hot.path}: no file can be renamed into it",
                             place)
    # Processes of a watch that was killed hold its lock until they have ended too.
    stack.enter_context(locked(os.path.join(hot.path, LOCK), hot.path, "press-watch", seconds=LOCK_SECONDS))
