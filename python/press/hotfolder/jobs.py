# SPDX-License-Identifier: Apache-2.0
"""A claimed file at work: the whole way of a run in a process of its own, and the command that runs afterwards."""
import contextlib
import datetime
import os
import re
import subprocess
import time
from collections.abc import Callable
from multiprocessing.connection import Connection
from multiprocessing.process import BaseProcess

from .. import tools
from ..crew import lost_line
from ..errors import PressError, reason
from ..events import Event, RunDone
from ..files import write_text
from ..job_record import RECORD, changing_record, read_record
from ..names import clean
from ..printing import RunLines, end_line
from ..runs import RunResult, run
from .arrivals import fault_in, fault_of
from .claims import WHY, Claim, Signature, signature

OUT, TOLD, FAILED, PAGES = "out", "told.txt", "failed", "pages"
# What the record of a job says of the hot folder that it came through.
PART = "watch"
# How a refusal ends that only a warning calls for, and how in a hot folder, to which nobody gave --strict.
STRICTLY, LENIENTLY = r" \(--strict\)$", " (a warning, and --lenient is not given)"
# How long a command may run, in seconds.
COMMAND_SECONDS = 600
STOPPED = {code for number in tools.STOPS for code in (-number, 128 + number)}


def time_text(seconds: float) -> str:
    """A time as a record has it, from seconds since 1970."""
    return datetime.datetime.fromtimestamp(seconds).astimezone().isoformat(timespec="seconds")


def write_report(claim: Claim, made: str, state: str, why: str) -> None:
    """Adds the part "watch" to the record of what was made of a file. That of a file that failed is beside its
    pages."""
    with changing_record(made) as record:
        record.update(read_record(os.path.join(made, PAGES)))
        record[PART] = {"state": state, "folder": claim.hot.path, "name": claim.name, "claimed": time_text(claim.since),
                        "ended": time_text(datetime.datetime.now().timestamp()), "why": why.splitlines()}


def why_of(result: RunResult) -> str:
    """Why a run did not end well: a line for each page that failed; empty if it did."""
    failed = [end_line(result.pages[page]) for page in result.failed]
    return "\n".join(failed + ([f"no trapped PDF: {result.no_pdf}"] if result.no_pdf else []))


def run_file(job: Claim, attempt: str, end: Connection, parent: int) -> None:
    """Runs the file of a claim, keeps what is printed, and sends the events, and at last why it failed, or nothing."""
    tools.begin_process(parent)
    out, told = os.path.join(attempt, OUT), os.path.join(attempt, TOLD)

    def short(line: str) -> str:
        """A line without the folders of this attempt."""
        return line.replace(f"{out}/", "").replace(job.place("in") + "/", "")

    with open(told, "w", encoding="utf-8", errors="surrogateescape") as file:
        lines = RunLines(job.file, True, lambda line: print(short(line), file=file, flush=True))

        def observe(event: Event) -> None:
            lines(event)
            if not isinstance(event, RunDone):
                end.send(event)

        try:
            why = why_of(run(job.file, out, job.hot.settings, observer=observe))
        except PressError as refusal:
            why = clean(f"press-all: {refusal}")
            print(short(why), file=file)
        except OSError as fault:
            why = clean(f"press-all: {os.fsdecode(fault.filename or 'write')}: {reason(fault)}")
        end.send(re.sub(STRICTLY, LENIENTLY, short(why), flags=re.MULTILINE))


class Job:
    """A claimed file at work. `tell` takes what happens in the run."""

    def __init__(self, claim: Claim, tell: Callable[[Event], None]) -> None:
        self.claim, self.tell = claim, tell
        self.fault = fault_of(claim.file) or fault_in(claim.file)
        self.sign: Signature = signature(claim.file)
        self.attempt = claim.begin()
        self.why: str | None = self.fault
        self.connection: Connection | None = None
        self.process: BaseProcess | None = None

    def start(self) -> None:
        """Starts the run."""
        with tools.signals_wait():
            self.connection, self.process = tools.forked(run_file, self.claim, self.attempt)

    def hear(self) -> bool:
        """Hears what the run sends. Answers whether it has ended."""
        assert self.connection is not None and self.process is not None
        try:
            while self.connection.poll():
                heard: Event | str = self.connection.recv()
                if isinstance(heard, str):
                    self.why = heard
                else:
                    self.tell(heard)
        except EOFError:
            self.process.join()
            return True
        return False

    def void(self) -> str | None:
        """Why the file has to be made again: it was changed meanwhile, or somebody stopped its process; or None."""
        if self.process is None:
            return None
        if self.why is None and self.process.exitcode in STOPPED:
            return "stopped"
        return "changed" if signature(self.claim.file) != self.sign else None

    def decide(self) -> None:
        """Decides on a file that is not to be made again."""
        out, told = os.path.join(self.attempt, OUT), os.path.join(self.attempt, TOLD)
        code = self.process.exitcode if self.process else None
        why = self.why if self.why is not None else f"press-all: {lost_line(code, 'file')}"
        made = os.path.join(self.attempt, FAILED) if why else out
        if why:
            os.mkdir(made)
            if os.path.isdir(out):
                os.rename(out, os.path.join(made, PAGES))
            write_text(os.path.join(made, WHY), why + "\n", "surrogateescape")
        elif os.path.getsize(told):
            os.rename(told, os.path.join(made, TOLD))
        state = "failed" if why else "done"
        write_report(self.claim, made, state, why)
        self.claim.decide(made, state)

    def stop(self) -> None:
        """Stops the run, and waits until it has ended."""
        if self.process is not None and self.process.pid is not None:
            self.process.terminate()
            self.process.join()


class Afterwards:
    """The command that runs after a file was filed. It gets the path of the report as its last argument, and the
    state, the name and the folder of the file in its environment."""

    def __init__(self, claim: Claim, state: str, place: str) -> None:
        self.claim, self.end = claim, time.monotonic() + COMMAND_SECONDS
        self.exit = contextlib.ExitStack()
        environment = {**os.environ, "PRESS_STATE": state, "PRESS_NAME": claim.name, "PRESS_FOLDER": place}
        words = [*claim.hot.command, os.path.join(place, RECORD)]
        self.child = self.exit.enter_context(tools.running(
            words, env=environment, stdout=subprocess.DEVNULL, stderr=subprocess.DEVNULL))

    def ended(self) -> str | None:
        """How it ended, empty if well; None if it has not ended."""
        if self.child.poll() is None and time.monotonic() < self.end:
            return None
        code = self.child.poll()
        self.exit.close()
        if code is None:
            return f"stopped after {COMMAND_SECONDS} s"
        return f"ended with status {code}" if code else ""
