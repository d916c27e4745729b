# SPDX-License-Identifier: Apache-2.0
"""Many pages at once by GNU parallel, on this machine or on several: each page is a run of press/all."""
import contextlib
import os
import selectors
import shlex
import subprocess
import tempfile
import time
from collections.abc import Iterator, Mapping, Sequence
from dataclasses import dataclass, replace

from . import crew, engine, farm_hosts, farm_record, identity, preflight, tools
from .errors import PressError, Status
from .farm_log import LOG, amend_log, logged, logged_done, missing, why_lost
from .farm_slots import free_memory, page_line, slots
from .files import LOCK, head_of, locked, scratch_folder, size_text, sweep, temporary_name
from .findings import WARNING, refuse
from .folder import JobFolder
from .inks import open_book
from .job_record import changing_record
from .names import MOST_PLATES, PROCESS
from .pdf_beside import write_for
from .printing import FarmLines, end_line
from .proof import write_sheet_of_all
from .recorded import words_from
from .runs import HELD, Opened
from .settings import Settings
from .source import Source, open_source

USUAL_SECONDS = 600
# How long a page that another machine has done may take to be seen here: so long a network's disk may keep an old list.
LATE_SECONDS = 60
# What of the environment a page has on another machine too. The shell is one that is everywhere: without one,
# parallel takes the one that a variable there names, and does nothing if there is no such variable.
FOR_PAGES, PAGE_SHELL = ("TRAP_BIN", HELD, "PRESS_HOUSE", crew.AT_ONCE), "/bin/sh"
# What a page takes beside the table: Ghostscript, and Python over the plates.
OWN_BYTES = 300_000_000
HEAR_SECONDS = 0.5


@dataclass(frozen=True)
class Farm:
    """What a farm is to do: the file and the folder OUT, the settings of its pages and the same as options of
    press/all; the pages, or none for all; how many at once, on which machines, and whether the last run here is
    gone on with."""

    path: str
    out: str
    settings: Settings
    words: tuple[str, ...]
    pages: tuple[int, ...] = ()
    jobs: int | None = None
    hosts: str | None = None
    again: bool = False


def page_memory(source: Source, settings: Settings, pages: Sequence[int]) -> int:
    """The bytes of memory that the largest page takes, each of its inks having a plate."""
    needs = [preflight.trapping_memory(settings, *info.samples(settings.box, settings.dpi),
                                       min(MOST_PLATES, len(PROCESS) + len(info.spots)))
             for info in map(source.page, pages) if info]
    return max(needs, default=0) + OWN_BYTES


@dataclass(frozen=True)
class Plan:
    """The file, the pages to make, and the bytes of memory that the largest takes."""

    source: Source
    pages: list[int]
    need: int


def look(farm: Farm, progress: FarmLines, scratch: str) -> Plan:
    """Checks the whole file, which is open in a scratch folder, before any page is rendered."""
    source = open_source(farm.path, scratch, farm.settings.time)
    pages = list(farm.pages) or list(range(1, source.count + 1))
    found = preflight.check_file(source, farm.settings, open_book(farm.settings, farm.path), pages)
    of_file = [one for one in found if one.page is None]
    for one in of_file:
        if one.level == WARNING:
            progress.warn(f"{farm.path}: {one.text}")
    refuse(farm.path, of_file, farm.settings.strict)
    return Plan(source, pages, page_memory(source, farm.settings, pages))


def how_many(farm: Farm, need: int, pages: int, progress: FarmLines) -> str:
    """How many pages at once on a machine, as parallel's --jobs has it: of this one no more than there are, nor
    than there is memory for; another has its own number of processors."""
    if farm.hosts:
        return str(farm.jobs) if farm.jobs else "100%"
    free, most = free_memory(), farm.jobs or len(os.sched_getaffinity(0))
    fit = max(1, free // need) if free else most
    if farm.jobs and fit < farm.jobs:
        progress.warn(f"memory for {fit} pages at once, of {size_text(need)} each: --jobs {farm.jobs} is too many")
    return str(min(most, fit, max(1, pages)))


def follow(child: "subprocess.Popen[bytes]", progress: FarmLines) -> int:
    """Hands on what the pages print until all are done. Answers the status of parallel."""
    rest: dict[int, bytes] = {}
    with selectors.DefaultSelector() as selector:
        for stream, take in ((child.stdout, progress.page), (child.stderr, progress.work)):
            assert stream is not None
            selector.register(stream, selectors.EVENT_READ, take)
        while selector.get_map():
            for key, _ in selector.select(HEAR_SECONDS):
                data = os.read(key.fd, 65_536)
                *lines, rest[key.fd] = (rest.get(key.fd, b"") + data).split(b"\n")
                for line in lines if data else [*lines, rest[key.fd]]:
                    # A line that ssh prints ends with a carriage return too.
                    if line.rstrip(b"\r"):
                        key.data(line.rstrip(b"\r").decode("utf-8", "surrogateescape"))
                if not data:
                    selector.unregister(key.fileobj)
            progress.draw()
    progress.erase()
    return child.wait()


def parallel_words(farm: Farm, jobs: str) -> list[str]:
    """GNU parallel's arguments; what the user has set for it elsewhere is kept out."""
    words = [tools.tool("parallel"), "--plain", "--null", "--line-buffer", "--termseq", "TERM,60000,KILL,25",
             "--joblog", os.path.join(farm.out, LOG), "--jobs", jobs]
    for name in FOR_PAGES:
        words += ["--env", name]
    words += ["--sshlogin", farm.hosts] if farm.hosts else []
    return words + ["--resume-failed"] * farm.again


def page_commands(farm: Farm, pages: Sequence[int], is_json: bool, scratch: str) -> Iterator[str]:
    """What is done for each page, for a shell and in this folder; nothing in it is parallel's to fill in,
    whatever a file is called. The process that makes pages on this machine listens in the scratch folder."""
    own = ["--strict"] * farm.settings.strict + ["--json"] * is_json
    for page in pages:
        words = [os.path.join(tools.PRESS, "all"), f"--page={page}", f"--time={farm.settings.time}", *own,
                 *farm.words, "--", farm.path, farm.out]
        yield f"cd {shlex.quote(os.getcwd())} || exit; {page_line(scratch, words)}"


def go_on(farm: Farm) -> Farm:
    """The farm with the options and pages of the last run here."""
    options, pages = farm_record.recorded(farm.path, farm.out)
    farm_record.need_no_other(farm.settings, farm.words, farm.pages, farm.out, options, pages)
    settings = farm_record.settings_of_last(farm.settings, options, farm.out, USUAL_SECONDS)
    words = words_from({name: value for name, value in options.items() if name not in ("strict", "time")}, farm.out)
    return replace(farm, settings=settings, words=tuple(words), pages=pages)


def lost_pages(farm: Farm, pages: Sequence[int], todo: Sequence[int], progress: FarmLines) -> dict[int, str]:
    """The pages that were to be done, are not, and of which no line says why; each with that. That parallel
    calls a page done is not enough: its part on another machine ends well if it could begin nothing there."""
    done = logged_done(farm.out, pages) & progress.ended - progress.failed
    for _ in range(LATE_SECONDS):
        if not missing(farm.out, done):
            break
        time.sleep(1)
    done -= missing(farm.out, done)
    log = {pages[at - 1]: (machine, status, signal) for at, machine, status, signal in logged(farm.out)
           if at <= len(pages)}
    return {page: why_lost(farm.out, page in progress.ended, *log.get(page, ("", "", "")))
            for page in todo if page not in done and page not in progress.failed}


def begin_log(farm: Farm, pages: list[int]) -> list[int]:
    """Begins the log of a new run. One that is gone on with may have been cut by a full disk, and pages that it
    calls done may be gone. Answers the pages to do."""
    if farm.again:
        amend_log(farm.out, pages, missing(farm.out, pages))
        done = logged_done(farm.out, pages)
        return [page for page in pages if page not in done]
    with contextlib.suppress(FileNotFoundError):
        os.remove(os.path.join(farm.out, LOG))
    return pages


def environment_of(out: str, jobs: str = "") -> dict[str, str]:
    """The environment of parallel, which makes so many pages at once on a machine."""
    usual = {"HOME": os.path.expanduser("~"), "TRAP_BIN": "", "PRESS_HOUSE": ""}
    return {**usual, **os.environ, HELD: os.path.realpath(out), crew.AT_ONCE: jobs, "PARALLEL_SHELL": PAGE_SHELL}


def hand_out(words: Sequence[str], commands: Iterator[str], environment: Mapping[str, str], progress: FarmLines) -> int:
    """Runs parallel over the pages. Answers its status."""
    with tempfile.TemporaryFile() as file:
        file.write(b"".join(os.fsencode(command) + b"\0" for command in commands))
        file.seek(0)
        with tools.running(words, stdin=file, env=environment) as child:
            return follow(child, progress)


def with_hosts(farm: Farm, progress: FarmLines) -> Farm:
    """The same farm with those machines alone that can work. A warning names each other one."""
    if not farm.hosts:
        return farm
    logins = list(dict.fromkeys(login for login in map(str.strip, farm.hosts.split(",")) if login))
    with tempfile.NamedTemporaryFile(prefix=temporary_name(), dir=farm.out) as token:
        script = farm_hosts.probe_script(farm.path, farm.out, os.path.join(farm.out, os.path.basename(token.name)))
        others = [login for login in logins if login != farm_hosts.LOCAL]
        faults = farm_hosts.probe(others, script, FOR_PAGES, environment_of(farm.out))
    for login, why in faults.items():
        progress.drop(login, why)
    left = [login for login in logins if login not in faults]
    if not left:
        raise PressError(Status.NO_TOOL, "none of its machines can work", ", ".join(logins))
    return replace(farm, hosts=",".join(left))


def run_farm(farm: Farm, progress: FarmLines) -> Status:
    """Does the pages of a file, several at once."""
    head_of(farm.path)
    farm = go_on(farm) if farm.again else farm
    engine.trapping_program(farm.settings)
    with scratch_folder() as scratch:
        given, plan = identity.take(farm.path), look(farm, progress, scratch)
        tools.tool("parallel")
        return run_plan(farm, given, plan, progress)


def run_plan(farm: Farm, given: identity.Input, plan: Plan, progress: FarmLines) -> Status:
    """Does the pages that are planned."""
    job = JobFolder(farm.out)
    job.make()
    with locked(os.path.join(farm.out, LOCK), farm.out, "press-farm"):
        sweep(farm.out)
        farm = with_hosts(farm, progress)
        if not farm.again:
            identity.claim(job, given.file, plan.source.count, farm.settings, farm.pages)
            with changing_record(farm.out) as record:
                record[farm_record.PART] = {"pages": list(farm.pages)}
        progress.begin(plan.pages, plan.source.count, plan.source.converted)
        has_failed = make_pages(farm, given, plan, progress)
        line = given.changed_line()
        if line:
            for failed in identity.fail_mixed(job, sorted(set(plan.pages) - missing(farm.out, plan.pages)), line):
                progress.page(end_line(failed))
        identity.gather(job)
        has_pdf = not farm.settings.pdf or write_pdf(farm, progress)
        if farm.settings.proof:
            with contextlib.suppress(PressError):
                write_sheet_of_all(farm.out, ())
    progress.end()
    return Status.PAGES_FAILED if has_failed or line or not has_pdf else Status.DONE


def make_pages(farm: Farm, given: identity.Input, plan: Plan, progress: FarmLines) -> bool:
    """Makes the pages that are left to do. Answers whether some failed."""
    todo = begin_log(farm, plan.pages)
    progress.total = len(todo)
    jobs, scratch = how_many(farm, plan.need, len(todo), progress), plan.source.folder
    words, environment = parallel_words(farm, jobs), environment_of(farm.out, jobs)
    opened = Opened(given, plan.source, farm.settings, open_book(farm.settings, farm.path))
    with slots(opened, environment, plan.need // 2):
        status = hand_out(words, page_commands(farm, plan.pages, progress.is_json, scratch), environment, progress)
    lost = lost_pages(farm, plan.pages, todo, progress)
    line = given.changed_line() if lost else None
    for page, why in lost.items():
        progress.page(f"page {page}: failed: " + (f"press-all: {line}" if line else f"{why} (--again does the page)"))
    if lost:
        amend_log(farm.out, plan.pages, lost)
    return bool(status or lost)


def write_pdf(farm: Farm, progress: FarmLines) -> bool:
    """The trapped PDF of all pages that are done. Answers whether there is one."""
    try:
        for line in write_for(farm.path, farm.out, farm.settings):
            progress.warn(f"{farm.path}: {line}")
        return True
    except PressError as refusal:
        progress.warn(f"no trapped PDF: {refusal}")
        return False
