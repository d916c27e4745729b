# SPDX-License-Identifier: Apache-2.0
"""External programs: where they are found, and how they are run, limited and stopped."""
import contextlib
import ctypes
import functools
import logging
import multiprocessing
import os
import resource
import shutil
import signal
import subprocess
from collections.abc import Callable, Iterator, Mapping, Sequence
from multiprocessing.connection import Connection
from multiprocessing.process import BaseProcess
from typing import Any

from .errors import PressError, Status

LOG = logging.getLogger("press")
# The Debian package of a tool or of a Python module.
PACKAGES = {"gs": "ghostscript", "mutool": "mupdf-tools", "parallel": "parallel",
            "qpdf": "qpdf", "numpy": "python3-numpy", "PIL": "python3-pil", "pikepdf": "python3-pikepdf",
            "lxml": "python3-lxml", "tifffile": "python3-tifffile", "starlette": "python3-starlette",
            "uvicorn": "python3-uvicorn", "websockets": "python3-websockets"}
STOPS = (signal.SIGINT, signal.SIGTERM, signal.SIGHUP)
SET_PARENT_DEATH_SIGNAL = 1
STOP_AGAIN = 0.5
Started = Callable[["subprocess.Popen[bytes]"], None]
C_LIBRARY = ctypes.CDLL(None, use_errno=True)
# The repository, or the folder that the package is installed in: it holds the folders press and python.
TOP = os.path.dirname(os.path.dirname(os.path.dirname(os.path.realpath(__file__))))
PRESS = os.path.join(TOP, "press")
# Finds or builds the programs of a repository.
FINDER = os.path.join(TOP, "tools", "program")


def missing_module(name: str) -> PressError:
    """The refusal for a Python module that is not installed."""
    module = name.partition(".")[0]
    package = PACKAGES.get(module, module)
    return PressError(Status.NO_TOOL, f"Python's {module} is not there (Debian: apt install {package})")


def tool(name: str) -> str:
    """The path of a tool."""
    path = shutil.which(name)
    if path is None:
        raise PressError(Status.NO_TOOL, f"{name} is not there (Debian: apt install {PACKAGES[name]})")
    return path


# Running

def stop(child: "subprocess.Popen[bytes]") -> None:
    """Stops a tool and waits for its end. The signal is sent again and again: GNU parallel ignores it until its
    jobs have started."""
    for stream in (child.stdin, child.stdout, child.stderr):
        if stream:
            # A tool that writes to a full pipe would not end.
            stream.close()
    while child.poll() is None:
        child.terminate()
        with contextlib.suppress(subprocess.TimeoutExpired):
            child.wait(STOP_AGAIN)


def die_with(parent: int) -> None:
    """Asks the kernel to stop this process when its parent ends."""
    C_LIBRARY.prctl(SET_PARENT_DEATH_SIGNAL, signal.SIGTERM)
    # No signal comes if the parent has ended already.
    if os.getppid() != parent:
        os.kill(os.getpid(), signal.SIGKILL)


@contextlib.contextmanager
def signals_wait() -> Iterator[set[Any]]:
    """Signals that stop a command wait until the block is left: Python drops one that arrives while it forks. Gives the
    mask of before."""
    before = signal.pthread_sigmask(signal.SIG_BLOCK, STOPS)
    try:
        yield before
    finally:
        signal.pthread_sigmask(signal.SIG_SETMASK, before)


def begin_process(parent: int) -> None:
    """How a process begins that was forked while signals wait: it ends with its parent, and can be stopped."""
    die_with(parent)
    signal.pthread_sigmask(signal.SIG_UNBLOCK, STOPS)


def forked(work: Callable[..., None], *words: Any) -> tuple[Connection, BaseProcess]:
    """Forks a process for work(*words, end, parent), while signals wait. What it sends by `end` comes from the
    connection; `parent` is the number of this process."""
    context = multiprocessing.get_context("fork")
    ours, theirs = context.Pipe(duplex=False)
    process = context.Process(target=work, args=(*words, theirs, os.getpid()))
    process.start()
    theirs.close()
    return ours, process


def prepare(parent: int, before: set[Any], memory: int | None) -> None:
    """What a child does between fork and exec: it ends with its parent, and has its limit of address space in bytes."""
    die_with(parent)
    if memory:
        resource.setrlimit(resource.RLIMIT_AS, (memory, memory))
    signal.pthread_sigmask(signal.SIG_SETMASK, before)


@contextlib.contextmanager
def running(words: Sequence[str], *, memory: int | None = None, **how: Any) -> Iterator["subprocess.Popen[bytes]"]:
    """A tool that runs beside the block. It is stopped, and waited for, if the block is left before it has
    ended, and by the kernel if this process is killed. `memory` limits its address space, in bytes."""
    how = {"stdin": subprocess.DEVNULL, "stdout": subprocess.PIPE, "stderr": subprocess.PIPE, **how}
    child: "subprocess.Popen[bytes] | None" = None
    try:
        with signals_wait() as before:
            # pylint: disable-next=consider-using-with,subprocess-popen-preexec-fn
            child = subprocess.Popen(words, preexec_fn=functools.partial(prepare, os.getpid(), before, memory), **how)
        yield child
    finally:
        if child is not None:
            stop(child)


def run(words: Sequence[str], *, seconds: float | None = None, started: Started | None = None,
        **how: Any) -> "subprocess.CompletedProcess[bytes]":
    """Runs a tool and keeps what it prints. `started` gets its process. Raises TimeoutExpired after `seconds`."""
    with running(words, **how) as child:
        if started:
            started(child)
        printed, complained = child.communicate(timeout=seconds)
        return subprocess.CompletedProcess(list(words), child.returncode, printed, complained)


def last_line(done: "subprocess.CompletedProcess[bytes]") -> str:
    """The last line that a tool printed."""
    lines = ((done.stdout or b"") + (done.stderr or b"")).decode("utf-8", "replace").strip().splitlines()
    return lines[-1] if lines else f"status {done.returncode}"


# The trapping programs

def is_program(path: str) -> bool:
    """Whether a path is an executable file."""
    return os.path.isfile(path) and os.access(path, os.X_OK)


def program(name: str, build: bool = False) -> str:
    """The path of a trapping program: in the folder TRAP_BIN if that is set; else in the repository, if it is
    built or released there; else beside the installed commands; else on the PATH. What is not built is built only
    if `build` asks for that, since it takes long."""
    if where := os.environ.get("TRAP_BIN"):
        if is_program(os.path.join(where, name)):
            return os.path.abspath(os.path.join(where, name))
        raise PressError(Status.NO_TOOL, f"the program {name} is not there: no {os.path.join(where, name)}")
    in_repository = is_program(FINDER)
    found = in_repository and built_program(name, build)
    for place in (found, os.path.join(TOP, "programs", name), shutil.which(name)):
        if place and is_program(place):
            return place
    if not in_repository:
        raise PressError(Status.NO_TOOL, f"the program {name} is not there")
    built = os.path.join(TOP, "crates", name, "out", name)
    if is_program(built):
        LOG.warning("the program %s is older than its sources (bin/%s builds it)", name, name)
        return built
    raise PressError(Status.NO_TOOL, f"the program {name} is not built yet: {TOP}/bin/{name} does it, which takes "
                     f"some twenty minutes; or TRAP_BIN names the folder of one that is built")


@functools.lru_cache(maxsize=None)
def built_program(name: str, build: bool) -> str:
    """The program as it is built in the repository, or released for the same sources; empty if there is none."""
    done = run([FINDER, name] if build else [FINDER, "--there", name], stderr=None if build else subprocess.DEVNULL)
    if build and done.returncode != 0:
        raise PressError(Status.NO_TOOL, f"the program {name} could not be built")
    return done.stdout.decode().strip()


def library() -> str | None:
    """The path of libtrap.so.1: the file that TRAP_LIBRARY names; else the one beside the Python package that
    calls it; else the repository's, if it is built or released there. None leaves the search to the system."""
    if named := os.environ.get("TRAP_LIBRARY"):
        return named
    beside, built, released = (os.path.join(TOP, *parts, "libtrap.so.1") for parts in (
        ("python", "trapping"), ("library", "out"), ("out", "release")))
    release = os.path.join(TOP, "tools", "release")
    if not any(os.path.isfile(place) for place in (beside, built, released)) and is_program(release):
        run([release, "--unpack", "trap_c"])
    return next((place for place in (beside, built, released) if os.path.isfile(place)), None)


def shown(path: str) -> str:
    """The path of a file of the press commands for people: from the top of the repository, or whole if the commands
    are installed."""
    return os.path.relpath(path, TOP) if is_program(FINDER) else path


def has_program(name: str) -> bool:
    """Whether a trapping program is there."""
    try:
        return bool(program(name))
    except PressError:
        return False


def environment(path: str) -> Mapping[str, str]:
    """The environment of a trapping program: the C library gets memory as the table of programs says. The user's
    own setting is kept."""
    with open(os.path.join(TOP, "programs.txt"), encoding="utf-8") as table:
        rows = [line.split() for line in table if line.strip() and not line.startswith("#")]
    heap = {row[0]: row[2] for row in rows if row[2] != "-"}.get(os.path.basename(path))
    return {**({"GLIBC_TUNABLES": heap} if heap else {}), **os.environ}
