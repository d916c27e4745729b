# SPDX-License-Identifier: Apache-2.0
"""Files and folders that are whole under their names or not at all; locks; what killed runs left; room on the
disk."""
import contextlib
import errno
import fcntl
import logging
import os
import re
import shutil
import socket
import stat
import tempfile
import time
from collections.abc import Iterator

from .errors import PressError, Status, reason

LOG = logging.getLogger("press")
LOCK = ".press-lock"
HEAD_BYTES = 2048
BYTE_ORDER_MARK = b"\xef\xbb\xbf"
LEFT_OVER = re.compile(r"\.press-(\d+)-(.*)-[a-z0-9_]{8,10}(\.[^.]*)?")
LOCK_SECONDS, LOCK_WAIT = 1.0, 0.1
PROBE_BYTES = 1 << 18
NO_ROOM = (errno.ENOSPC, errno.EDQUOT, errno.EFBIG, errno.EROFS, errno.EIO)


@contextlib.contextmanager
def refusing(path: str, status: Status = Status.INPUT) -> Iterator[None]:
    """Makes refusals of the system's faults in the block, with this status, its own words and the path."""
    try:
        yield
    except OSError as fault:
        raise PressError(status, reason(fault), path) from fault


# Reading

def head_of(path: str) -> bytes:
    """The first bytes of a regular file. A folder, a pipe or a device is refused: reading it could wait for ever."""
    with refusing(path):
        mode = os.stat(path).st_mode
        if not stat.S_ISREG(mode):
            raise PressError(Status.INPUT, "Is a directory" if stat.S_ISDIR(mode) else "no regular file", path)
        with open(path, "rb") as file:
            return file.read(HEAD_BYTES)


def bytes_of(path: str) -> bytes:
    """The bytes of a regular file."""
    head_of(path)
    with refusing(path), open(path, "rb") as file:
        return file.read()


def is_utf16(text: bytes) -> bool:
    """Whether a text begins as UTF-16 does."""
    return text.startswith((b"\xff\xfe", b"\xfe\xff"))


def table_lines(path: str) -> list[str]:
    """The lines of a table in UTF-8. A byte order mark is left aside."""
    with refusing(path), open(path, "rb") as file:
        text = file.read()
    try:
        return text.removeprefix(BYTE_ORDER_MARK).decode("utf-8").splitlines()
    except UnicodeDecodeError as fault:
        line = fault.object.count(b"\n", 0, fault.start) + 1
        what = "in UTF-16" if is_utf16(text) else f"line {line}: not UTF-8"
        raise PressError(Status.INPUT, f"{what}: save it as UTF-8", path) from fault


def beside(path: str, *ends: str) -> list[str]:
    """Those of the files NAME.END that are beside NAME.pdf."""
    stem = os.path.splitext(path)[0]
    return [f"{stem}.{end}" for end in ends if os.path.isfile(f"{stem}.{end}")]


def need_folder(path: str) -> None:
    """Refuses a path that is no folder."""
    if not os.path.isdir(path):
        message = "Not a directory" if os.path.lexists(path) else "No such file or directory"
        raise PressError(Status.INPUT, message, path)


# Writing

@contextlib.contextmanager
def named(path: str) -> Iterator[None]:
    """Gives the system's faults in the block the path of the file: those of a full disk name none."""
    try:
        yield
    except OSError as fault:
        if fault.filename is None:
            fault.filename = path
        raise


def is_full(fault: BaseException | None) -> bool:
    """Whether a fault is one of a disk that takes no more."""
    return isinstance(fault, OSError) and fault.errno in NO_ROOM


def umasked(mode: int) -> int:
    """The rights that a new file has."""
    mask = os.umask(0)
    os.umask(mask)
    return mode & ~mask


def temporary_name() -> str:
    """How the name of an unfinished file begins: with the number of this process and the machine."""
    return f".press-{os.getpid()}-{socket.gethostname()}-"


def sweep(folder: str) -> None:
    """Clears away what killed runs of this machine left in a folder."""
    try:
        with os.scandir(folder) as entries:
            found = [(entry, LEFT_OVER.fullmatch(entry.name)) for entry in entries]
    except OSError:
        return
    for entry, name in found:
        if name is None or name.group(2) != socket.gethostname() or os.path.exists(f"/proc/{name.group(1)}"):
            continue
        if entry.is_dir(follow_symlinks=False):
            shutil.rmtree(entry.path, ignore_errors=True)
        else:
            with contextlib.suppress(OSError):
                os.remove(entry.path)


@contextlib.contextmanager
def whole_file(final: str) -> Iterator[str]:
    """A path beside `final` to write to. It takes the name `final` if the block ends well, and is removed otherwise."""
    parent = os.path.dirname(final) or "."
    if os.path.isdir(final):
        raise PressError(Status.OUTPUT, "Is a directory", final)
    with refusing(final, Status.OUTPUT):
        sweep(parent)
        handle, path = tempfile.mkstemp(prefix=temporary_name(), suffix=os.path.splitext(final)[1], dir=parent)
        os.close(handle)
    try:
        with named(final):
            yield path
            os.chmod(path, umasked(0o666))
            os.replace(path, final)
    finally:
        if os.path.exists(path):
            os.remove(path)


def write_text(final: str, text: str, errors: str = "strict") -> None:
    """Writes a text file as a whole."""
    with whole_file(final) as path, open(path, "w", encoding="utf-8", errors=errors) as file:
        file.write(text)


@contextlib.contextmanager
def scratch_folder() -> Iterator[str]:
    """A folder of temporary files. What killed runs have left among the temporary files is cleared away."""
    place = tempfile.gettempdir()
    sweep(place)
    with tempfile.TemporaryDirectory(prefix=temporary_name(), dir=place) as path:
        yield path


@contextlib.contextmanager
def folder_beside(final: str, inside: bool = False) -> Iterator[str]:
    """A new folder beside `final`, or inside it, that is removed when the block ends, unless it was renamed."""
    parent = final if inside else os.path.dirname(os.path.abspath(final))
    with refusing(final, Status.OUTPUT):
        sweep(parent)
        path = tempfile.mkdtemp(prefix=temporary_name(), dir=parent)
    os.chmod(path, umasked(0o777))
    try:
        yield path
    finally:
        shutil.rmtree(path, ignore_errors=True)


def put_folder(made: str, final: str) -> None:
    """Gives a folder its final name, in place of a folder of that name."""
    if os.path.isdir(final):
        old = tempfile.mkdtemp(prefix=temporary_name(), dir=os.path.dirname(os.path.abspath(final)))
        os.rename(final, os.path.join(old, "old"))
        os.rename(made, final)
        shutil.rmtree(old, ignore_errors=True)
    else:
        os.rename(made, final)


def link_or_copy(source: str, end: str) -> None:
    """The same file under a second name if the disk allows it, else a copy."""
    try:
        os.link(source, end)
    except OSError:
        shutil.copyfile(source, end)


# Locks

@contextlib.contextmanager
def locked(path: str, place: str, who: str, shared: bool = False, seconds: float = LOCK_SECONDS) -> Iterator[None]:
    """Holds a lock while the block runs: a file with the number of the process and its command, `who`. The
    system releases it if the process ends in any way. If another run holds it for so many seconds, the refusal
    names that run."""
    handle = take_lock(path, place, fcntl.LOCK_SH if shared else fcntl.LOCK_EX, seconds)
    # A full disk takes the lock, and not the line of who holds it.
    with contextlib.suppress(OSError):
        os.truncate(handle, 0)
        os.pwrite(handle, f"process {os.getpid()} on {socket.gethostname()}: {who}\n".encode(), 0)
    try:
        yield
    finally:
        # The last one removes the file.
        with contextlib.suppress(OSError):
            fcntl.flock(handle, fcntl.LOCK_EX | fcntl.LOCK_NB)
            os.remove(path)
        os.close(handle)


def take_lock(path: str, place: str, how: int, seconds: float) -> int:
    """The open file of a lock that is held."""
    tries = max(1, round(seconds / LOCK_WAIT))
    for attempt in range(tries):
        handle = os.open(path, os.O_RDWR | os.O_CREAT | os.O_CLOEXEC, umasked(0o666))
        try:
            fcntl.flock(handle, how | fcntl.LOCK_NB)
            with contextlib.suppress(OSError):
                if os.path.samestat(os.fstat(handle), os.stat(path)):
                    break
        except BlockingIOError as fault:
            # A run that removes the file of a lock holds it for a moment.
            time.sleep(LOCK_WAIT)
            if attempt == tries - 1:
                holder = os.pread(handle, 1000, 0).decode("utf-8", "replace").strip() or "its process is not known"
                os.close(handle)
                raise PressError(Status.OUTPUT, f"another run is at work here ({holder})", place) from fault
        except OSError as fault:
            LOG.warning("%s: no lock can be held here (%s): make sure that no other run works here", place,
                        fault.strerror)
            break
        os.close(handle)
    return handle


# Room

def need_room(folder: str, what: str) -> None:
    """Refuses with the system's own reason if the folder takes no more: what tools print about a full disk is
    mostly misleading."""
    try:
        with tempfile.TemporaryFile(prefix=temporary_name(), dir=folder) as file:
            file.write(b"\1" * PROBE_BYTES)
            file.flush()
            os.fsync(file.fileno())
    except OSError as fault:
        if fault.errno in NO_ROOM:
            raise PressError(Status.OUTPUT, f"{reason(fault)} (while {what})", os.fsdecode(folder)) from fault


def free_room(place: str) -> int:
    """The free bytes at the place of a path."""
    while not os.path.isdir(place):
        place = os.path.dirname(os.path.abspath(place))
    found = os.statvfs(place)
    return found.f_bavail * found.f_frsize


def disk_use(folder: str) -> int:
    """The bytes that a folder takes, a file of two names once."""
    seen = {}
    for place, _, files in os.walk(folder):
        for file in files:
            found = os.lstat(os.path.join(place, file))
            seen[found.st_dev, found.st_ino] = found.st_blocks * 512
    return sum(seen.values())


def size_text(count: int) -> str:
    """A number of bytes as people read it."""
    return f"{count / 1e9:.2f} GB" if count >= 1e9 else f"{count / 1e6:.1f} MB"
