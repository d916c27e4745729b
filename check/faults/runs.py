# SPDX-License-Identifier: Apache-2.0
"""Runs of a program in a folder of its own, with a fault or without, and what they left."""
import os
import pathlib
import re
import shutil
import stat
import subprocess
import tempfile
from collections import namedtuple

HERE = os.path.dirname(os.path.dirname(os.path.abspath(__file__)))
CRATES = os.path.join(os.path.dirname(HERE), "crates")
PROGRAMS = os.environ.get("CHECK_PROGRAMS")

# A call as the library logs it, and how a run ended: its status, what was told, the files, and its calls.
Call = namedtuple("Call", "number name file length")
Ended = namedtuple("Ended", "status told files calls")

# Cases stand in memory where that can be had, since each file is written through.
ROOM = "/dev/shm" if os.access("/dev/shm", os.W_OK | os.X_OK) else None

# How many seconds a run may take. Each takes milliseconds where nothing else is at work.
LONGEST_RUN = 180

BESIDE = re.compile(r"(^|.*/)\.(.*)\.trap-[0-9]+")
KEPT_MODE = 0o640

# Copies of programs, by their names.
copies = {}


def program_of(name):
    """The built program, or None."""
    file = os.path.join(PROGRAMS, name) if PROGRAMS else os.path.join(CRATES, name, "out", name)
    return os.path.realpath(file) if os.path.isfile(file) else None


def open_place():
    """A folder for temporary files that every user gets to; the usual one where there is none."""
    for place in (tempfile.gettempdir(), "/tmp", "/var/tmp"):
        way = pathlib.Path(place).resolve()
        if os.access(way, os.W_OK) and all(one.stat().st_mode & stat.S_IXOTH for one in (way, *way.parents)):
            return place
    return None


def copy_for_all(name, room):
    """Copies the built program there, where users without rights can run it."""
    os.chmod(room, 0o755)
    copies[name] = os.path.join(room, name)
    shutil.copy(program_of(name), copies[name])
    os.chmod(copies[name], 0o755)


def library_in(room):
    """The library that is preloaded, built there."""
    library = os.path.join(room, "faults.so")
    subprocess.run(["cc", "-shared", "-fPIC", "-O1", "-o", library, os.path.join(HERE, "faults.c"), "-ldl"], check=True)
    return library


def final_of(name):
    """The name that a file takes when it is whole."""
    found = BESIDE.fullmatch(name)
    return found.group(1) + found.group(2) if found else name


def is_beside(name):
    return bool(BESIDE.fullmatch(name))


def held(folder):
    """What stands in a folder, by names: the mode and the bytes of a file, and what a link says."""
    found = {}
    for place, folders, names in os.walk(folder):
        for name in names + [one for one in folders if os.path.islink(os.path.join(place, one))]:
            path = os.path.join(place, name)
            found[os.path.relpath(path, folder)] = shown(path)
    return found


def shown(path):
    if os.path.islink(path):
        return os.readlink(path)
    if not os.path.isfile(path):
        return "special"
    mode = os.stat(path).st_mode & 0o777
    try:
        with open(path, "rb") as file:
            return mode, file.read()
    except PermissionError:
        return mode, None


def fill(folder, case):
    """Puts a case's files there. Those that stand in place of outputs have rights of their own."""
    os.mkdir(os.path.join(folder, "out"))
    for name, data in {**case.files, **case.old}.items():
        path = os.path.join(folder, name)
        with open(path, "wb") as file:
            file.write(data)
        os.chmod(path, KEPT_MODE if name in case.old else 0o644)
    for name, to in case.links.items():
        os.symlink(to, os.path.join(folder, name))


def start(case, folder, faults="", library=None, log=None, before=(), program=None, **more):
    """Begins a run of the case in the folder; `before` are words before the program."""
    surroundings = {"PATH": os.environ.get("PATH", "")}
    if library:
        surroundings.update({"LD_PRELOAD": library, "FAULTS": faults})
    if log:
        surroundings["FAULTS_LOG"] = log
    options = {"stdin": subprocess.DEVNULL, "stdout": subprocess.PIPE, "stderr": subprocess.STDOUT, **more}
    return subprocess.Popen([*before, program or program_of(case.program), *case.words], cwd=folder, env=surroundings, **options)


def status_and_told(running):
    """Waits for the end of a run, and not too long."""
    try:
        told, _ = running.communicate(timeout=LONGEST_RUN)
    except subprocess.TimeoutExpired:
        running.kill()
        running.communicate()
        return "none within %d seconds" % LONGEST_RUN, ""
    return running.returncode, (told or b"").decode("utf-8", "replace")


def end(running, folder):
    return Ended(*status_and_told(running), held(folder), [])


def run(case, folder, **how):
    """A whole run of the case in that folder."""
    return end(start(case, folder, **how), folder)


def calls_in(log):
    if not os.path.exists(log):
        return []
    with open(log) as file:
        words = [line.split() for line in file]
    return [Call(int(number), name, file, int(length)) for number, name, file, length in words]


def with_faults(case, library, faults, is_logged=True):
    """How a run with these faults ends, in a new folder; and what a second run without a fault comes to in the same folder."""
    with tempfile.TemporaryDirectory(dir=ROOM) as room:
        folder, log = os.path.join(room, "case"), os.path.join(room, "log") if is_logged else None
        os.mkdir(folder)
        fill(folder, case)
        ended = run(case, folder, faults=faults, library=library, log=log)
        ended = ended._replace(calls=calls_in(log) if log else [])
        return ended, run(case, folder) if ended.status == -9 else None


def room_for(case):
    """A new folder with the case's files."""
    folder = tempfile.mkdtemp(dir=ROOM)
    fill(folder, case)
    return folder


def clear(folder):
    shutil.rmtree(folder, ignore_errors=True)
