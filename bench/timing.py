# SPDX-License-Identifier: Apache-2.0
"""What the benches share: the program, and the least time and the peak memory of a command run several times.

Beside the time that passes there is the time that processors worked on the command. Where other work goes on beside it, the
first says little and the second more.
"""
import os
import subprocess
import sys
import threading
import time
from collections import namedtuple

TOP = os.path.dirname(os.path.dirname(os.path.abspath(__file__)))
PROGRAM = os.path.join(TOP, "crates", "trap", "out", "trap")

# A job that traps nothing: what it takes is reading, checking and writing alone.
NO_TRAPS = b"<< /Enabled false >> settrapparams showpage"

# The environment of press commands: the python3 that runs the bench is first on the PATH, and modules are compiled.
ENVIRONMENT = {**os.environ, "PATH": os.path.dirname(sys.executable) + ":" + os.environ["PATH"]}
ENVIRONMENT.pop("PYTHONDONTWRITEBYTECODE", None)

Timed = namedtuple("Timed", "seconds worked peak_megabytes")


def session_memory(session):
    """The bytes of memory that all processes of a session have, what several share being counted once."""
    total = 0
    for name in filter(str.isdigit, os.listdir("/proc")):
        try:
            with open("/proc/%s/stat" % name, encoding="utf-8", errors="replace") as file:
                if int(file.read().rpartition(")")[2].split()[3]) != session:
                    continue
            with open("/proc/%s/smaps_rollup" % name, encoding="ascii") as file:
                total += sum(int(line.split()[1]) * 1024 for line in file if line.startswith("Pss:"))
        except (OSError, ValueError, IndexError):
            continue
    return total


class Memory(threading.Thread):
    """Looks at the memory of a session every so many seconds until it is stopped."""

    def __init__(self, session, seconds):
        super().__init__(daemon=True)
        self.session, self.seconds, self.most, self.ended = session, seconds, 0, threading.Event()

    def run(self):
        while not self.ended.wait(self.seconds):
            self.most = max(self.most, session_memory(self.session))


def timed(command):
    """Runs the command once, and lets go of what it prints. A text goes to the shell, a list is a program and its words."""
    start = time.perf_counter()
    child = subprocess.Popen(command, shell=isinstance(command, str), stdout=subprocess.DEVNULL)
    _, status, used = os.wait4(child.pid, 0)
    seconds = time.perf_counter() - start
    child.returncode = os.waitstatus_to_exitcode(status)
    if child.returncode != 0:
        raise subprocess.CalledProcessError(child.returncode, command)
    return Timed(seconds, used.ru_utime + used.ru_stime, used.ru_maxrss / 1024)


def least_by_turns(runs, commands, made):
    """For each of the commands the least times and the most memory of so many runs, in which they take turns, so that other
    work on the machine falls on all alike. The files that they make are removed before each."""
    results = [[] for _ in commands]
    for _ in range(runs):
        for command, told in zip(commands, results):
            for path in made:
                if os.path.exists(path):
                    os.remove(path)
            told.append(timed(command))
    return [Timed(min(result.seconds for result in told), min(result.worked for result in told),
                  max(result.peak_megabytes for result in told)) for told in results]


def least(runs, command, made):
    """The least times and the most memory of so many runs. The files that it makes are removed before each."""
    return least_by_turns(runs, [command], made)[0]


def cat(pairs):
    """The shell's command that copies each file of (from, to)."""
    return " && ".join("cat '%s' > '%s'" % pair for pair in pairs)
