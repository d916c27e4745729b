# SPDX-License-Identifier: Apache-2.0
"""Rights that are missing, as a user that is not root; disks that are full or read-only; and another run at the same time."""
import errno
import os
import shutil
import subprocess
import tempfile
import time

from . import runs
from .calls import differs
from .cases import larger, other_of
from .places import Place, plain_of, skip

NOBODY = 65534
PAGE_SIZE = 4096
MOST_PAGES = 200


def as_nobody(place):
    """The words before a program by which it runs without root's rights, and the program, or None where that cannot be had."""
    if os.getuid() != 0:
        return [], runs.program_of(place.case.program)
    if not shutil.which("setpriv"):
        skip("rights that are missing", "this is root, and there is no setpriv")
        return None
    os.chmod(place.room, 0o755)
    for folder, _, names in os.walk(place.folder):
        for name in ["."] + names:
            os.lchown(os.path.join(folder, name), NOBODY, NOBODY)
    return ["setpriv", "--reuid", str(NOBODY), "--regid", str(NOBODY), "--clear-groups"], runs.copies[place.case.program]


def refused_as_nobody(place, path, mode):
    """Runs the case where that path has these rights, so that the output cannot be written."""
    way = as_nobody(place)
    if not way:
        return ""
    usual = os.stat(path).st_mode & 0o777
    os.chmod(path, mode)
    try:
        return place.refused(before=way[0], program=way[1])
    finally:
        os.chmod(path, usual)


def a_file_that_may_not_be_written(place):
    place.make(place.name, b"kept")
    return refused_as_nobody(place, place.path, 0o440)


OTHER, OTHER_GROUP, OTHER_MODE = 12345, 23456, 0o6754


def owned(place):
    """The owner, the group and the mode of the output."""
    told = os.stat(place.path)
    return told.st_uid, told.st_gid, told.st_mode & 0o7777


def a_file_of_another(place, wanted=(OTHER, OTHER_GROUP, OTHER_MODE), **how):
    """A file that is replaced keeps its owner, its group and its rights, those to run as its owner too."""
    if os.getuid() != 0:
        skip("files of other owners", "this is not root")
        return ""
    place.make(place.name, b"kept")
    os.chown(place.path, OTHER, OTHER_GROUP)
    os.chmod(place.path, OTHER_MODE)
    ended = runs.run(place.case, place.folder, **how)
    files = {**place.plain.files, place.name: (wanted[2] & 0o777, place.data())}
    wrong = differs(ended, 0, place.plain.told, files)
    return wrong or ("" if owned(place) == wanted else "owner, group, mode are %s" % (owned(place),))


def an_owner_that_may_not_be_given(place, library):
    """The file is whoever's ran the program, and no program runs by it as its owner."""
    return a_file_of_another(place, (os.getuid(), os.getgid(), OTHER_MODE & 0o777), library=library, faults="1+owner=%d" % errno.EPERM)


def a_file_of_another_as_nobody(place):
    """Who may write a file and not give it away becomes its owner."""
    way = as_nobody(place)
    if not way or os.getuid() != 0:
        return ""
    place.make(place.name, b"kept", 0o2666)
    os.chown(place.path, OTHER, OTHER_GROUP)
    os.chmod(place.path, 0o2666)
    ended = runs.run(place.case, place.folder, before=way[0], program=way[1])
    wrong = differs(ended, 0, place.plain.told, {**place.plain.files, place.name: (0o666, place.data())})
    return wrong or ("" if owned(place) == (NOBODY, NOBODY, 0o666) else "owner, group, mode are %s" % (owned(place),))


def a_folder_that_may_not_be_changed(case):
    """The files in it may be written, and yet none begun beside them. Those in another folder are written."""
    with Place(case, next(iter(case.writes))) as place:
        way = as_nobody(place)
        if not way:
            return ""
        os.chmod(place.folder, 0o555)
        before = runs.held(place.folder)
        ended = runs.run(case, place.folder, before=way[0], program=way[1])
        os.chmod(place.folder, 0o755)
        return refusal_of(case, place.plain, before, ended)


def refusal_of(case, plain, before, ended):
    """What is wrong with a run of which some output was refused: those from the first in its line on have to be as they were."""
    new = new_by(case, plain, ended)
    files = {**before, **{name: plain.files[name] for name in new}}
    return differs(ended, 9 if case.lines else 6, None, files) or ("" if new != set(case.writes) else "nothing was refused")


def an_unreadable_input(place):
    way = as_nobody(place)
    if not way:
        return ""
    os.chmod(place.path, 0o200)
    try:
        return place.unread(before=way[0], program=way[1])
    finally:
        os.chmod(place.path, 0o644)


def a_folder_without_rights(case):
    """Nothing can be found in the folder that the program runs in."""
    first = next(name for name in ["list", "job", "Cyan"] if name in case.files)
    with Place(case, first) as place:
        way = as_nobody(place)
        if not way:
            return ""
        before = [*way[0], "sh", "-c", 'chmod 0 . && exec "$@"', "sh"]
        try:
            status, told = runs.status_and_told(runs.start(case, place.folder, before=before, program=way[1]))
        finally:
            os.chmod(place.folder, 0o755)
        return differs(runs.Ended(status, told, runs.held(place.folder), []), 5, case.reads[first], place.before)


class Disk:
    """A small disk of its own with a case's files."""

    def __init__(self, case):
        self.case, self.folder = case, tempfile.mkdtemp()

    def __enter__(self):
        mounted = shutil.which("mount") and subprocess.run(
            ["mount", "-t", "tmpfs", "-o", "size=%d" % (MOST_PAGES * PAGE_SIZE), "none", self.folder], capture_output=True)
        self.is_there = bool(mounted) and mounted.returncode == 0
        if self.is_there:
            runs.fill(self.folder, self.case)
        else:
            skip("a full disk and a read-only one", "no disk can be mounted here (full ones are tried by the preloaded library)")
        return self

    def __exit__(self, *_):
        if self.is_there:
            subprocess.run(["umount", "-l", self.folder], check=True)
        os.rmdir(self.folder)

    def fill_up(self, pages):
        """Leaves room for so many pages."""
        path = os.path.join(self.folder, "filler")
        size = 0
        with open(path, "wb", buffering=0) as file:
            try:
                while True:
                    size += file.write(bytes(PAGE_SIZE))
            except OSError:
                file.truncate(max(0, size - pages * PAGE_SIZE))

    def made_read_only(self):
        """It is busy while a process that another trial begins has yet the files that this one wrote."""
        for _ in range(600):
            if subprocess.run(["mount", "-o", "remount,ro", self.folder], capture_output=True).returncode == 0:
                return True
            time.sleep(0.1)
        return False

    def judged(self):
        """Runs the case. The files before the first that has no room are new, and the others as they were."""
        plain, before = plain_of(self.case), runs.held(self.folder)
        ended = runs.run(self.case, self.folder)
        if ended.told == plain.told:
            return differs(ended, 0, None, {**before, **plain.files}), 0
        return refusal_of(self.case, plain, before, ended), ended.status


def new_by(case, plain, ended):
    """The outputs that are new by what was told: all but those from the one on that could not be written."""
    if ended.told == plain.told:
        return set(case.writes)
    if not case.lines:
        named = [name for name, line in case.writes.items() if line == ended.told]
        order = list(case.writes)
        new = set(order[:order.index(named[0])]) if named else set()
        return new - set(case.together) if named and named[0] in case.together else new
    new = set()
    for which, line in enumerate(ended.told.splitlines(True)):
        order = [name for name in case.writes if case.lines[name] == which]
        named = [place for place, name in enumerate(order) if line == "job %d: %s" % (which, case.writes[name])]
        new.update(order[:named[0]] if named else order if line == "job %d: done\n" % which else [])
    return new


def a_full_disk(case, is_short):
    """Room for more and more pages, until the case finds enough."""
    case, ends = larger(case), set()
    for pages in range(0, MOST_PAGES, 4 if is_short else 1):
        with Disk(case) as disk:
            if not disk.is_there:
                return ""
            disk.fill_up(pages)
            wrong, status = disk.judged()
        if wrong:
            return "with %d free pages: %s" % (pages, wrong)
        ends.add(status)
        if status == 0:
            break
    return "" if ends == {0, 9 if case.lines else 6} else "the runs ended with %s" % sorted(ends)


def a_read_only_disk(case):
    with Disk(case) as disk:
        if not disk.is_there:
            return ""
        if not disk.made_read_only():
            return "the disk could not be made read-only"
        wrong, status = disk.judged()
        return wrong or ("" if status in (6, 9) else "status %s" % status)


def two_at_once(case, count):
    """Two runs with other traps into the same names: each file is whole, of one or the other."""
    one, two = other_of(case)
    plain = [plain_of(one), plain_of(two)]
    if all(plain[0].files[name] == plain[1].files[name] for name in one.writes):
        return "the two runs write the same"
    for _ in range(count):
        folder = runs.room_for(one)
        try:
            running = [runs.start(which, folder) for which in (one, two)]
            statuses = [runs.status_and_told(which)[0] for which in running]
            files = runs.held(folder)
        finally:
            runs.clear(folder)
        bad = [name for name in one.writes if files.get(name, (0, b""))[1] not in [end.files[name][1] for end in plain]]
        bad += [name for name in files if runs.is_beside(name)]
        if bad or statuses != [0, 0]:
            return "statuses %s, files that are not whole, or left: %s" % (statuses, ", ".join(bad))
    return ""
