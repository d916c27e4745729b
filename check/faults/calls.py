# SPDX-License-Identifier: Apache-2.0
"""Each call of a run fails in turn, and the run is killed at each of its calls."""
import errno

from . import runs


ERRORS = {
    "open": [errno.EIO, errno.EACCES, errno.EMFILE, errno.ENOMEM],
    "read": [errno.EIO, errno.ESTALE],
    "seek": [errno.EIO],
    "look": [errno.EIO, errno.EACCES],
    "probe": [errno.EIO, errno.EACCES, errno.EROFS, errno.ENOMEM],
    "create": [errno.EIO, errno.ENOSPC, errno.EDQUOT, errno.EACCES, errno.EROFS],
    "truncate": [errno.EIO, errno.ENOSPC],
    "link": [errno.EIO, errno.EACCES],
    "mode": [errno.EIO, errno.EPERM],
    "write": [errno.EIO, errno.ENOSPC, errno.EDQUOT, errno.EFBIG, errno.ENOMEM],
    "sync": [errno.EIO, errno.ENOSPC, errno.EDQUOT],
    "rename": [errno.EIO, errno.ENOSPC, errno.EDQUOT, errno.EACCES],
    "tell": [errno.EIO, errno.ENOSPC, errno.EPIPE],
    "close": [],
}

# What goes unnoticed: a call that is interrupted, one that does less than was asked, a name that is taken, what cannot be
# written through, and an error of a close, which comes when all is read, or written through.
UNNOTICED = {
    "open": [errno.EINTR], "probe": [errno.EINTR], "create": [errno.EINTR, errno.EEXIST], "sync": [errno.EINTR, errno.EINVAL],
    "read": [errno.EINTR, "short"], "write": [errno.EINTR, "short"], "tell": [errno.EINTR, "short"], "close": [errno.EIO],
}

READING = "open", "read", "seek"

IN_ALL = ["1+open=again,1+read=again,1+probe=again,1+create=again,1+write=again,1+sync=again,1+tell=again",
          "1+read=short,1+write=short,1+tell=short"]


def word_of(what):
    return errno.errorcode[what] if isinstance(what, int) else what


def renamed(plain):
    """The names that a run gives, each with the number of the call that gives it."""
    return [(call.number, call.file) for call in plain.calls if call.name == "rename"]


def begun_at(plain, number):
    """How many files are begun before that call, and have no name yet."""
    made = {runs.final_of(call.file) for call in plain.calls if call.name == "create" and call.number < number}
    return len(made - {name for at, name in renamed(plain) if at < number})


def told_before(plain, number):
    """What had been told before that call."""
    return plain.told[:sum(call.length for call in plain.calls if call.name == "tell" and call.number < number)]


def is_look_at_input(plain, call):
    """Whether a file that was opened to be read is looked at, which is done to read ahead and to keep it where it is a regular one."""
    before = plain.calls[call.number - 2]
    return call.name == "look" and before.name == "open" and before.file == call.file


def errors_of(case, plain, call):
    """The errors of this call that are told, and what goes unnoticed."""
    told, unnoticed = ERRORS[call.name], UNNOTICED.get(call.name, [])
    if is_look_at_input(plain, call):
        return [], told
    keeps = case.pages and call.file != "job" or case.together and "plate 0" in case.reads.get(call.file, "")
    if call.name == "open" and keeps:
        # The files that are kept, of a sheet the job by the first plate's tray, are closed for it.
        return [error for error in told if error != errno.EMFILE], [*unnoticed, errno.EMFILE]
    return told, unnoticed


def line_of(case, plain, call):
    """The status and what is told where this call of reading or writing fails."""
    if call.name not in READING:
        return 6, case.writes[runs.final_of(call.file)]
    line = case.reads[call.file]
    if case.pages and call.file != "job":
        page = sum(one.name in ("open", "seek") and one.file == call.file and one.number <= call.number for one in plain.calls) - 1
        line = "page %d: %s" % (page, line) if page < case.pages else line
    return 5, line


def wanted(case, plain, call):
    """The status, what is told, and the files that are new where this one call fails."""
    new = {name for number, name in renamed(plain) if number < call.number}
    if call.name == "tell":
        return 6, None, new
    status, line = line_of(case, plain, call)
    if not case.lines or call.file == "list":
        return status, line, new
    which = case.lines[runs.final_of(call.file)]
    new = {name for number, name in renamed(plain) if case.lines[name] != which or number < call.number}
    if status == 5:
        new = {name for name in new if case.lines[name] != which}
    lines = plain.told.splitlines(True)
    lines[which] = "job %d: %s" % (which, line)
    return 9, "".join(lines), new


def files_of(case, plain, before, new):
    """The files where those of the names in `new` are as after a plain run, and the others as before."""
    return {name: plain.files[name] if name in new or name not in before else before[name]
            for name in plain.files if name in before or name in new}


def differs(ended, status, told, files):
    """What is wrong with an end, or nothing."""
    if ended.status != status:
        return "status %s in place of %s, told %r" % (ended.status, status, ended.told)
    if told is not None and ended.told != told:
        return "told %r in place of %r" % (ended.told, told)
    if ended.files != files:
        names = sorted(name for name in {**ended.files, **files} if ended.files.get(name) != files.get(name))
        return "files that are not as they have to be: %s" % ", ".join(names)
    return ""


def without_beside(ended):
    """The end without the files that were begun, and how many there were."""
    files = {name: data for name, data in ended.files.items() if not runs.is_beside(name)}
    return ended._replace(files=files), len(ended.files) - len(files)


class Trials:
    """The trials of one case, beside a plain run of it."""

    def __init__(self, case, library, is_short):
        self.case, self.library, self.is_short = case, library, is_short
        self.plain, _ = runs.with_faults(case, library, "")
        self.before = before_of(case)
        if self.plain.status != 0 or {name for _, name in renamed(self.plain)} != set(case.writes) - set(case.links):
            raise SystemExit("check/faults: a plain run of %s %s ends with %s, or not all that it does is seen"
                             % (case.program, " ".join(case.words), self.plain.status))
        for number, name in renamed(self.plain):
            if self.plain.calls[number - 2].name != "sync" or runs.final_of(self.plain.calls[number - 2].file) != name:
                raise SystemExit("check/faults: %s is not written through before it takes its name" % name)

    def all(self):
        """All trials, each as a text that says what it does and a call that says what was wrong."""
        calls = thinned(self.plain.calls) if self.is_short else self.plain.calls
        for call in calls:
            yield from self.of_errors(call)
            yield from self.of_kills(call)
        for faults in IN_ALL:
            yield faults, lambda faults=faults: self.unnoticed(faults)

    def of_errors(self, call):
        about = "%d %s %s" % (call.number, call.name, call.file)
        told, unnoticed = errors_of(self.case, self.plain, call)
        for what in self.some(told, call):
            yield "%s: %s" % (about, word_of(what)), lambda what=what: self.noticed(call, what)
        if not self.is_short and ERRORS[call.name]:
            yield about + ": EIO, and in all that follows", lambda: self.lost(call)
        if call.name == "write":
            yield about + ": ENOSPC, and in each write that follows", lambda: self.full(call)
        if self.case.together and call.name == "seek":
            yield about + ": cut", lambda: self.changed(call)
        for what in self.some(unnoticed, call):
            if what != "short" or call.length > 1:
                yield "%s: %s" % (about, word_of(what)), lambda what=what: self.unnoticed("%d=%s" % (call.number, what))

    def of_kills(self, call):
        about = "%d %s %s" % (call.number, call.name, call.file)
        ways = ["kill", "killed"] + (["within"] if call.name in ("write", "tell") and call.length > 1 else [])
        for way in self.some(ways, call):
            yield "%s: %s" % (about, way), lambda way=way: self.killed(call, way)

    def some(self, choices, call):
        """All choices, or in a short trial one of them, another from call to call."""
        return choices if not self.is_short or not choices else [choices[call.number % len(choices)]]

    def run(self, faults):
        return runs.with_faults(self.case, self.library, faults)

    def unnoticed(self, faults):
        ended, _ = self.run(faults)
        return differs(ended, 0, self.plain.told, self.plain.files)

    def noticed(self, call, what):
        """One call fails; and where a file was begun, removing it fails too."""
        status, told, new = wanted(self.case, self.plain, call)
        files = files_of(self.case, self.plain, self.before, new)
        ended, _ = self.run("%d=%d" % (call.number, what))
        wrong = differs(ended, status, told, files) or self.wrong_tell(call, ended)
        if wrong or not any(one.name == "unlink" for one in ended.calls):
            return wrong
        ended, left = without_beside(self.run("%d=%d,1+unlink=%d" % (call.number, what, errno.EIO))[0])
        return differs(ended, status, told, files) or (
            "" if left == begun_at(self.plain, call.number) else "%d files are left where none can be removed" % left)

    def changed(self, call):
        """A plate has lost its last byte when it is begun once more."""
        ended, _ = self.run("%d=cut" % call.number)
        mode, data = self.before[call.file]
        told = self.case.reads[call.file].replace("read fault:", "sheet: Changed in")
        return differs(ended, 4, told, {**self.before, call.file: (mode, data[:-1])})

    def wrong_tell(self, call, ended):
        """Of a failed tell: what was told before it stands, and no more than a line of the fault follows."""
        if call.name != "tell" or ended.told.startswith(told_before(self.plain, call.number)):
            return ""
        return "told %r" % ended.told

    def lost(self, call):
        """All calls fail from this one on."""
        ended, left = without_beside(self.run("%d+any=%d" % (call.number, errno.EIO))[0])
        new = {name for number, name in renamed(self.plain) if number < call.number}
        is_read = call.name in READING or is_look_at_input(self.plain, call)
        status = 5 if is_read and (call.file == "list" or not self.case.lines) else 6
        told = told_before(self.plain, call.number)
        return differs(ended, status, told, files_of(self.case, self.plain, self.before, new)) or (
            "" if left <= begun_at(self.plain, call.number) else "%d files are left" % left)

    def full(self, call):
        """Each write fails from this one on."""
        ended, _ = self.run("%d+write=%d" % (call.number, errno.ENOSPC))
        new = {name for number, name in renamed(self.plain) if number < call.number}
        return differs(ended, 9 if self.case.lines else 6, None, files_of(self.case, self.plain, self.before, new))

    def killed(self, call, way):
        """After a kill, what stands is old or new, and files that were begun may be left. A second run comes to a good end beside them."""
        first, second = self.run("%d=%s" % (call.number, way))
        new = {name for number, name in renamed(self.plain) if number < call.number + (way == "killed")}
        begun = [name for name in first.files if runs.is_beside(name)]
        wrong = differs(without_beside(first)[0], -9, None, files_of(self.case, self.plain, self.before, new))
        most = max(begun_at(self.plain, number) for number in (call.number, call.number + 1))
        if wrong or len(begun) > most:
            return wrong or "%d files are left" % len(begun)
        if set(self.case.files) & set(self.case.writes):
            return ""
        files = {**self.plain.files, **{name: first.files[name] for name in begun}}
        wrong = differs(second, 0, self.plain.told, files)
        return wrong and "in the run after the kill: " + wrong


def before_of(case):
    """The files before a run."""
    folder = runs.room_for(case)
    try:
        return runs.held(folder)
    finally:
        runs.clear(folder)


def thinned(calls):
    """The calls without those in the middle of several of the same kind on the same file."""
    kept = []
    for place, call in enumerate(calls):
        around = calls[max(place - 1, 0):place] + calls[place + 1:place + 2]
        if len(around) < 2 or any((one.name, one.file) != (call.name, call.file) for one in around):
            kept.append(call)
    return kept
