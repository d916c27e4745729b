# SPDX-License-Identifier: Apache-2.0
"""Places on a disk that stand in the way of a run: folders, links, devices, pipes, rights, a full disk, and another run."""
import os
import select
import tempfile
import threading

from . import runs
from .calls import before_of, differs
from .case import OLD

_skipped = {}


def skip(what, why):
    _skipped[what] = why


def skipped():
    """What was not tried, and why."""
    return list(_skipped.items())


class Place:
    """A case's folder in which something stands in the way of one output, the names before that one, and a plain run beside it."""

    def __init__(self, case, name):
        self.case, self.name = case, name
        self.plain = plain_of(case)
        order = list(case.writes)
        self.earlier = set(order[:order.index(name)]) if name in order else set()
        if name in case.together:
            self.earlier -= set(case.together)
        self.room = tempfile.mkdtemp(dir=runs.ROOM)
        self.folder = os.path.join(self.room, "case")
        os.mkdir(self.folder)
        runs.fill(self.folder, case)
        self.path = os.path.join(self.folder, name)
        self.before = before_of(case)

    def __enter__(self):
        return self

    def __exit__(self, *_):
        runs.clear(self.room)

    def remove(self):
        if os.path.lexists(self.path):
            os.remove(self.path)

    def link(self, to):
        self.remove()
        os.symlink(to, self.path)

    def make(self, name, data, mode=runs.KEPT_MODE):
        path = os.path.join(self.folder, name)
        os.makedirs(os.path.dirname(path), exist_ok=True)
        with open(path, "wb") as file:
            file.write(data)
        os.chmod(path, mode)

    def data(self):
        """What the output holds after a plain run."""
        return self.plain.files[self.name][1]

    def new(self):
        """The names of the outputs that are new where this one cannot be written."""
        line = self.case.lines.get(self.name)
        return {name for name in self.case.writes
                if name in self.earlier or (line is not None and self.case.lines[name] != line)}

    def refused(self, **how):
        """Runs the case, which has to refuse this output: the files before it are new, all else is as it was."""
        before = runs.held(self.folder)
        ended = runs.run(self.case, self.folder, **how)
        new = self.new()
        files = {**before, **{name: self.plain.files[name] for name in new}}
        return differs(ended, 9 if self.case.lines else 6, self.told(), files)

    def unread(self, **how):
        """Runs the case, which has to refuse this input: nothing is written, but for a list's other lines and a run's earlier pages."""
        before = runs.held(self.folder)
        ended = runs.run(self.case, self.folder, **how)
        line = self.case.lines.get(self.name)
        told, status, new = self.case.reads[self.name], 5, set()
        if line is not None:
            lines = self.plain.told.splitlines(True)
            lines[line], status = "job %d: %s" % (line, told), 9
            told, new = "".join(lines), {name for name in self.case.writes if self.case.lines[name] != line}
        elif self.case.pages and self.name != "job":
            told = "page 0: " + told
        return differs(ended, status, told, {**before, **{name: self.plain.files[name] for name in new}})

    def told(self):
        line = self.case.lines.get(self.name)
        if line is None:
            return self.case.writes[self.name]
        told = self.plain.told.splitlines(True)
        told[line] = "job %d: %s" % (line, self.case.writes[self.name])
        return "".join(told)

    def written(self, changes, told=None):
        """Runs the case, which has to come out as ever but for these files."""
        ended = runs.run(self.case, self.folder)
        files = {**self.plain.files, **changes}
        return differs(ended, 0, self.plain.told if told is None else told,
                       {name: data for name, data in files.items() if data is not None})


_plain = {}


def plain_of(case):
    """A plain run of the case, made once."""
    key = repr(case)
    if key not in _plain:
        folder = runs.room_for(case)
        _plain[key] = runs.run(case, folder)
        runs.clear(folder)
    return _plain[key]


def a_folder(place):
    """A folder stands there."""
    place.remove()
    os.makedirs(os.path.join(place.path, "below"))
    return place.refused()


def a_link(place):
    """A link to a link to a file in another folder: it is replaced there, and keeps its rights; the links stay."""
    place.make("away/file", b"old", 0o600)
    os.symlink("file", os.path.join(place.folder, "away/second"))
    to = os.path.relpath("away/second", os.path.dirname(place.name) or ".")
    place.link(to)
    return place.written({place.name: to, "away/second": "file", "away/file": (0o600, place.data())})


def a_link_by_its_whole_path(place):
    place.make("away/file", b"old", 0o600)
    to = os.path.join(place.folder, "away/file")
    place.link(to)
    return place.written({place.name: to, "away/file": (0o600, place.data())})


def a_link_to_nothing(place):
    """The file is made where the link leads."""
    to = os.path.relpath("nothing", os.path.dirname(place.name) or ".")
    place.link(to)
    return place.written({place.name: to, "nothing": (0o644, place.data())})


def a_link_into_no_folder(place):
    place.link("nowhere/file")
    return place.refused()


def a_link_to_itself(place):
    place.link(os.path.basename(place.name))
    return place.refused()


def another_name(place):
    """A hard link keeps what it held."""
    place.make("other", b"kept")
    place.remove()
    os.link(os.path.join(place.folder, "other"), place.path)
    return place.written({"other": (runs.KEPT_MODE, b"kept"), place.name: (runs.KEPT_MODE, place.data())})


def a_name_that_is_taken(place):
    """What a run that was killed left beside the place is neither used nor removed."""
    beside = os.path.join(os.path.dirname(place.name), ".%s.trap-0" % os.path.basename(place.name))
    place.make(beside, b"left", 0o600)
    return place.written({beside: (0o600, b"left")})


def a_device_that_is_full(place):
    place.link("/dev/full")
    return place.refused()


def standard_output(place):
    """What is written comes out between what is told."""
    place.link("/dev/stdout")
    ended = runs.run(place.case, place.folder)
    parts = ended.told.partition(place.data().decode("utf-8", "replace"))
    files = {**place.plain.files, place.name: "/dev/stdout"}
    wrong = differs(ended, 0, None, files)
    return wrong or ("" if parts[1] and parts[0] + parts[2] == place.plain.told else "told %r" % ended.told)


def standard_output_into_a_file(place, mode="wb"):
    """Where standard output is a regular file, what stands in it stays, and what is written comes after it."""
    place.link("/dev/stdout")
    path = os.path.join(place.room, "told")
    with open(path, mode, buffering=0) as file:
        file.write(OLD)
        ended = runs.run(place.case, place.folder, stdout=file)
    with open(path, "rb") as file:
        told = file.read()
    files = {**place.plain.files, place.name: "/dev/stdout"}
    parts = told[len(OLD):].partition(place.data())
    is_right = told.startswith(OLD) and parts[1] and parts[0] + parts[2] == place.plain.told.encode()
    return differs(ended, 0, "", files) or ("" if is_right else "the file holds %r" % told)


def standard_output_onto_a_file(place):
    return standard_output_into_a_file(place, "ab")


def a_file_that_is_open(place):
    """A file that the program was given open is written after what it holds."""
    with open(os.path.join(place.room, "open"), "wb+", buffering=0) as file:
        file.write(OLD)
        to = "/proc/self/fd/%d" % file.fileno()
        place.link(to)
        ended = runs.run(place.case, place.folder, pass_fds=[file.fileno()])
        file.seek(0)
        held = file.read()
    wrong = differs(ended, 0, place.plain.told, {**place.plain.files, place.name: to})
    return wrong or ("" if held == OLD + place.data() else "the file holds %r" % held)


def a_pipe(place):
    """A reader of a pipe gets the whole file."""
    place.remove()
    os.mkfifo(place.path)
    got = []

    def read():
        with open(place.path, "rb") as file:
            got.append(file.read())

    reader = threading.Thread(target=read, daemon=True)
    reader.start()
    wrong = place.written({place.name: "special"})
    reader.join(60)
    return wrong or ("" if got == [place.data()] else "the reader got %r" % got)


def the_input(place):
    """The output is a link to a plate that is read, to the end, and only then replaced, or meanwhile by its name alone."""
    name = "Cyan" if "Cyan" in place.case.files else "a.c"
    to = os.path.relpath(name, os.path.dirname(place.name) or ".")
    place.link(to)
    return place.written({place.name: to, name: (0o644, place.data())})


def a_missing_input(place):
    place.remove()
    return place.unread()


def a_folder_to_read(place):
    place.remove()
    os.mkdir(place.path)
    return place.unread()


def put_through_a_pipe(place):
    with open(place.path, "rb") as file:
        data = file.read()
    place.remove()
    os.mkfifo(place.path)

    def write():
        with open(place.path, "wb") as file:
            file.write(data)

    threading.Thread(target=write, daemon=True).start()


def a_pipe_to_read(place):
    """An input comes through a pipe."""
    put_through_a_pipe(place)
    return place.written({place.name: "special"})


def a_pipe_to_read_twice(place):
    """An input that is read twice comes through a pipe, which cannot be begun again: nobody waits for another writer."""
    put_through_a_pipe(place)
    return place.unread()


def no_reader(case):
    """Nobody reads what is told: that is a fault, and no signal ends the program."""
    folder, (reader, writer) = runs.room_for(case), os.pipe()
    os.close(reader)
    try:
        # A process that another trial begins may have the reader's end for a moment.
        gone = select.poll()
        gone.register(writer, 0)
        if not gone.poll(60_000):
            return "the pipe has a reader yet"
        status = runs.run(case, folder, stdout=writer).status
        return "" if status == 6 else "status %s" % status
    finally:
        os.close(writer)
        runs.clear(folder)


def named(case, is_right):
    """The last output has this name, which can be written or not."""
    folder = runs.room_for(case)
    try:
        before = runs.held(folder)
        ended = runs.run(case, folder)
        told = "" if is_right else case.writes[case.words[2]]
        made = sorted(name for name in ended.files if name not in before)
        wanted = sorted(os.path.normpath(name) for name in case.writes if is_right or name != case.words[2])
        wrong = differs(ended._replace(files={}), 0 if is_right else 6, told, {})
        return wrong or ("" if made == wanted else "there are %s" % ", ".join(name[:20] for name in made))
    finally:
        runs.clear(folder)
