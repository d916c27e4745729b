# SPDX-License-Identifier: Apache-2.0
"""What is outside the programs: files that are read and written by name, and a text that is told."""
import os
import sys

MORE_THAN_IS_READ = 2000000


class ReadFault(Exception):
    """A file could not be read."""


class WriteFault(Exception):
    """A file could not be written."""


class TellFault(Exception):
    """A text could not be told."""


class Held:
    """Files that are held in memory, by name.

    `unwritable` tells of a name whether its file can't be created. The files of `full` are not held: as those of a
    full device they give NULs, more than any reader takes, and no byte can be written to them. `room` is how many
    bytes can be written in all. `mute` says that nothing can be told.
    """

    def __init__(self, files, unwritable=lambda name: False, full=(), room=None, mute=False):
        self.files, self.unwritable, self.full, self.room, self.mute = dict(files), unwritable, full, room, mute
        self.told = ""

    def read(self, name):
        if name in self.full:
            return bytes(MORE_THAN_IS_READ)
        if name not in self.files:
            raise ReadFault(name)
        return self.files[name]

    def write(self, name, data):
        if name in self.full or self.unwritable(name):
            raise WriteFault(name)
        self.files[name] = data[:self.room]
        if self.room is not None:
            self.room -= len(self.files[name])
        if self.files[name] != data:
            raise WriteFault(name)

    def write_together(self, files):
        """Files that grow side by side, and take their names in order once all are whole. None stands where one of them can't be begun
        or does not become whole; where one can't take its name, those before it stand."""
        before = dict(self.files)
        nameless = [place for place, (name, _) in enumerate(files) if self.has_slash_alone(name)]
        try:
            for place, (name, data) in enumerate(files):
                if place not in nameless:
                    self.write(name, data)
        except WriteFault:
            self.files = before
            raise
        if nameless:
            self.files = {**before, **dict(files[:nameless[0]])}
            raise WriteFault(files[nameless[0]][0])

    def has_slash_alone(self, name):
        """Whether nothing is wrong with a name but a slash at its end: its file is begun, and can't take it."""
        plain = name.rstrip("/")
        return plain != name and plain not in self.files and not self.unwritable(plain)

    def tell(self, text):
        if self.mute:
            raise TellFault()
        self.told += text


class Disk:
    """Real files and standard output."""

    def read(self, name):
        try:
            with open(name, "rb") as file:
                return file.read()
        except (OSError, ValueError):
            raise ReadFault(name)

    def write(self, name, data):
        try:
            with open(name, "wb") as file:
                file.write(data)
        except (OSError, ValueError):
            raise WriteFault(name)

    def write_together(self, files):
        """As files that are held in memory."""
        nameless = [place for place, (name, _) in enumerate(files) if self.has_slash_alone(name)]
        written = []
        try:
            for place, (name, data) in enumerate(files):
                if place not in nameless:
                    self.write(name, data)
                    written.append((place, name))
        except WriteFault:
            for _, name in written:
                os.remove(name)
            raise
        if nameless:
            for place, name in written:
                if place > nameless[0]:
                    os.remove(name)
            raise WriteFault(files[nameless[0]][0])

    def has_slash_alone(self, name):
        """Whether nothing is wrong with a name but a slash at its end."""
        plain = name.rstrip("/")
        return plain != name and not os.path.lexists(plain) and os.path.isdir(os.path.dirname(plain) or ".")

    def tell(self, text):
        try:
            sys.stdout.write(text)
            sys.stdout.flush()
        except OSError:
            raise TellFault()
