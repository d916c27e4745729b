# SPDX-License-Identifier: Apache-2.0
"""Profiles: what an ICC file says of itself, and whether it is of a press with four inks."""
import struct
from dataclasses import dataclass

from .errors import PressError, Status
from .files import bytes_of
from .names import clean

HEAD_BYTES, ENTRY_BYTES, MOST_TAGS = 132, 12, 1000
CLASSES = {b"prtr": "output", b"mntr": "display", b"scnr": "input", b"link": "device link",
           b"spac": "colour space", b"abst": "abstract", b"nmcl": "named colour"}


@dataclass(frozen=True)
class Profile:
    """The name of a profile, its class, the space of its colours, and the names of its tables."""

    name: str
    kind: str
    space: str
    tables: frozenset[bytes]

    @property
    def is_of_press(self) -> bool:
        """Whether colours can be separated by it into cyan, magenta, yellow and black."""
        return self.kind == "output" and self.space == "CMYK" and b"B2A0" in self.tables


def read_profile(data: bytes) -> Profile | None:
    """What a profile says of itself; None if the bytes are no ICC profile."""
    if len(data) < HEAD_BYTES or data[36:40] != b"acsp":
        return None
    count = min(MOST_TAGS, struct.unpack_from(">I", data, HEAD_BYTES - 4)[0])
    tags = {}
    for start in range(HEAD_BYTES, min(len(data) - ENTRY_BYTES + 1, HEAD_BYTES + count * ENTRY_BYTES), ENTRY_BYTES):
        tag, offset, size = struct.unpack_from(">4sII", data, start)
        tags[tag] = data[offset:offset + size]
    kind = CLASSES.get(data[12:16], data[12:16].decode("latin-1"))
    return Profile(name_in(tags.get(b"desc", b"")), kind, data[16:20].decode("latin-1").strip(), frozenset(tags))


def name_in(text: bytes) -> str:
    """The text of a description: ASCII in profiles of version 2, UTF-16 in several languages in those of version 4."""
    if text.startswith(b"desc") and len(text) > 12:
        length, = struct.unpack_from(">I", text, 8)
        return clean(text[12:12 + length].partition(b"\0")[0].decode("latin-1"))
    if text.startswith(b"mluc") and len(text) >= 28:
        length, offset = struct.unpack_from(">II", text, 20)
        return clean(text[offset:offset + length].decode("utf-16-be", "replace").rstrip("\0"))
    return "a profile without a name"


def need_press_profile(path: str, place: str | None = None) -> None:
    """Refuses a file that is not the output profile of a press with four inks. `place` is what the line names, if
    it is not the path."""
    found = read_profile(bytes_of(path))
    if found is None:
        raise PressError(Status.INPUT, "no ICC profile", place or path)
    if not found.is_of_press:
        raise PressError(Status.INPUT, f"no CMYK output profile: '{found.name}' is of the class {found.kind} and of "
                         f"{found.space} colours", place or path)
