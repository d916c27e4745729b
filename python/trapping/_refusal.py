# SPDX-License-Identifier: Apache-2.0
"""What is raised if a call fails."""
import ctypes
import re
from typing import Any, Optional, Tuple

from ._kinds import PARAMETERS, Kind
from ._library import Error

CALL, JOB, PAGE, MEMORY = 2, 3, 4, 7
_SUBJECTS = {CALL: "call", JOB: "job", PAGE: "page", MEMORY: "memory"}
_LINE = re.compile(r"(?P<subject>[a-z]+(?: \d+)?): (?P<kind>\w+)(?: (?P<detail>\S.*?))??(?: at (?P<place>\d+))?$")


class Refusal(Exception):
    """A call that failed: no plane was changed.

    line     the library's error line, such as "job: OutOfRange TrapWidth at 14"
    status   2 for the arguments, 3 for the job, 4 for the page, 7 if memory ran out
    subject  what is wrong: "call", "job", "page", "plate 1", "sheet" or "memory"
    kind     the fault's name, such as "OutOfRange"; docs/JOBS.md has those of a job
    detail   what else the fault names, such as "TrapWidth", or None
    place    its offset: a byte of the job, counted from 0, or a sample of the plate, row by row; or None
    """

    line: str
    status: int
    subject: str
    kind: str
    detail: Optional[str]
    place: Optional[int]

    def __init__(self, status: int, line: str) -> None:
        super().__init__(line)
        self.status = status
        self.line = line
        parts = _LINE.match(line)
        self.subject = parts["subject"] if parts else _SUBJECTS.get(status, line)
        self.kind = parts["kind"] if parts else "OutOfMemory" if status == MEMORY else line
        self.detail = parts["detail"] if parts else None
        self.place = int(parts["place"]) if parts and parts["place"] else None

    def __reduce__(self) -> Tuple[Any, ...]:  # so that it goes through a pool of processes
        return type(self), (self.status, self.line)


class TrapError(Refusal):
    """A call over an open job that failed, in the numbers that the library gives beside its line.

    code       the Kind of the error, such as Kind.OUT_OF_RANGE
    plate      the plane that the line names, counted from 0, or None
    zone       the zone that it names, or None
    parameter  the trapping parameter that it names, such as "TrapWidth", or None

    Its line, status, subject, kind, detail and place are those of a Refusal.
    """

    code: Kind
    plate: Optional[int]
    zone: Optional[int]
    parameter: Optional[str]

    def __init__(self, code: int, line: str, plate: Optional[int] = None, zone: Optional[int] = None,
                 parameter: Optional[str] = None, place: Optional[int] = None) -> None:
        super().__init__(code // 100, line)
        self.code, self.kind = Kind(code), Kind(code).word()
        self.plate, self.zone, self.parameter, self.place = plate, zone, parameter, place

    def __reduce__(self) -> Tuple[Any, ...]:
        return type(self), (int(self.code), self.line, self.plate, self.zone, self.parameter, self.place)


def error_of(said: Error, line: str = "") -> TrapError:
    """The error that the library says in numbers; of a call without a text also its line."""
    none = ctypes.c_uint32(-1).value
    plate, zone = (None if number == none else number for number in (said.plate, said.zone))
    place = None if said.offset == ctypes.c_uint64(-1).value else said.offset
    argument = "out of memory" if said.kind == Kind.OUT_OF_MEMORY else f"call: {Kind(said.kind).word()}"
    return TrapError(said.kind, line or argument, plate, zone, PARAMETERS.get(said.name), place)
