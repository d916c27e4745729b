# SPDX-License-Identifier: Apache-2.0
"""Refusals: one exception with a status, a message and a place."""
import enum
import os

# Made of docs/STATUSES.md by tools/pages.
STATUSES = """Status:
  0  done
  1  a page failed, or the trapped PDF was not written (press/all, press/farm); two versions differ (press/compare)
  2  usage error: an unknown option, a missing argument or one too many
  3  a tool or a program is not installed
  4  a file cannot be read, or was replaced while it was read
  5  Ghostscript cannot read the PDF, or the PDF has no such page
  6  the folder has no plates
  7  the plates do not form a page: two sizes, too many colorants or samples
  8  an output cannot be written or replaced, is another file's, or another run works there
  9  a trapping program refuses the page or its job; its line is printed
  10 preflight has a warning, and --strict is given
"""
# End of what is made.


class Status(enum.IntEnum):
    """How a command ends: one status for each kind of refusal."""

    DONE = 0
    PAGES_FAILED = 1
    USAGE = 2
    NO_TOOL = 3
    INPUT = 4
    PDF = 5
    NO_PLATES = 6
    PLATES = 7
    OUTPUT = 8
    PROGRAM = 9
    WARNED = 10


class PressError(Exception):
    """Why something is refused: the status that a command ends with, the message, and the file or page that it
    speaks of."""

    def __init__(self, status: Status, message: str, place: str | None = None) -> None:
        super().__init__(status, message, place)
        self.status = status
        self.message = message
        self.place = place

    def __str__(self) -> str:
        """The line that people read."""
        return f"{self.place}: {self.message}" if self.place else self.message


class UsageError(PressError):
    """An option or an operand that a command does not take."""

    def __init__(self, message: str) -> None:
        super().__init__(Status.USAGE, message)
        self.args = (message,)


def reason(fault: Exception) -> str:
    """The system's own words for a fault."""
    return getattr(fault, "strerror", None) or str(fault)


def refusal_of(fault: PressError | OSError, place: str) -> PressError:
    """A refusal as it is; or that for a fault of the system, with the file that it names, or else a place."""
    if isinstance(fault, PressError):
        return fault
    named = os.fsdecode(fault.filename) if isinstance(fault.filename, (str, bytes)) else place
    refusal = PressError(Status.OUTPUT, reason(fault), named)
    refusal.__cause__ = fault
    return refusal
