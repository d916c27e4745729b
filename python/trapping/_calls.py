# SPDX-License-Identifier: Apache-2.0
"""How the library's functions are called, and their text."""
import ctypes
from typing import Any, Optional, Sequence, Tuple

from ._arguments import name_lines, numbers
from ._library import Counts, Error, export
from ._refusal import Refusal, error_of
from ._report import Report

# A buffer of this size holds every report and every error line (LIBTRAP_TEXT_SIZE of trap.h).
_TEXT_SIZE = 16384


def text_of(name: str, *given: Any, counts: Optional[Counts] = None, said: Optional[Error] = None) -> str:
    """Calls a function with these arguments and a buffer, and returns its text; a Refusal if it failed.

    counts  a struct for the counts, if the function takes one
    said    a struct for the error, if the function takes one: then a TrapError is raised
    """
    text, length = ctypes.create_string_buffer(_TEXT_SIZE), ctypes.c_size_t(0)
    more = [ctypes.byref(struct) for struct in (counts, said) if struct is not None]
    status = export(name)(*given, ctypes.addressof(text), _TEXT_SIZE, ctypes.byref(length), *more)
    printed = text.raw[:min(length.value, _TEXT_SIZE)].decode("ascii")
    if status:
        line = printed.rstrip("\n")
        raise Refusal(status, line) if said is None else error_of(said, line)
    return printed


def call(name: str, job: Tuple[Any, ...], names: Sequence[str], address: int, size: int, sides: Tuple[int, int, int],
         maxval: Optional[int], count: int, *place: Any, is_open: bool = False) -> Report:
    """Calls a function on samples in memory: of a page, or of a window if there is a place.

    job     what the function takes for the job: its bytes and their number, or an open job
    size    the bytes of a sample; `count` is how many samples there are
    is_open whether the job is open: then the function gives its counts and its error in numbers
    sides   the width, the height and the step
    """
    if maxval is None:
        maxval = 255 if size == 1 else 65535
    layout = numbers(*sides, maxval)
    listed = name_lines(names)
    given = (*job, listed, len(listed), address, count, *layout, *place)
    if not is_open:
        return Report(text_of(name, *given))
    counts = Counts()
    return Report.of(text_of(name, *given, counts=counts, said=Error()), counts, names)
