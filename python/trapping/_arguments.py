# SPDX-License-Identifier: Apache-2.0
"""Checks of arguments, before the library is called."""
from typing import Iterable, List, Sequence, Tuple, Union

from ._library import Place
from ._planes import Memory

Job = Union[bytes, bytearray, memoryview, str]


def job_bytes(job: Job) -> bytes:
    """The bytes of a job; a TypeError for what is no text and no bytes."""
    if isinstance(job, str):
        return job.encode()
    if isinstance(job, (bytes, bytearray, memoryview)):
        return bytes(job)
    raise TypeError(f"a job is bytes or str, not {type(job).__name__}")


def name_lines(names: Sequence[str]) -> bytes:
    """The names of colorants as the library takes them, an LF between two.

    Raises TypeError for a str in place of a sequence and for a name that is no str, ValueError for a name with an LF.
    """
    if isinstance(names, str):
        raise TypeError("names are a sequence of str, not one str")
    for name in names:
        if not isinstance(name, str):
            raise TypeError(f"a colorant's name is a str, not {type(name).__name__}")
        if "\n" in name:
            raise ValueError(f"the name {name!r} has a line feed")
    return "\n".join(names).encode()


def numbers(*given: int) -> Tuple[int, ...]:
    """The numbers, if each fits into 32 bits; otherwise a ValueError."""
    for number in given:
        if not 0 <= number < 1 << 32:
            raise ValueError(f"{number} does not fit into 32 bits")
    return given


def place(sheet: Sequence[int], at: Sequence[int], core: Sequence[int]) -> Place:
    """The place of a window on its sheet.

    Raises ValueError if `sheet` or `at` has not two numbers, if `core` has not four, and if the core is empty.
    """
    for name, given, count in (("sheet", sheet, 2), ("at", at, 2), ("core", core, 4)):
        if len(given) != count:
            raise ValueError(f"{name} has {count} numbers, not {len(given)}: {tuple(given)!r}")
    found = Place(*numbers(*sheet, *at, *core))
    if not found.core_width or not found.core_height:
        raise ValueError(f"the core {tuple(core)!r} is empty")
    return found


def check_apart(planes: List[Memory]) -> None:
    """Raises ValueError if two planes share memory."""
    spans = [plane.span() for plane in planes]
    if not _are_apart(spans) and not _are_apart(row for plane in planes for row in plane.rows()):
        raise ValueError("two planes share memory")


def _are_apart(spans: Iterable[Tuple[int, int]]) -> bool:
    """Whether no two of these stretches of memory overlap."""
    ordered = sorted(spans)
    return all(end <= begin for (_, end), (begin, _) in zip(ordered, ordered[1:]))
