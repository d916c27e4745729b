# SPDX-License-Identifier: Apache-2.0
"""The calls that trap a page, or a window of a sheet."""
import ctypes
from typing import List, Mapping, Optional, Sequence, Tuple

from ._arguments import Job, check_apart, job_bytes
from ._arguments import place as place_of
from ._calls import call, text_of
from ._library import export
from ._planes import Memory, Samples, Stack, memory_of, sides_of, stack_of
from ._report import Report


def trap(job: Job, planes: Mapping[str, Samples], *, maxval: Optional[int] = None, width: Optional[int] = None,
         height: Optional[int] = None) -> Report:
    """Traps the planes of a page in place, and returns the report.

    job      the job (docs/JOBS.md)
    planes   by colorant name, a writable buffer of the plane's samples: a NumPy array of height rows by width columns, or any
             buffer of height * width samples if both are given. All have one size and one type, bytes or 16-bit numbers in
             the machine's byte order. 0 is no ink.
    maxval   the tint of full ink; the default is 255, or 65,535 for 16-bit samples
    width, height   the sides of a plane in samples, for buffers without rows of their own

    Planes that are not adjacent in memory, in the order of the mapping, are copied there and back; trap_stack takes one array
    of all planes and copies nothing. Raises Refusal for a fault of the job, the page or the arguments, and TypeError or
    ValueError for buffers that are not planes of one size or share memory; no plane is then changed.
    """
    found = [memory_of(plane) for plane in planes.values()]
    if not found:
        raise ValueError("a page has at least one plane")
    width, height = sides_of(found[0], width, height)
    for name, memory in zip(planes, found):
        _check(name, memory, found[0], width, height)
    check_apart(found)
    names = list(planes)
    sides, count = (width, height, width), len(found) * width * height
    if _are_adjacent(found, width, height):
        return _trap(job, names, found[0].address, found[0].size, sides, maxval, count)
    stack = Stack(found, width, height)
    report = _trap(job, names, stack.address, found[0].size, sides, maxval, count)
    stack.fill()
    return report


def trap_stack(job: Job, names: Sequence[str], stack: Samples, *, maxval: Optional[int] = None, width: Optional[int] = None,
               height: Optional[int] = None, step: Optional[int] = None) -> Report:
    """Traps adjacent planes in one buffer, such as a NumPy array of planes by rows by columns, without a copy.

    names    the planes' colorants in their order
    width    if it is less than the columns of the array, the columns to the right of it are padding and not changed
    step     the distance between rows in samples: by default the columns of the array, or the width

    Otherwise like `trap`.
    """
    memory, width, height, step = stack_of(stack, width, height, step)
    return _trap(job, names, memory.address, memory.size, (width, height, step), maxval, memory.sample_count())


def trap_window(job: Job, names: Sequence[str], window: Samples, *, sheet: Tuple[int, int], at: Tuple[int, int] = (0, 0),
                core: Tuple[int, int, int, int], maxval: Optional[int] = None, width: Optional[int] = None,
                height: Optional[int] = None, step: Optional[int] = None) -> Report:
    """Traps the core of a window of a sheet in place: the result is what the rule gives on the whole sheet, whatever lies beyond
    the window. All other samples are unchanged.

    window   the window's planes, one after the other, as `trap_stack` takes them: an array of planes by rows by columns
    sheet    the sheet's columns and rows, up to 262,144 each
    at       the window's first column and row on the sheet
    core     the core's first column and row in the window, and its numbers of columns and rows

    On each side that is not a border of the sheet the window extends at least `halo` samples beyond its core. Returns the
    core's part of the report: the counts of cores that tile a sheet add up to those of the sheet. Otherwise like `trap_stack`;
    raises ValueError for a tuple of another length and for an empty core, and a Refusal of the kind "Place" for a place that
    does not fit.
    """
    place = place_of(sheet, at, core)
    memory, width, height, step = stack_of(window, width, height, step)
    data = job_bytes(job)
    return call(f"trap_window{8 * memory.size}", (data, len(data)), names, memory.address, memory.size,
                (width, height, step), maxval, memory.sample_count(), ctypes.byref(place))


def halo(job: Job) -> int:
    """The rows and columns that a window needs around its core, on each side that is not a border of the sheet.

    It is how far the job's widest trap reaches, rounded up to whole samples, and at least one. Raises Refusal if the
    job has a fault."""
    data, number = job_bytes(job), ctypes.c_uint32(0)
    text_of("trap_halo", data, len(data), ctypes.byref(number))
    return number.value


def library_version() -> Tuple[int, int, int]:
    """The version of the library that is loaded."""
    number = export("trap_version")()
    return number // 10000, number // 100 % 100, number % 100


def _check(name: str, memory: Memory, first: Memory, width: int, height: int) -> None:
    """Checks that a plane has the size and type of its page."""
    if memory.size != first.size:
        raise ValueError("plane %s has samples of %d bytes, and the first of %d" % (name, memory.size, first.size))
    is_rows = len(memory.shape) == 1 or memory.shape == (height, width)
    if memory.sample_count() != width * height or not is_rows:
        raise ValueError("plane %s is %r, not a plane of %d rows by %d columns" % (name, memory.shape, height, width))
    if memory.strides[-1] != memory.size:
        raise ValueError("the samples of a row of plane %s must be adjacent" % name)


def _are_adjacent(planes: List[Memory], width: int, height: int) -> bool:
    """Whether the planes are adjacent in memory."""
    plane = width * height * planes[0].size
    first = planes[0].address
    return all(memory.is_packed() and memory.address == first + c * plane for c, memory in enumerate(planes))


def _trap(job: Job, names: Sequence[str], address: int, size: int, sides: Tuple[int, int, int], maxval: Optional[int],
          count: int) -> Report:
    """Traps a page of samples in memory."""
    data = job_bytes(job)
    return call(f"trap_planes{8 * size}", (data, len(data)), names, address, size, sides, maxval, count)
