# SPDX-License-Identifier: Apache-2.0
"""Planes as Python holds them: where the samples of a buffer lie."""
import ctypes
import sys
from typing import TYPE_CHECKING, Any, Iterator, NamedTuple, Optional, Tuple, Union

if TYPE_CHECKING:
    import array

    import numpy

    Samples = Union[bytearray, memoryview, "array.array[int]", "numpy.ndarray[Any, Any]"]
    """A writable buffer of samples of one byte or of two, in the machine's order."""
else:
    Samples = Any

_ORDER = "<" if sys.byteorder == "little" else ">"
# Of buffers, in the forms of array.array and of ctypes, and of NumPy's arrays.
_SIZES = {"B": 1, "H": 2, "<B": 1, ">B": 1, _ORDER + "H": 2, "|u1": 1, _ORDER + "u2": 2}


class Memory(NamedTuple):
    """Samples in memory: where the first is, the bytes of each, the sides of the array, how many bytes there are from one to
    the next along each side, and what keeps the buffer in its place."""

    address: int
    size: int
    shape: Tuple[int, ...]
    strides: Tuple[int, ...]
    keeper: Any

    def is_packed(self) -> bool:
        """Whether no byte lies between one sample and the next."""
        return self.strides == _packed(self.shape, self.size)

    def sample_count(self) -> int:
        """How many samples there are."""
        count = 1
        for side in self.shape:
            count *= side
        return count

    def rows(self) -> Iterator[Tuple[int, int]]:
        """Where each row begins and ends in memory."""
        row = self.shape[-1] * self.size
        starts = [self.address]
        for side, stride in zip(self.shape[:-1], self.strides[:-1]):
            starts = [start + k * stride for start in starts for k in range(side)]
        return ((start, start + row) for start in starts)

    def span(self) -> Tuple[int, int]:
        """The lowest address of a sample, and the end of the highest."""
        if not self.sample_count():
            return self.address, self.address
        ways = [(side - 1) * stride for side, stride in zip(self.shape, self.strides)]
        low = sum(min(0, way) for way in ways)
        high = sum(max(0, way) for way in ways)
        return self.address + low, self.address + high + self.size


def memory_of(samples: Samples) -> Memory:
    """Where the samples of a buffer lie; a TypeError where they are no samples, or cannot be written."""
    interface = getattr(samples, "__array_interface__", None)
    memory = _of_buffer(samples) if interface is None else _of_array(samples, interface)
    if not 1 <= len(memory.shape) <= 3:
        raise TypeError("samples have one to three dimensions, and not %d" % len(memory.shape))
    return memory


def _of_array(samples: Any, interface: Any) -> Memory:
    """A NumPy array, or what shows itself as one. Its rows may lie apart."""
    address, is_fixed = interface["data"]
    size = _size_of(interface["typestr"], is_fixed)
    shape = tuple(interface["shape"])
    return Memory(address, size, shape, tuple(interface.get("strides") or _packed(shape, size)), samples)


def _of_buffer(samples: Any) -> Memory:
    """Any other buffer, without gaps."""
    view = memoryview(samples)
    size = _size_of(view.format, view.readonly)
    if not view.c_contiguous:
        raise TypeError("the samples of a buffer have to lie one after the other")
    shape = tuple(view.shape or ())
    held = (ctypes.c_char * view.nbytes).from_buffer(samples)
    return Memory(ctypes.addressof(held), size, shape, _packed(shape, size), held)


def _size_of(kind: str, is_fixed: bool) -> int:
    size = _SIZES.get(kind)
    if size is None:
        raise TypeError("samples are of one byte or of two, without sign, in the machine's order, and not %r" % kind)
    if is_fixed:
        raise TypeError("the samples cannot be written")
    return size


def _packed(shape: Tuple[int, ...], size: int) -> Tuple[int, ...]:
    """The strides of samples without gaps."""
    strides: Tuple[int, ...] = ()
    for side in reversed(shape):
        strides = (size, *strides)
        size *= side
    return strides


def sides_of(memory: Memory, width: Optional[int], height: Optional[int]) -> Tuple[int, int]:
    """The sides of one plane: those given, or those of the array."""
    if len(memory.shape) > 1:
        width = memory.shape[-1] if width is None else width
        height = memory.shape[-2] if height is None else height
    if width is None or height is None:
        raise TypeError("width and height must be given for a buffer without rows of its own")
    return width, height


def stack_of(stack: Samples, width: Optional[int], height: Optional[int], step: Optional[int]) -> Tuple[Memory, int, int, int]:
    """The memory of the planes of a stack, the sides of each, and the distance between rows in samples."""
    memory = memory_of(stack)
    if not memory.is_packed():
        raise TypeError("the planes of a stack must be adjacent, without gaps; give padding by width")
    if step is None:
        step = memory.shape[-1] if len(memory.shape) > 1 else width
    width, height = sides_of(memory, width, height)
    return memory, width, height, width if step is None else step


class Stack:
    """A copy of planes, one after the other, from which they can be filled again."""

    def __init__(self, planes: "list[Memory]", width: int, height: int) -> None:
        self.planes = planes
        self.width, self.height = width, height
        self.row = width * planes[0].size
        self.held = ctypes.create_string_buffer(max(1, len(planes) * height * self.row))
        self._move(lambda here, there, count: ctypes.memmove(here, there, count))

    @property
    def address(self) -> int:
        """Where the copy begins."""
        return ctypes.addressof(self.held)

    def fill(self) -> None:
        """Fills the planes with what the copy holds now."""
        self._move(lambda here, there, count: ctypes.memmove(there, here, count))

    def _move(self, move: Any) -> None:
        here = self.address
        for plane in self.planes:
            if plane.is_packed():
                move(here, plane.address, self.height * self.row)
            else:
                for y in range(self.height):
                    move(here + y * self.row, plane.address + y * plane.strides[-2], self.row)
            here += self.height * self.row
