# SPDX-License-Identifier: Apache-2.0
"""A job that is read once, for many windows."""
import ctypes
import threading
from types import TracebackType
from typing import NamedTuple, Optional, Sequence, Tuple, Type

from ._arguments import Job, job_bytes
from ._arguments import place as place_of
from ._calls import call, text_of
from ._library import Error, Handle, Info, export
from ._planes import Samples, stack_of
from ._kinds import Kind
from ._refusal import TrapError, error_of
from ._report import Report


class JobInfo(NamedTuple):
    """The figures of a job.

    resolution   in dpi; 0 if the job has none, and then it traps nothing
    halo         the rows and columns that a window needs around its core
    corner_step  a window's left and lower sides lie at multiples of so many samples, from the sheet's lower left corner
    reach        how far the widest trap extends from an edge, in half-samples
    zones        the zones of a report: what no settrapzone covers, and one for each settrapzone
    inks         the inks that the job names
    """

    resolution: int
    halo: int
    corner_step: int
    reach: int
    zones: int
    inks: int


class OpenJob:
    """A job that the library has read. Its windows are those of trap_window with the job's bytes, which are not read again.

        with trapping.OpenJob(job) as opened:
            halo = opened.halo()
            report = opened.trap_window(names, window, sheet=(24094, 17008), at=(0, 480), core=(0, 4, 2048, 512))

    One thread at a time is in a call: the others wait. So threads that are to trap in parallel have one each, by `share`. Raises
    TrapError for a fault of the job, and, in each call after `close`, for a job that is not open.
    """

    def __init__(self, job: Job) -> None:
        self._handle, self._turn = Handle(), threading.Lock()
        data = job_bytes(job)
        text_of("trap_open", data, len(data), ctypes.byref(self._handle), said=Error())

    def halo(self) -> int:
        """The rows and columns that a window needs around its core, as `halo` gives them for the job's bytes."""
        number = ctypes.c_uint32(0)
        with self._turn:
            status = export("trap_open_halo")(ctypes.byref(self._handle), ctypes.byref(number))
        if status:
            raise TrapError(Kind.HANDLE, "call: Handle")
        return number.value

    def info(self) -> JobInfo:
        """The figures of the job."""
        found, said = Info(), Error()
        with self._turn:
            status = export("trap_job_info")(ctypes.byref(self._handle), ctypes.byref(found), ctypes.byref(said))
        if status:
            raise error_of(said)
        return JobInfo(*(getattr(found, name) for name in JobInfo._fields))

    def trap_window(self, names: Sequence[str], window: Samples, *, sheet: Tuple[int, int],
                    at: Tuple[int, int] = (0, 0), core: Tuple[int, int, int, int], maxval: Optional[int] = None,
                    width: Optional[int] = None, height: Optional[int] = None, step: Optional[int] = None) -> Report:
        """Traps the core of a window of a sheet in place, as `trap_window` does with the job's bytes."""
        place = place_of(sheet, at, core)
        memory, width, height, step = stack_of(window, width, height, step)
        with self._turn:
            return call(f"trap_open_window{8 * memory.size}", (ctypes.byref(self._handle),), names, memory.address,
                        memory.size, (width, height, step), maxval, memory.sample_count(), ctypes.byref(place), is_open=True)

    def share(self) -> "OpenJob":
        """The same job once more, for another thread: it is copied, and not read again. Each is closed by itself."""
        other, said = type(self).__new__(type(self)), Error()
        other._handle, other._turn = Handle(), threading.Lock()
        with self._turn:
            if export("trap_share")(ctypes.byref(self._handle), ctypes.byref(other._handle), ctypes.byref(said)):
                raise error_of(said)
        return other

    def close(self) -> None:
        """Closes the job and frees its memory. Does nothing if it is closed."""
        with self._turn:
            export("trap_close")(ctypes.byref(self._handle))

    def __enter__(self) -> "OpenJob":
        return self

    def __exit__(self, kind: Optional[Type[BaseException]], error: Optional[BaseException],
                 trace: Optional[TracebackType]) -> None:
        self.close()

    def __del__(self) -> None:
        if getattr(self, "_turn", None) is not None and self._handle.is_open:
            self.close()
