# SPDX-License-Identifier: Apache-2.0
"""Traps the separated planes of a page where they lie in memory, over the shared library libtrap.

    report = trapping.trap(job, {"Cyan": cyan, "Magenta": magenta, "Yellow": yellow, "Black": black})

A sheet of any size is trapped window by window:

    report = trapping.trap_window(job, names, window, sheet=(24094, 17008), at=(0, 480), core=(0, 4, 2048, 512))

For many windows of one job, `OpenJob` reads the job once.

A plane is a writable buffer of samples of one byte or of two: a NumPy array of uint8 or uint16, a bytearray, an array.array or a
memoryview. 0 is no ink, `maxval` is full ink. Rows run from the top, samples in a row from the left.

Any number of threads may trap at once, each its own planes: the GIL is released during the call.
"""
from ._arguments import Job
from ._kinds import Kind
from ._library import library_path
from ._open import JobInfo, OpenJob
from ._planes import Samples
from ._refusal import Refusal, TrapError
from ._report import Report, Zone
from ._trap import halo, library_version, trap, trap_stack, trap_window

__all__ = ["Job", "JobInfo", "Kind", "OpenJob", "Refusal", "Report", "Samples", "TrapError", "Zone", "halo", "library_path",
           "library_version", "trap", "trap_stack", "trap_window"]
