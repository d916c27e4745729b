# SPDX-License-Identifier: Apache-2.0
"""Bounds what the C library keeps of freed memory. By default each thread has a heap of its own, and keeps there what
its largest picture took."""
from __future__ import annotations

import ctypes

TRIM_THRESHOLD, MMAP_THRESHOLD, ARENA_MAX = -1, -3, -8
"""Parameters of mallopt (malloc.h)."""
HEAPS = 2
LARGEST_IN_HEAP = 8 << 20
"""Bytes of what is kept in a heap for the next one: a picture of a view. Larger ones are mapped, and given back."""
MOST_FREE = 32 << 20


def give_back() -> None:
    """Gives the memory that is kept for the next picture back to the system. Does nothing if the C library cannot."""
    trim = getattr(ctypes.CDLL(None), "malloc_trim", None)
    if trim:
        trim(0)


def share_heaps() -> None:
    """Has all threads that begin later share a few heaps. Does nothing if the C library has no such thing."""
    mallopt = getattr(ctypes.CDLL(None), "mallopt", None)
    if mallopt:
        for parameter, value in ((ARENA_MAX, HEAPS), (MMAP_THRESHOLD, LARGEST_IN_HEAP), (TRIM_THRESHOLD, MOST_FREE)):
            mallopt(parameter, value)
