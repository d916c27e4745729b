# SPDX-License-Identifier: Apache-2.0
"""Finds the shared library, and declares what it exports."""
import ctypes
import os
from typing import Any, Callable, Dict

NAME = "libtrap.so.1"

_bytes = (ctypes.c_char_p, ctypes.c_size_t)
_memory = (ctypes.c_void_p, ctypes.c_size_t)
_text = (*_memory, ctypes.POINTER(ctypes.c_size_t))
_page = (*_bytes, *_bytes, *_memory, *[ctypes.c_uint32] * 4)


class Place(ctypes.Structure):
    """The place of a window on its sheet, and of its core: struct trap_place of trap.h."""

    _fields_ = [(name, ctypes.c_uint32) for name in (
        "sheet_width", "sheet_height", "left", "top", "core_left", "core_top", "core_width", "core_height")]


class Handle(ctypes.Structure):
    """An open job: struct trap_job of trap.h. One that is made here is not open."""

    _fields_ = [("inner", ctypes.c_void_p), ("is_open", ctypes.c_uint8)]


class Info(ctypes.Structure):
    """The figures of an open job: struct trap_info of trap.h. One that is made here has its size."""

    _fields_ = [(name, ctypes.c_uint32) for name in ("size", "resolution", "halo", "corner_step", "reach", "zones")] + [
        ("inks", ctypes.c_uint64)]

    def __init__(self) -> None:
        super().__init__(size=ctypes.sizeof(Info))


class Error(ctypes.Structure):
    """What a call over an open job says of its error: struct trap_error of trap.h. One that is made here has its size."""

    _fields_ = [(name, ctypes.c_uint32) for name in ("size", "status", "kind", "plate", "zone", "name")] + [
        ("offset", ctypes.c_uint64), ("rows", ctypes.c_uint64)]

    def __init__(self) -> None:
        super().__init__(size=ctypes.sizeof(Error))


class Counts(ctypes.Structure):
    """The counts of a report: struct trap_report of trap.h. One that is made here has its size."""

    _fields_ = [(name, ctypes.c_uint32) for name in ("size", "zones", "planes")] + [
        ("edges", ctypes.c_uint64), ("zone_samples", ctypes.c_uint64 * 251), ("zone_changed", ctypes.c_uint64 * 251),
        ("plane_changed", ctypes.c_uint64 * 16)]

    def __init__(self) -> None:
        super().__init__(size=ctypes.sizeof(Counts))


_window = (*_page, ctypes.POINTER(Place), *_text)
_open_window = (ctypes.POINTER(Handle), *_window[2:], ctypes.POINTER(Counts), ctypes.POINTER(Error))
_ARGUMENTS = {
    "trap_planes8": (*_page, *_text),
    "trap_planes16": (*_page, *_text),
    "trap_window8": _window,
    "trap_window16": _window,
    "trap_halo": (*_bytes, ctypes.POINTER(ctypes.c_uint32), *_text),
    "trap_open": (*_bytes, ctypes.POINTER(Handle), *_text, ctypes.POINTER(Error)),
    "trap_share": (ctypes.POINTER(Handle), ctypes.POINTER(Handle), ctypes.POINTER(Error)),
    "trap_close": (ctypes.POINTER(Handle),),
    "trap_open_halo": (ctypes.POINTER(Handle), ctypes.POINTER(ctypes.c_uint32)),
    "trap_job_info": (ctypes.POINTER(Handle), ctypes.POINTER(Info), ctypes.POINTER(Error)),
    "trap_open_window8": _open_window,
    "trap_open_window16": _open_window,
    "trap_version": (),
}

_RESULTS: Dict[str, Any] = {"trap_version": ctypes.c_uint32, "trap_close": None}

_exports: Dict[str, Callable[..., int]] = {}  # of those that were called


def library_path() -> str:
    """The file of the library: that of TRAP_LIBRARY in the environment; or else the one in this package, the one that
    `make library` makes in the repository, or its name, which the system looks up."""
    given = os.environ.get("TRAP_LIBRARY")
    if given:
        return given
    here = os.path.dirname(os.path.abspath(__file__))
    repository = os.path.join(here, os.pardir, os.pardir, "library")
    places = [os.path.join(here, NAME)]
    if os.path.exists(os.path.join(repository, "trap.h")):
        places.append(os.path.join(repository, "out", NAME))
    return next((place for place in places if os.path.exists(place)), NAME)


def _load() -> ctypes.CDLL:
    try:
        return ctypes.CDLL(library_path())
    except OSError as error:
        raise ImportError("%s could not be loaded; set TRAP_LIBRARY to its file: %s" % (NAME, error)) from error


def export(name: str) -> Callable[..., int]:
    """The export of that name, with the arguments that trap.h gives it. The library is loaded at the first call."""
    if name not in _exports:
        found: Any = getattr(_load(), name, None)
        if found is None:
            raise ImportError(f"{library_path()} is not libtrap: it has no {name}")
        found.restype = _RESULTS.get(name, ctypes.c_uint8)
        found.argtypes = _ARGUMENTS[name]
        _exports[name] = found
    return _exports[name]
