# SPDX-License-Identifier: Apache-2.0
"""The press room: from a PDF to trapped plates, TIFF files and a proof.

    from press import Settings, run

    result = run("label.pdf", "out", Settings(dpi=600), observer=print)
    print(result.failed or "all pages are done")

`run` goes the whole way for the pages of a file, `make_page` makes one page into a folder of plates, and `trap` traps
such a folder. What they refuse is a `PressError` with a status, a message and a place.
"""
import importlib
from typing import TYPE_CHECKING, Any

if TYPE_CHECKING:
    from .engine import trap
    from .errors import PressError, Status
    from .folder import PageFolder
    from .make import make_page
    from .runs import RunResult, run
    from .settings import Settings, parameters

# Where each name is. Nothing is imported before it is asked for: a command must be able to look for its libraries
# first.
PLACES = {"PageFolder": "folder", "PressError": "errors", "RunResult": "runs", "Settings": "settings",
          "Status": "errors", "make_page": "make", "parameters": "settings", "run": "runs", "trap": "engine"}
__all__ = ["PageFolder", "PressError", "RunResult", "Settings", "Status", "make_page", "parameters", "run", "trap"]


def __getattr__(name: str) -> Any:
    if name not in PLACES:
        raise AttributeError(f"module {__name__!r} has no attribute {name!r}")
    return getattr(importlib.import_module(f".{PLACES[name]}", __name__), name)
