# SPDX-License-Identifier: Apache-2.0
"""How a command starts: with a python3 that has the libraries that it needs. This module imports nothing but
the standard library."""
import importlib
import os
import sys

from .tools import missing_module

DEBIAN = "/usr/bin/python3"
TRIED = "PRESS_PYTHON"


def command_name() -> str:
    """How the running command calls itself in what it prints."""
    name = os.path.basename(sys.argv[0])
    return name if name == "trapper" else "press-" + name


def need_libraries(*modules: str) -> None:
    """Imports modules. If one is not there, Debian's python3 runs the command in place of the one on the PATH;
    if that lacks it too, the command ends with a line that names the Debian package."""
    tried = os.environ.pop(TRIED, None)
    try:
        for module in modules:
            importlib.import_module(module)
    except ImportError as fault:
        if not tried and os.path.exists(DEBIAN):
            os.execve(DEBIAN, [DEBIAN, *sys.argv], {**os.environ, TRIED: DEBIAN})
        refusal = missing_module(fault.name or modules[0])
        print(f"{command_name()}: {refusal}", file=sys.stderr)
        sys.exit(refusal.status)
