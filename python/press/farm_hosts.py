# SPDX-License-Identifier: Apache-2.0
"""The machines of a farm. Each is probed once, before pages are handed out, in the way in which pages are started
there; one that fails is dropped."""
import contextlib
import os
import shlex
import subprocess
import tempfile
import time
from collections.abc import Iterator, Mapping, Sequence

from . import tools

# How long a machine may take to answer, in seconds; how many are asked at once; what one prints that can work.
PROBE_SECONDS, AT_ONCE, READY = 60, 32, "press-farm: ready"
LOCAL = ":"


def probe_script(path: str, out: str, token: str) -> str:
    """What a machine does when it is probed, as a shell reads it: it looks for all that a page needs there, says what
    is missing, and says at last that it can work. `token` is a file in OUT."""
    press = os.path.join(tools.PRESS, "all")
    checks = [(f"cd {shlex.quote(os.getcwd())}", f"there is no folder {os.getcwd()}"),
              (f"[ -r {shlex.quote(path)} ]", f"{path} cannot be read"),
              (f"[ -e {shlex.quote(token)} ]", f"{out} is another folder there, or there is none"),
              (f"[ -w {shlex.quote(out)} ]", f"nothing can be written into {out}"),
              ('d=$(mktemp -d) && rmdir "$d"', "nothing can be written into its folder of temporary files"),
              (f"[ -x {shlex.quote(press)} ]", f"there is no {press}"),
              (f"{shlex.quote(press)} --version >/dev/null", f"{press} does not start"),
              ("command -v gs >/dev/null", "gs is not there (Debian: apt install ghostscript)")]
    lines = [f"{{ {check}; }} 2>&1 || {{ echo {shlex.quote(why)}; exit 1; }}" for check, why in checks]
    return "\n".join([*lines, f"echo {shlex.quote(READY)}"])


@contextlib.contextmanager
def probing(login: str, script: str, variables: Sequence[str],
            environment: Mapping[str, str]) -> Iterator["subprocess.Popen[bytes]"]:
    """GNU parallel while it runs a script on one machine. The script is an input, in which it replaces nothing."""
    named = [word for name in variables for word in ("--env", name)]
    words = [tools.tool("parallel"), "--plain", "--null", "--jobs", "1", *named, "--sshlogin", login]
    with tempfile.TemporaryFile() as file:
        file.write(os.fsencode(script) + b"\0")
        file.seek(0)
        with tools.running(words, stdin=file, env=environment) as child:
            yield child


def answer(child: "subprocess.Popen[bytes]", end: float) -> str | None:
    """Why a machine that is probed cannot work, or None if it can. It may take until `end`, of the monotonic clock."""
    try:
        printed, complained = child.communicate(timeout=max(0.1, end - time.monotonic()))
    except subprocess.TimeoutExpired:
        return f"it does not answer within {PROBE_SECONDS} s"
    lines = [line.strip() for line in (printed + complained).decode("utf-8", "replace").splitlines() if line.strip()]
    if READY in lines:
        return None
    return lines[-1] if lines else "it starts nothing and gives no reason"


def probe(logins: Sequence[str], script: str, variables: Sequence[str],
          environment: Mapping[str, str]) -> dict[str, str]:
    """Probes machines, all of them once. Answers why each that cannot work cannot."""
    faults: dict[str, str] = {}
    for first in range(0, len(logins), AT_ONCE):
        with contextlib.ExitStack() as stack:
            end = time.monotonic() + PROBE_SECONDS
            children = [(login, stack.enter_context(probing(login, script, variables, environment)))
                        for login in logins[first:first + AT_ONCE]]
            for login, child in children:
                if why := answer(child, end):
                    faults[login] = why
    return faults
