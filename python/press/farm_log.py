# SPDX-License-Identifier: Apache-2.0
"""The log of a farm, which GNU parallel writes: which pages came to an end, on which machine and how."""
import contextlib
import os
from collections.abc import Collection, Iterator, Sequence

from .files import write_text

LOG = "farm.log"
# What ssh ends with if it fails itself; and which fields of the log are a page's status and signal.
SSH_FAILED, STATUS_FIELD, SIGNAL_FIELD = "255", 6, 7


def logged(out: str) -> Iterator[tuple[int, str, str, str]]:
    """What parallel wrote down of each page that came to an end: its place among all, its machine, its status,
    its signal."""
    with contextlib.suppress(FileNotFoundError), open(os.path.join(out, LOG), "rb") as file:
        for line in file:
            fields = line.decode("utf-8", "surrogateescape").split("\t")
            if len(fields) > SIGNAL_FIELD and fields[0].isdigit():
                yield int(fields[0]), fields[1], fields[STATUS_FIELD], fields[SIGNAL_FIELD]


def logged_done(out: str, pages: Sequence[int]) -> set[int]:
    """The pages that parallel wrote down as done."""
    return {pages[at - 1] for at, _, status, signal in logged(out) if status == signal == "0" and at <= len(pages)}


def missing(out: str, pages: Collection[int]) -> set[int]:
    """The pages that are not in OUT."""
    there = set(os.listdir(out))
    return {page for page in pages if f"page-{page:03d}" not in there}


def why_lost(out: str, ended: bool, machine: str, status: str, signal: str) -> str:
    """Why a page is not done."""
    if not machine:
        return "its end was not written down" if ended else "it was not reached"
    machine = "this machine" if machine == ":" else machine
    if status == SSH_FAILED:
        return f"{machine} was lost, or cannot be reached"
    if not status == signal == "0":
        return f"press/all on {machine} ended with " + (status if signal == "0" else f"signal {signal}")
    if ended:
        return f"{machine} made it, and it is not in {out} here"
    return f"{machine} started nothing and gave no reason: check the space in its /tmp"


def amend_log(out: str, pages: Sequence[int], lost: Collection[int]) -> None:
    """Leaves in the log what parallel can go on with: whole lines, of which none calls a page done that is lost."""
    path = os.path.join(out, LOG)
    places = {str(at).encode() for at, page in enumerate(pages, 1) if page in lost}
    with contextlib.suppress(FileNotFoundError), open(path, "rb") as file:
        lines = [line.split(b"\t") for line in file if line.endswith(b"\n") and line.count(b"\t") > SIGNAL_FIELD]
        for fields in lines:
            if fields[0] in places and fields[STATUS_FIELD] == b"0":
                fields[STATUS_FIELD] = b"1"
        text = b"".join(b"\t".join(fields) for fields in lines)
        write_text(path, text.decode("utf-8", "surrogateescape"), "surrogateescape")
