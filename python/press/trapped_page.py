# SPDX-License-Identifier: Apache-2.0
"""A trapped page for the outputs: its plates before and after, and how they were drawn."""
import os
from dataclasses import dataclass
from typing import NamedTuple

from .errors import PressError, Status
from .folder import PageFolder
from .job_record import OPTIONS, page_of, read_record
from .plates import Plates


class Drawn(NamedTuple):
    """How the page was drawn, so far as its folder records it: the box, the digest of the file, the press's profile,
    and whether the file's own output intent was taken for that."""

    box: str | None = None
    digest: str | None = None
    icc: str | None = None
    output_intent: bool = False


@dataclass(frozen=True)
class TrappedPage:
    """A page folder that was trapped. Of its plates no more is in memory than is looked at."""

    folder: PageFolder
    drawn: Drawn
    before: Plates
    after: Plates

    @property
    def number(self) -> int:
        """The page's number in its file, from 1."""
        return self.folder.source.page

    @property
    def dpi(self) -> int:
        """Pixels per inch."""
        return self.folder.source.resolution

    @property
    def size(self) -> tuple[int, int]:
        """Width and height in pixels."""
        return self.after.width, self.after.height


def how_drawn(folder: str, number: int) -> Drawn:
    """What the record in the page's folder, or that of the run above it, has of how the page was drawn."""
    above = os.path.dirname(os.path.abspath(folder))
    for place, out in ((folder, above), (above, above)):
        page = page_of(read_record(place), number)
        if not page:
            continue
        box, options = page.get("box", {}).get("name"), page.get(OPTIONS, {})
        icc = os.path.relpath(os.path.join(out, options["icc"])) if "icc" in options else None
        return Drawn(box, page.get("sha256"), icc, "output-intent" in options)
    return Drawn()


def read_trapped_page(path: str) -> TrappedPage:
    """A page folder that was trapped, with plates of 8 bits."""
    folder = PageFolder.read(path)
    folder.need_trapped()
    if folder.head.maxval != 255:
        raise PressError(Status.PLATES, f"maxval {folder.head.maxval}: this output is made of plates of 8 bits", path)
    return TrappedPage(folder, how_drawn(path, folder.source.page), folder.plates(), folder.plates(True))
