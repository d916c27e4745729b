# SPDX-License-Identifier: Apache-2.0
"""Findings of preflight: a fault is refused, a warning is refused by --strict, and a note is only printed."""
from collections.abc import Iterable, Iterator
from dataclasses import dataclass
from typing import Any

from .errors import PressError, Status

FAULT, WARNING, NOTE = "fault", "warning", "note"
# The resolution of a common platesetter: no more is advised.
MOST_DPI = 2540


@dataclass(frozen=True)
class Finding:
    """Something that was found: its kind (docs/PREFLIGHT.md lists them), its level, the page from 1 or None for the
    whole file, the text, the status of a refusal for it, and its place in millimetres from the lower left corner of
    the page as it is drawn, if it has one."""

    kind: str
    level: str
    page: int | None
    text: str
    status: Status = Status.WARNED
    place: tuple[float, float] | None = None

    @property
    def said(self) -> str:
        """The text, with the page that it is of."""
        return f"page {self.page}: {self.text}" if self.page else self.text

    def as_data(self) -> dict[str, Any]:
        """The finding for machines."""
        place = {} if self.place is None else {"place": [round(side, 1) for side in self.place]}
        return {"kind": self.kind, "level": self.level, "page": self.page, "text": self.text, **place}


def page_ranges(pages: Iterable[int]) -> str:
    """Pages as people read them: 1-3, 7."""
    parts: list[list[int]] = []
    for page in sorted(pages):
        if parts and parts[-1][1] == page - 1:
            parts[-1][1] = page
        else:
            parts.append([page, page])
    return ", ".join(str(first) if first == last else f"{first}-{last}" for first, last in parts)


def lines_of(path: str, findings: Iterable[Finding]) -> Iterator[str]:
    """The findings as lines; a finding of several pages is one line."""
    together: dict[tuple[str, str, str], list[int | None]] = {}
    for one in findings:
        together.setdefault((one.level, one.kind, one.text), []).append(one.page)
    for (level, kind, text), pages in together.items():
        numbers = [page for page in pages if page is not None]
        several = "pages" if len(pages) > 1 else "page"
        where = f"{path}: {several} {page_ranges(numbers)}: " if len(numbers) == len(pages) else f"{path}: "
        yield f"{where}{level}: {kind}: {text}"


def percent(share: float) -> str:
    """A share of the page in whole per cent."""
    return f"{100 * share:.0f}%" if share >= 0.01 else "less than 1%"


def remedy(enough: int) -> str:
    """What helps strokes that are too thin for a trap: so many dpi, unless no platesetter has them."""
    return f"{enough} dpi would do" if enough <= MOST_DPI else "thicken them, or let them overprint"


def place_of(path: str, one: Finding) -> str | None:
    """The file or page of a finding. A text that begins with a file's own name needs none."""
    if one.page is None and one.kind in ("zones", "unknown-key"):
        return None
    return f"{path}: page {one.page}" if one.page else path


def refusal_for(path: str, findings: Iterable[Finding], strict: bool) -> PressError | None:
    """The refusal that findings call for, or None: of the first fault, or with `strict` of the first warning."""
    found = list(findings)
    for level in (FAULT, WARNING) if strict else (FAULT,):
        for one in found:
            if one.level == level:
                strictly = " (--strict)" if level == WARNING else ""
                return PressError(one.status, one.text + strictly, place_of(path, one))
    return None


def refuse(path: str, findings: Iterable[Finding], strict: bool) -> None:
    """Raises the refusal that findings call for, if they do."""
    if refusal := refusal_for(path, findings, strict):
        raise refusal
